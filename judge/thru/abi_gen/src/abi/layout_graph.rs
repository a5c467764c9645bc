//! Stand-in: `build_all` names it, `build_type` does not use it.

use super::types::TypeDef;

pub enum LayoutGraphError {
    CircularDependency(Vec<String>),
}

pub struct LayoutGraph;

impl LayoutGraph {
    pub fn build(_: &[TypeDef]) -> Self {
        LayoutGraph
    }

    pub fn topo_order(&self) -> Result<Vec<String>, LayoutGraphError> {
        Err(LayoutGraphError::CircularDependency(Vec::new()))
    }
}
