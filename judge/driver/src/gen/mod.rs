//! Cases, each made from a seed and an index alone.

pub mod damage;
pub mod grown;
pub mod layouts;
pub mod limits;
pub mod lists;
pub mod names;
pub mod pairs;
pub mod runs;
pub mod sets;
pub mod spelling;
pub mod texts;
