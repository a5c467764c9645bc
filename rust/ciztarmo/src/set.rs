//! Sets of types, and the layouts that they build to.

use crate::block::{Block, Body};
use crate::error::Error;
use crate::layout::{Explained, LayoutRef, TypeTree};
use crate::names::type_names;
use crate::refusal::Refusal;
use crate::types::Type;
use crate::values::{Run, Values};
use crate::work::{build_set, validate, validate_run, Work};
use alloc::string::ToString;
use alloc::vec::Vec;

const SET: u16 = 36;

/// A set of types, in order.
#[derive(Clone, Debug, Default, PartialEq, Eq)]
pub struct Set {
    types: Vec<Type>,
}

impl Set {
    /// A set without types.
    pub fn new() -> Self {
        Set::default()
    }

    /// The set with one more type behind the others.
    pub fn with(mut self, added: Type) -> Self {
        self.types.push(added);
        self
    }

    /// The block 36.
    pub fn to_bytes(&self) -> Result<Vec<u8>, Error> {
        let types: Vec<Block> = self.types.iter().map(Type::block).collect();
        let mut body = Body::new();
        body.blocks("types", &types)?;
        body.close(SET)
    }

    /// Builds the layout of every type.
    pub fn build(&self) -> Result<Layout, Error> {
        self.built(build_set(&self.to_bytes()?))
    }

    /// [`build`](Set::build) with the caller's working words.
    pub fn build_with(&self, work: &mut Work) -> Result<Layout, Error> {
        self.built(work.build_set(&self.to_bytes()?))
    }

    fn built(&self, answer: Result<Vec<u8>, Refusal>) -> Result<Layout, Error> {
        let bytes = answer.map_err(|refusal| self.refused(refusal))?;
        Ok(Layout { bytes })
    }

    fn refused(&self, refusal: Refusal) -> Error {
        let at = refusal.place().and_then(|p| self.types.get(usize::from(p)));
        Error::Refused {
            refusal,
            type_name: at.map(|t| t.name().to_string()),
        }
    }
}

impl FromIterator<Type> for Set {
    fn from_iter<I: IntoIterator<Item = Type>>(types: I) -> Self {
        Set {
            types: types.into_iter().collect(),
        }
    }
}

/// A layout: bytes that were built, or read and accepted.
#[derive(Clone, Debug, PartialEq, Eq)]
pub struct Layout {
    bytes: Vec<u8>,
}

impl Layout {
    /// Takes the bytes of a layout (a block 160) if they are accepted.
    pub fn read(bytes: impl Into<Vec<u8>>) -> Result<Self, Refusal> {
        let bytes = bytes.into();
        LayoutRef::read(&bytes)?;
        Ok(Layout { bytes })
    }

    /// The same layout, borrowed: it lists the types with their parameters.
    pub fn borrowed(&self) -> LayoutRef<'_> {
        LayoutRef::accepted(&self.bytes)
    }

    /// The type of this name, if there is one, with its parameters.
    ///
    /// ```
    /// use ciztarmo::{Expr, Field, Set, Type};
    ///
    /// let legs = Type::array("legs", Type::primitive("leg", 4), Expr::field("n"));
    /// let trip = Type::structure("Trip", [Field::new("legs", legs)]).references("legs", ["n"]);
    /// let layout = Set::new().with(trip).build()?;
    /// let trip = layout.type_named("Trip").unwrap();
    /// let names: Vec<&str> = trip.parameters().map(|p| p.name).collect();
    /// assert_eq!(names, ["legs.n"]);
    /// # Ok::<(), ciztarmo::Error>(())
    /// ```
    pub fn type_named(&self, name: &str) -> Option<TypeTree<'_>> {
        self.borrowed().type_named(name)
    }

    /// A refusal of this layout for printing, with names; see [`LayoutRef::explain`].
    pub fn explain(&self, refusal: &Refusal) -> Explained<'_> {
        self.borrowed().explain(refusal)
    }

    /// The block 160.
    pub fn as_bytes(&self) -> &[u8] {
        &self.bytes
    }

    /// The names of its types, in order: a refusal's place counts them from 0.
    pub fn type_names(&self) -> Vec<&str> {
        type_names(&self.bytes)
    }

    /// Counts the bytes of a record of the type `name` in a buffer of so many bytes.
    pub fn length_of(
        &self,
        name: &str,
        values: &Values,
        buffer_length: u64,
    ) -> Result<u64, Refusal> {
        validate(&self.bytes, name, &values.to_bytes(), buffer_length)
    }

    /// [`length_of`](Layout::length_of) with the caller's working words. With fewer than
    /// [`WORDS`](crate::WORDS) it is refused with 19.
    pub fn length_of_with(
        &self,
        work: &mut Work,
        name: &str,
        values: &Values,
        buffer_length: u64,
    ) -> Result<u64, Refusal> {
        work.validate(&self.bytes, name, &values.to_bytes(), buffer_length)
    }

    /// Counts the bytes of the record that a run asks for.
    pub fn length_of_run(&self, run: &Run) -> Result<u64, Refusal> {
        validate_run(&self.bytes, run.as_bytes())
    }

    /// [`length_of_run`](Layout::length_of_run) with the caller's working words.
    pub fn length_of_run_with(&self, work: &mut Work, run: &Run) -> Result<u64, Refusal> {
        work.validate_run(&self.bytes, run.as_bytes())
    }

    /// Counts the bytes of the record that each run asks for, in one call, which reads the layout
    /// once.
    pub fn lengths_of(&self, runs: &[Run]) -> Vec<Result<u64, Refusal>> {
        self.lengths_of_with(&mut Work::new(), runs)
    }

    /// [`lengths_of`](Layout::lengths_of) with the caller's working words.
    pub fn lengths_of_with(&self, work: &mut Work, runs: &[Run]) -> Vec<Result<u64, Refusal>> {
        let bytes: Vec<u8> = runs.iter().flat_map(Run::as_bytes).copied().collect();
        work.validate_runs(&self.bytes, &bytes)
    }
}
