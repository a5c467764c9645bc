//! A layout in the caller's bytes, and what is written in it.

use crate::names::{entries, Entries, Parts};
use crate::refusal::{Number, Refusal};
use crate::work::{read_layout, validate, validate_run};
use core::fmt;

/// A layout that was read and accepted, in bytes that somebody else keeps.
///
/// It takes no memory, so that a layout can stay where it is stored:
///
/// ```
/// use ciztarmo::{write_values, LayoutRef};
/// # let stored = ciztarmo::Set::new().with(ciztarmo::Type::primitive("Stop", 4)).build()?;
/// # let stored = stored.as_bytes();
///
/// let layout = LayoutRef::read(stored)?;
/// let mut room = [0; 100];
/// let values = write_values(&[("legs.n", 3)], &mut room).unwrap();
/// assert_eq!(layout.length_of("Stop", values, 40)?, 4);
/// # Ok::<(), ciztarmo::Error>(())
/// ```
#[derive(Clone, Copy, Debug, PartialEq, Eq)]
pub struct LayoutRef<'a> {
    bytes: &'a [u8],
}

impl<'a> LayoutRef<'a> {
    /// Takes the bytes of a layout (a block 160) if they are accepted.
    pub fn read(bytes: &'a [u8]) -> Result<Self, Refusal> {
        read_layout(bytes)?;
        Ok(LayoutRef { bytes })
    }

    /// Bytes that were accepted already.
    #[cfg(feature = "alloc")]
    pub(crate) fn accepted(bytes: &'a [u8]) -> Self {
        LayoutRef { bytes }
    }

    /// The block 160.
    pub fn as_bytes(&self) -> &'a [u8] {
        self.bytes
    }

    /// Its types, in order: a refusal's place counts them from 0.
    pub fn types(&self) -> Types<'a> {
        Types {
            entries: entries(self.bytes),
        }
    }

    /// The type of this name, if there is one.
    pub fn type_named(&self, name: &str) -> Option<TypeTree<'a>> {
        self.types().find(|tree| tree.name == name)
    }

    /// Counts the bytes of a record of the type `name`, with the values of a block 192, in a buffer
    /// of so many bytes.
    pub fn length_of(
        &self,
        name: impl AsRef<[u8]>,
        values: &[u8],
        buffer_length: u64,
    ) -> Result<u64, Refusal> {
        validate(self.bytes, name, values, buffer_length)
    }

    /// Counts the bytes of the record that a run (a block 193) asks for.
    pub fn length_of_run(&self, run: &[u8]) -> Result<u64, Refusal> {
        validate_run(self.bytes, run)
    }

    /// The name of the value that is missing, where this layout answered 21.
    ///
    /// Inside a called type it is the name that this type has for it.
    pub fn missing_value(&self, refusal: &Refusal) -> Option<&'a str> {
        if refusal.number() != Number::MissingIrParameter {
            return None;
        }
        asked_at(Parts::of(
            self.bytes,
            usize::try_from(refusal.offset()).ok()?,
        ))
    }

    /// A refusal of this layout for printing, with the name of its type and, for 21, the name of
    /// the value that is missing.
    ///
    /// ```
    /// use ciztarmo::{Expr, Field, Set, Type, Values};
    ///
    /// let legs = Type::array("legs", Type::primitive("leg", 4), Expr::field("n"));
    /// let trip = Type::structure("Trip", [Field::new("legs", legs)]).references("legs", ["n"]);
    /// let layout = Set::new().with(trip).build()?;
    /// let refusal = layout.length_of("Trip", &Values::new(), 40).unwrap_err();
    /// assert!(layout
    ///     .explain(&refusal)
    ///     .to_string()
    ///     .starts_with("21: the value \"legs.n\", which the layout needs, is missing (type 0 \"Trip\""));
    /// # Ok::<(), ciztarmo::Error>(())
    /// ```
    pub fn explain(&self, refusal: &Refusal) -> Explained<'a> {
        let place = refusal.place().map(usize::from);
        Explained {
            refusal: *refusal,
            type_name: place.and_then(|p| self.types().nth(p)).map(|t| t.name),
            missing: self.missing_value(refusal),
        }
    }
}

/// The name that the node or argument at the front asks for.
fn asked_at(mut parts: Parts<'_>) -> Option<&str> {
    const FIELD_REF: u64 = 130;
    const SWITCH: u64 = 132;
    const ARGUMENT: u64 = 164;
    let (kind, mut parts) = parts.block()?;
    if kind == ARGUMENT {
        parts.text()?;
        return parts.text();
    }
    // The metadata of a node: alignment and size text.
    parts.number(8)?;
    parts.optional_text()?;
    let first = parts.text()?;
    match kind {
        SWITCH => Some(first),
        FIELD_REF => Some(parts.optional_text()?.unwrap_or(first)),
        _ => None,
    }
}

/// A refusal with names; see [`LayoutRef::explain`].
#[derive(Clone, Copy, Debug)]
pub struct Explained<'a> {
    refusal: Refusal,
    type_name: Option<&'a str>,
    missing: Option<&'a str>,
}

impl fmt::Display for Explained<'_> {
    fn fmt(&self, f: &mut fmt::Formatter<'_>) -> fmt::Result {
        self.refusal.write(f, self.type_name, self.missing)
    }
}

/// The types of a layout; see [`LayoutRef::types`].
#[derive(Clone, Debug)]
pub struct Types<'a> {
    entries: Entries<'a>,
}

impl<'a> Iterator for Types<'a> {
    type Item = TypeTree<'a>;

    fn next(&mut self) -> Option<TypeTree<'a>> {
        TypeTree::of(self.entries.next()?)
    }
}

/// A type of a layout (a block 161).
#[derive(Clone, Debug)]
pub struct TypeTree<'a> {
    name: &'a str,
    alignment: u64,
    parameters: Entries<'a>,
}

impl<'a> TypeTree<'a> {
    fn of(mut parts: Parts<'a>) -> Option<Self> {
        let name = parts.text()?;
        let alignment = parts.number(8)?;
        // The root node.
        parts.block()?;
        Some(TypeTree {
            name,
            alignment,
            parameters: Entries::listed(parts)?,
        })
    }

    /// The type's name.
    pub fn name(&self) -> &'a str {
        self.name
    }

    /// Its alignment in bytes.
    pub fn alignment(&self) -> u64 {
        self.alignment
    }

    /// Its parameters, in the layout's order: what its count may depend on.
    pub fn parameters(&self) -> Parameters<'a> {
        Parameters {
            entries: self.parameters.clone(),
        }
    }
}

/// The parameters of a type; see [`TypeTree::parameters`].
#[derive(Clone, Debug)]
pub struct Parameters<'a> {
    entries: Entries<'a>,
}

impl<'a> Iterator for Parameters<'a> {
    type Item = Parameter<'a>;

    fn next(&mut self) -> Option<Parameter<'a>> {
        let mut parts = self.entries.next()?;
        Some(Parameter {
            name: parts.text()?,
            description: parts.optional_text()?,
            derived: parts.flag()?,
        })
    }
}

/// A parameter of a type (a block 162).
#[derive(Clone, Copy, Debug, PartialEq, Eq)]
#[non_exhaustive]
pub struct Parameter<'a> {
    /// The name under which its value is given.
    pub name: &'a str,
    /// Words about it, if the layout has them.
    pub description: Option<&'a str>,
    /// Whether it follows from others and is not read by itself.
    pub derived: bool,
}
