//! Types of a set and their parts.

use crate::block::{Block, Body};
use crate::expr::Expr;
use alloc::collections::{BTreeMap, BTreeSet};
use alloc::string::String;
use alloc::vec::Vec;

/// Kinds of types and of their parts.
mod kind {
    pub const PRIMITIVE: u16 = 1;
    pub const STRUCT: u16 = 2;
    pub const UNION: u16 = 3;
    pub const ENUM: u16 = 4;
    pub const ARRAY: u16 = 5;
    pub const SIZED_UNION: u16 = 6;
    pub const REFERENCE: u16 = 7;
    pub const REFERENCES: u16 = 32;
    pub const FIELD: u16 = 33;
    pub const VARIANT: u16 = 34;
    pub const SIZED_VARIANT: u16 = 35;
    pub const OWNER: u16 = 37;
}

/// A record type, or a type inside one.
///
/// A primitive has the constant size it is made with. Every other type is of variable size until
/// [`size`](Type::size) gives it a constant one. The alignment is 1 until [`align`](Type::align)
/// sets another.
#[derive(Clone, Debug, PartialEq, Eq)]
pub struct Type {
    name: String,
    size: Option<u64>,
    alignment: u64,
    references: BTreeMap<String, BTreeSet<String>>,
    kind: u16,
    /// What stands behind the head that all types have.
    parts: Block,
}

impl Type {
    /// A primitive of so many bytes.
    pub fn primitive(name: impl Into<String>, size: u64) -> Self {
        Type::of(kind::PRIMITIVE, name, |_| Ok(())).size(size)
    }

    /// A structure: its fields stand one behind the other.
    pub fn structure(name: impl Into<String>, fields: impl IntoIterator<Item = Field>) -> Self {
        Type::of(kind::STRUCT, name, |body| {
            body.blocks("fields", &fields_of(fields))
        })
    }

    /// A union: one of its fields.
    pub fn union(name: impl Into<String>, fields: impl IntoIterator<Item = Field>) -> Self {
        Type::of(kind::UNION, name, |body| {
            body.blocks("fields", &fields_of(fields))
        })
    }

    /// An enumeration: the variant that has the tag.
    pub fn enumeration(
        name: impl Into<String>,
        tag: impl Into<Expr>,
        variants: impl IntoIterator<Item = Variant>,
    ) -> Self {
        Type::of(kind::ENUM, name, |body| {
            body.block(tag.into().block())?;
            let variants: Vec<Block> = variants.into_iter().map(|v| v.block).collect();
            body.blocks("variants", &variants)
        })
    }

    /// An array of so many elements of one size.
    pub fn array(name: impl Into<String>, element: Type, size: impl Into<Expr>) -> Self {
        Type::array_of(name, false, element, size)
    }

    /// A jagged array: its elements are of unlike sizes.
    pub fn jagged_array(name: impl Into<String>, element: Type, size: impl Into<Expr>) -> Self {
        Type::array_of(name, true, element, size)
    }

    fn array_of(
        name: impl Into<String>,
        jagged: bool,
        element: Type,
        size: impl Into<Expr>,
    ) -> Self {
        Type::of(kind::ARRAY, name, |body| {
            body.byte(jagged.into());
            body.block(&element.block())?;
            body.block(size.into().block())
        })
    }

    /// A size-discriminated union: the variant that has the size of what is there.
    pub fn sized_union(
        name: impl Into<String>,
        variants: impl IntoIterator<Item = SizedVariant>,
    ) -> Self {
        Type::of(kind::SIZED_UNION, name, |body| {
            let variants: Vec<Block> = variants.into_iter().map(|v| v.block).collect();
            body.blocks("variants", &variants)
        })
    }

    /// A reference to another type of the set, by that type's name.
    pub fn reference(name: impl Into<String>, target: impl AsRef<str>) -> Self {
        Type::of(kind::REFERENCE, name, |body| body.name(target.as_ref()))
    }

    fn of(
        kind: u16,
        name: impl Into<String>,
        fill: impl FnOnce(&mut Body) -> Result<(), crate::Error>,
    ) -> Self {
        let mut body = Body::new();
        let parts = fill(&mut body).map(|()| body.into_bytes());
        Type {
            name: name.into(),
            size: None,
            alignment: 1,
            references: BTreeMap::new(),
            kind,
            parts,
        }
    }

    /// Gives the type a constant size in bytes.
    pub fn size(self, size: u64) -> Self {
        Type {
            size: Some(size),
            ..self
        }
    }

    /// Makes the type one of variable size.
    pub fn variable(self) -> Self {
        Type { size: None, ..self }
    }

    /// Sets the alignment in bytes.
    pub fn align(self, alignment: u64) -> Self {
        Type { alignment, ..self }
    }

    /// Adds references: the paths of the values that the part `owner` of this type depends on.
    ///
    /// Each is a parameter of the layout under the name `owner.path`, or under the path alone where
    /// that begins with `owner.` itself. Owners and paths may be given in any order and more than
    /// once.
    pub fn references<S: Into<String>>(
        mut self,
        owner: impl Into<String>,
        paths: impl IntoIterator<Item = S>,
    ) -> Self {
        let known = self.references.entry(owner.into()).or_default();
        known.extend(paths.into_iter().map(Into::into));
        self
    }

    /// The type's name.
    pub fn name(&self) -> &str {
        &self.name
    }

    pub(crate) fn block(&self) -> Block {
        let mut body = Body::new();
        body.name(&self.name)?;
        body.byte(self.size.is_none().into());
        if let Some(size) = self.size {
            body.number(size);
        }
        body.number(self.alignment);
        body.block(&self.references_block())?;
        body.block(&self.parts)?;
        body.close(self.kind)
    }

    /// Owners and paths ascend in byte order, which is the order of the maps.
    fn references_block(&self) -> Block {
        let owners: Vec<Block> = self.references.iter().map(owner_block).collect();
        let mut body = Body::new();
        body.blocks("owners", &owners)?;
        body.close(kind::REFERENCES)
    }
}

fn owner_block((owner, paths): (&String, &BTreeSet<String>)) -> Block {
    let mut body = Body::new();
    body.name(owner)?;
    body.count("paths of an owner", paths.len())?;
    for path in paths {
        body.name(path)?;
    }
    body.close(kind::OWNER)
}

fn fields_of(fields: impl IntoIterator<Item = Field>) -> Vec<Block> {
    fields.into_iter().map(|f| f.block()).collect()
}

/// A field of a structure or a union.
#[derive(Clone, Debug, PartialEq, Eq)]
pub struct Field {
    name: String,
    offset: Option<u64>,
    field_type: Type,
}

impl Field {
    /// A field without a known offset.
    pub fn new(name: impl Into<String>, field_type: Type) -> Self {
        Field {
            name: name.into(),
            offset: None,
            field_type,
        }
    }

    /// Sets the offset in bytes.
    pub fn at(self, offset: u64) -> Self {
        Field {
            offset: Some(offset),
            ..self
        }
    }

    fn block(&self) -> Block {
        let mut body = Body::new();
        body.name(&self.name)?;
        body.byte(self.offset.is_some().into());
        if let Some(offset) = self.offset {
            body.number(offset);
        }
        body.block(&self.field_type.block())?;
        body.close(kind::FIELD)
    }
}

/// A variant of an enumeration.
#[derive(Clone, Debug, PartialEq, Eq)]
pub struct Variant {
    block: Block,
}

impl Variant {
    /// A variant with its tag value.
    pub fn new(name: impl AsRef<str>, tag: u64, variant_type: Type) -> Self {
        Variant {
            block: named_number(kind::VARIANT, name.as_ref(), tag, &variant_type),
        }
    }
}

/// A variant of a size-discriminated union.
#[derive(Clone, Debug, PartialEq, Eq)]
pub struct SizedVariant {
    block: Block,
}

impl SizedVariant {
    /// A variant with its expected size in bytes.
    pub fn new(name: impl AsRef<str>, size: u64, variant_type: Type) -> Self {
        SizedVariant {
            block: named_number(kind::SIZED_VARIANT, name.as_ref(), size, &variant_type),
        }
    }
}

/// The block of a variant: a name, a number and a type.
fn named_number(kind: u16, name: &str, number: u64, held: &Type) -> Block {
    let mut body = Body::new();
    body.name(name)?;
    body.number(number);
    body.block(&held.block())?;
    body.close(kind)
}
