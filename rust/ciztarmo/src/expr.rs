//! Expressions: sizes of arrays and tags of enumerations.

use crate::block::{Block, Body};
use alloc::vec::Vec;
use core::ops;

/// A literal with its type, in document 01's order of codes 0 to 7.
#[derive(Clone, Copy, Debug, PartialEq, Eq, Hash)]
pub enum Literal {
    /// Code 0: 64 bits, unsigned.
    U64(u64),
    /// Code 1: 32 bits, unsigned.
    U32(u32),
    /// Code 2: 16 bits, unsigned.
    U16(u16),
    /// Code 3: 8 bits, unsigned.
    U8(u8),
    /// Code 4: 64 bits, signed.
    I64(i64),
    /// Code 5: 32 bits, signed.
    I32(i32),
    /// Code 6: 16 bits, signed.
    I16(i16),
    /// Code 7: 8 bits, signed.
    I8(i8),
}

impl Literal {
    /// The code, and the number in two's complement over 8 bytes if it is signed.
    fn parts(self) -> (u8, u64) {
        match self {
            Literal::U64(n) => (0, n),
            Literal::U32(n) => (1, n.into()),
            Literal::U16(n) => (2, n.into()),
            Literal::U8(n) => (3, n.into()),
            Literal::I64(n) => (4, n as u64),
            Literal::I32(n) => (5, i64::from(n) as u64),
            Literal::I16(n) => (6, i64::from(n) as u64),
            Literal::I8(n) => (7, i64::from(n) as u64),
        }
    }
}

macro_rules! literals {
    ($($number:ty => $variant:ident),*) => {$(
        impl From<$number> for Literal {
            fn from(number: $number) -> Self {
                Literal::$variant(number)
            }
        }

        impl From<$number> for Expr {
            fn from(number: $number) -> Self {
                Expr::literal(number)
            }
        }
    )*};
}

literals!(u64 => U64, u32 => U32, u16 => U16, u8 => U8, i64 => I64, i32 => I32, i16 => I16, i8 => I8);

/// An expression: the size of an array or the tag of an enumeration.
///
/// Literals and references are made by functions; the rest by operators and methods:
///
/// ```
/// use ciztarmo::Expr;
///
/// // the legs of a trip, two for each transfer and one more
/// let legs = Expr::field("transfers") * 2 + 1;
/// // the low four bits of a byte
/// let low = Expr::field("flags") & 0x0fu8;
/// # assert_ne!(legs, low);
/// ```
///
/// In the size of an array of variable size only literals, field references, `+ - * / %` and
/// `& | ^ << >>` become part of a layout; a build refuses the rest with 14.
#[derive(Clone, Debug, PartialEq, Eq)]
pub struct Expr {
    block: Block,
}

/// Kinds of expressions: 64 plus the place in `ExprKind`.
mod kind {
    pub const LITERAL: u16 = 64;
    pub const FIELD_REF: u16 = 65;
    pub const SIZEOF: u16 = 66;
    pub const ALIGNOF: u16 = 67;
}

impl Expr {
    /// A literal (kind 64).
    pub fn literal(number: impl Into<Literal>) -> Self {
        let (code, number) = number.into().parts();
        Expr::of(kind::LITERAL, |body| {
            body.byte(code);
            body.number(number);
            Ok(())
        })
    }

    /// A reference to a field by its name: a path of one segment (kind 65).
    ///
    /// In the size of an array `__buffer_size` stands for the length of the buffer.
    pub fn field(name: impl AsRef<str>) -> Self {
        Expr::path([name])
    }

    /// A reference to a field by the segments of its path (kind 65).
    pub fn path<S: AsRef<str>>(segments: impl IntoIterator<Item = S>) -> Self {
        let segments: Vec<S> = segments.into_iter().collect();
        Expr::of(kind::FIELD_REF, |body| {
            body.count("segments of a path", segments.len())?;
            segments.iter().try_for_each(|s| body.name(s.as_ref()))
        })
    }

    /// The size of a type (kind 66).
    pub fn size_of(type_name: impl AsRef<str>) -> Self {
        Expr::of(kind::SIZEOF, |body| body.name(type_name.as_ref()))
    }

    /// The alignment of a type (kind 67).
    pub fn align_of(type_name: impl AsRef<str>) -> Self {
        Expr::of(kind::ALIGNOF, |body| body.name(type_name.as_ref()))
    }

    fn of(kind: u16, fill: impl FnOnce(&mut Body) -> Result<(), crate::Error>) -> Self {
        let mut body = Body::new();
        let block = fill(&mut body).and_then(|()| body.close(kind));
        Expr { block }
    }

    fn unary(self, kind: u16) -> Self {
        Expr::of(kind, |body| body.block(&self.block))
    }

    fn binary(self, kind: u16, right: impl Into<Expr>) -> Self {
        Expr::of(kind, |body| {
            body.block(&self.block)?;
            body.block(&right.into().block)
        })
    }

    pub(crate) fn block(&self) -> &Block {
        &self.block
    }
}

macro_rules! methods {
    ($($doc:literal $kind:literal $name:ident),*) => {
        impl Expr {$(
            #[doc = $doc]
            #[doc = concat!(" (kind ", $kind, ").")]
            pub fn $name(self, right: impl Into<Expr>) -> Self {
                self.binary($kind, right)
            }
        )*}
    };
}

methods!(
    "A power" 73 pow,
    "Whether both are equal" 83 equal,
    "Whether they differ" 84 not_equal,
    "Whether the left one is less" 85 less,
    "Whether the left one is greater" 86 greater,
    "Whether the left one is less or equal" 87 less_or_equal,
    "Whether the left one is greater or equal" 88 greater_or_equal,
    "Logical and" 89 and,
    "Logical or" 90 or,
    "Logical exclusive or" 91 xor
);

impl Expr {
    /// Logical not (kind 81). The operator `!` is the one on bits.
    pub fn logical_not(self) -> Self {
        self.unary(81)
    }

    /// How many bits are set (kind 82).
    pub fn popcount(self) -> Self {
        self.unary(82)
    }
}

macro_rules! operators {
    ($($kind:literal $operator:ident $name:ident),*) => {$(
        impl<R: Into<Expr>> ops::$operator<R> for Expr {
            type Output = Expr;

            #[doc = concat!("Kind ", $kind, ".")]
            fn $name(self, right: R) -> Expr {
                self.binary($kind, right)
            }
        }
    )*};
}

operators!(
    68 Add add, 69 Sub sub, 70 Mul mul, 71 Div div, 72 Rem rem,
    74 BitAnd bitand, 75 BitOr bitor, 76 BitXor bitxor, 77 Shl shl, 78 Shr shr
);

impl ops::Not for Expr {
    type Output = Expr;

    /// Kind 79: not, bit by bit.
    fn not(self) -> Expr {
        self.unary(79)
    }
}

impl ops::Neg for Expr {
    type Output = Expr;

    /// Kind 80.
    fn neg(self) -> Expr {
        self.unary(80)
    }
}
