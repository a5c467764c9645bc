//! The blocks of document 01 as values, and the answer that a call gives.

pub const NO_PLACE: u16 = 65_535;
pub const LIMIT: usize = 65_536;
pub const WORDS: u64 = 8_192;

/// A refusal: number, type place, offset, value.
#[derive(Debug, Clone, Copy, PartialEq, Eq)]
pub struct No {
    pub number: u8,
    pub place: u16,
    pub offset: u32,
    pub value: u64,
}

impl No {
    pub fn plain(number: u8) -> No {
        No::at(number, 0)
    }

    pub fn at(number: u8, offset: usize) -> No {
        No {
            number,
            place: NO_PLACE,
            offset: offset as u32,
            value: 0,
        }
    }

    pub fn in_type(number: u8, place: usize) -> No {
        No {
            place: place as u16,
            ..No::plain(number)
        }
    }

    /// Is it a refusal that document 01 adds to the Rust's?
    pub fn added(&self) -> bool {
        matches!(self.number, 1..=6 | 16..=19 | 26 | 27)
    }
}

#[derive(Debug, Clone, PartialEq)]
pub struct Owner {
    pub name: String,
    pub paths: Vec<String>,
}

#[derive(Debug, Clone, PartialEq)]
pub struct Type {
    pub name: String,
    /// `None` is a variable size.
    pub size: Option<u64>,
    pub align: u64,
    pub refs: Vec<Owner>,
    pub kind: Kind,
}

#[derive(Debug, Clone, PartialEq)]
pub enum Kind {
    Primitive,
    Struct(Vec<Field>),
    Union(Vec<Field>),
    Enum(Expr, Vec<Variant>),
    Array(bool, Box<Type>, Expr),
    Sized(Vec<SizedVariant>),
    Reference(String),
}

#[derive(Debug, Clone, PartialEq)]
pub struct Field {
    pub name: String,
    pub offset: Option<u64>,
    pub ty: Type,
}

#[derive(Debug, Clone, PartialEq)]
pub struct Variant {
    pub name: String,
    pub tag: u64,
    pub ty: Type,
}

#[derive(Debug, Clone, PartialEq)]
pub struct SizedVariant {
    pub name: String,
    pub size: u64,
    pub ty: Type,
}

#[derive(Debug, Clone, PartialEq)]
pub enum Expr {
    Literal(u8, u64),
    Path(Vec<String>),
    /// 66 or 67 and the name.
    Named(u16, String),
    One(u16, Box<Expr>),
    Two(u16, Box<Expr>, Box<Expr>),
}

/// `at` is the block's start in the input that was read; 0 in a built node.
#[derive(Debug, Clone, PartialEq)]
pub struct Node {
    pub at: usize,
    pub align: u64,
    pub text: Option<String>,
    pub body: Body,
}

#[derive(Debug, Clone, PartialEq)]
pub enum Body {
    Zero,
    Const(u64),
    Ref(String, Option<String>),
    Align(u64, Box<Node>),
    Switch(String, Vec<Case>, Option<Box<Node>>),
    Call(String, Vec<Argument>),
    /// 134 to 143.
    Two(u16, Box<Node>, Box<Node>),
    Sum(Box<Node>, String, String),
}

#[derive(Debug, Clone, PartialEq)]
pub struct Case {
    pub tag: u64,
    pub node: Node,
    pub params: Vec<Param>,
}

#[derive(Debug, Clone, PartialEq)]
pub struct Argument {
    pub at: usize,
    pub name: String,
    pub value: String,
}

#[derive(Debug, Clone, PartialEq)]
pub struct Param {
    pub name: String,
    pub text: Option<String>,
    pub derived: bool,
}

#[derive(Debug, Clone, PartialEq)]
pub struct Tree {
    pub name: String,
    pub align: u64,
    pub root: Node,
    pub params: Vec<Param>,
}

pub type Set = Vec<Type>;
pub type Layout = Vec<Tree>;
pub type Values = Vec<(String, u64)>;

#[derive(Debug, Clone, PartialEq)]
pub struct Run {
    pub name: String,
    pub length: u64,
    pub values: Values,
}

impl Kind {
    pub fn number(&self) -> u16 {
        match self {
            Kind::Primitive => 1,
            Kind::Struct(_) => 2,
            Kind::Union(_) => 3,
            Kind::Enum(..) => 4,
            Kind::Array(..) => 5,
            Kind::Sized(_) => 6,
            Kind::Reference(_) => 7,
        }
    }
}

impl Expr {
    pub fn number(&self) -> u16 {
        match self {
            Expr::Literal(..) => 64,
            Expr::Path(_) => 65,
            Expr::Named(kind, _) | Expr::One(kind, _) | Expr::Two(kind, ..) => *kind,
        }
    }
}

impl Body {
    pub fn number(&self) -> u16 {
        match self {
            Body::Zero => 128,
            Body::Const(_) => 129,
            Body::Ref(..) => 130,
            Body::Align(..) => 131,
            Body::Switch(..) => 132,
            Body::Call(..) => 133,
            Body::Two(kind, ..) => *kind,
            Body::Sum(..) => 144,
        }
    }
}

impl Node {
    pub fn new(align: u64, body: Body) -> Node {
        Node {
            at: 0,
            align,
            text: None,
            body,
        }
    }
}
