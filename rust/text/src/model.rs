//! The blocks of document 01 as values.
//!
//! Each block knows the spot of the text that it was read from, so that a refusal's offset can be
//! told as a line. The parts of a set that was read from bytes have line 0, and the offset of their
//! block as column; other blocks that were read from bytes have the spot 0, 0.

/// A line and a column of a text, both from 1; or line 0 and an offset.
#[derive(Clone, Copy, Debug, Default, PartialEq, Eq)]
pub struct Spot {
    pub line: u32,
    pub column: u32,
}

/// What is wrong with a text, and where.
#[derive(Clone, Debug, PartialEq, Eq)]
pub struct Problem {
    pub spot: Spot,
    pub message: String,
}

impl Problem {
    pub fn new(spot: Spot, message: impl Into<String>) -> Problem {
        Problem {
            spot,
            message: message.into(),
        }
    }
}

pub type Read<T> = Result<T, Problem>;

/// How deep a text may nest. More than the 256 blocks that may be open together in a layout, so
/// that a text can ask for a block too deep, and little enough for any stack.
pub const MOST_DEEP: usize = 300;

/// The kinds of blocks that stand outermost.
pub const SET: u16 = 36;
pub const LAYOUT: u16 = 160;
pub const VALUES: u16 = 192;
pub const RUN: u16 = 193;

/// A block that stands outermost.
#[derive(Clone, Debug)]
pub enum Block {
    Set(Set),
    Layout(Layout),
    Values(Values),
    Run(Run),
}

#[derive(Clone, Debug)]
pub struct Set {
    pub spot: Spot,
    pub types: Vec<Type>,
}

#[derive(Clone, Debug)]
pub struct Type {
    pub spot: Spot,
    pub name: String,
    /// Without one the size is variable.
    pub size: Option<u64>,
    pub align: u64,
    pub owners: Vec<Owner>,
    pub shape: Shape,
}

/// What stands behind a type's head.
#[derive(Clone, Debug)]
pub enum Shape {
    Primitive,
    Struct(Vec<Field>),
    Union(Vec<Field>),
    Enum(Box<Expr>, Vec<Variant>),
    Array(Box<Array>),
    SizedUnion(Vec<Variant>),
    Reference(String),
}

#[derive(Clone, Debug)]
pub struct Array {
    pub jagged: bool,
    pub element: Type,
    pub count: Expr,
}

#[derive(Clone, Debug)]
pub struct Owner {
    pub spot: Spot,
    pub name: String,
    pub paths: Vec<String>,
}

#[derive(Clone, Debug)]
pub struct Field {
    pub spot: Spot,
    pub name: String,
    pub offset: Option<u64>,
    pub ty: Type,
}

/// A variant of an enum, with its tag, or of a size-discriminated union, with its expected size.
#[derive(Clone, Debug)]
pub struct Variant {
    pub spot: Spot,
    pub name: String,
    pub number: u64,
    pub ty: Type,
}

#[derive(Clone, Debug)]
pub struct Expr {
    pub spot: Spot,
    pub form: Form,
}

#[derive(Clone, Debug)]
pub enum Form {
    /// Code 0 to 7, and the number in two's complement.
    Literal(u8, u64),
    Path(Vec<String>),
    /// 66 sizeof or 67 alignof.
    Named(u16, String),
    /// 79 to 82.
    One(u16, Box<Expr>),
    /// 68 to 78 and 83 to 91.
    Two(u16, Box<Expr>, Box<Expr>),
}

#[derive(Clone, Debug)]
pub struct Layout {
    pub spot: Spot,
    pub types: Vec<TypeTree>,
}

#[derive(Clone, Debug)]
pub struct TypeTree {
    pub spot: Spot,
    pub name: String,
    pub align: u64,
    pub root: Node,
    pub parameters: Vec<Parameter>,
}

#[derive(Clone, Debug)]
pub struct Parameter {
    pub spot: Spot,
    pub name: String,
    pub description: Option<String>,
    pub derived: bool,
}

#[derive(Clone, Debug)]
pub struct Node {
    pub spot: Spot,
    /// The metadata: alignment and size text.
    pub align: u64,
    pub text: Option<String>,
    pub op: Op,
}

#[derive(Clone, Debug)]
pub enum Op {
    ZeroSize,
    Const(u64),
    FieldRef {
        path: String,
        parameter: Option<String>,
    },
    AlignUp(u64, Box<Node>),
    Switch {
        tag: String,
        cases: Vec<Case>,
        default: Option<Box<Node>>,
    },
    CallNested {
        name: String,
        arguments: Vec<Argument>,
    },
    /// 134 to 143: left, right.
    Two(u16, Box<Node>, Box<Node>),
    SumOverArray {
        count: Box<Node>,
        element: String,
        field: String,
    },
}

#[derive(Clone, Debug)]
pub struct Case {
    pub spot: Spot,
    pub tag: u64,
    pub node: Node,
    pub parameters: Vec<Parameter>,
}

#[derive(Clone, Debug)]
pub struct Argument {
    pub spot: Spot,
    pub name: String,
    pub value: String,
}

#[derive(Clone, Debug)]
pub struct Values {
    pub spot: Spot,
    pub entries: Vec<Value>,
}

/// A value is a part, not a block; its spot serves messages only.
#[derive(Clone, Debug)]
pub struct Value {
    pub spot: Spot,
    pub name: String,
    pub number: u64,
}

#[derive(Clone, Debug)]
pub struct Run {
    pub spot: Spot,
    pub name: String,
    pub length: u64,
    pub values: Values,
}

impl Block {
    pub fn spot(&self) -> Spot {
        match self {
            Block::Set(set) => set.spot,
            Block::Layout(layout) => layout.spot,
            Block::Values(values) => values.spot,
            Block::Run(run) => run.spot,
        }
    }

    pub fn kind(&self) -> u16 {
        match self {
            Block::Set(_) => SET,
            Block::Layout(_) => LAYOUT,
            Block::Values(_) => VALUES,
            Block::Run(_) => RUN,
        }
    }
}

impl Shape {
    pub fn kind(&self) -> u16 {
        match self {
            Shape::Primitive => 1,
            Shape::Struct(_) => 2,
            Shape::Union(_) => 3,
            Shape::Enum(..) => 4,
            Shape::Array(_) => 5,
            Shape::SizedUnion(_) => 6,
            Shape::Reference(_) => 7,
        }
    }
}

impl Form {
    pub fn kind(&self) -> u16 {
        match self {
            Form::Literal(..) => 64,
            Form::Path(_) => 65,
            Form::Named(kind, _) | Form::One(kind, _) | Form::Two(kind, ..) => *kind,
        }
    }
}

impl Op {
    pub fn kind(&self) -> u16 {
        match self {
            Op::ZeroSize => 128,
            Op::Const(_) => 129,
            Op::FieldRef { .. } => 130,
            Op::AlignUp(..) => 131,
            Op::Switch { .. } => 132,
            Op::CallNested { .. } => 133,
            Op::Two(kind, ..) => *kind,
            Op::SumOverArray { .. } => 144,
        }
    }
}
