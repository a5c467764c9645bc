//! From blocks to values. Whether a block is accepted is asked of the proved readers; here only
//! its parts are taken out, and what can't be taken out is a fault at an offset.

use crate::model::*;

/// Why a block has no text, and the offset of the block where that was seen.
#[derive(Clone, Debug, PartialEq, Eq)]
pub struct Fault {
    pub offset: usize,
    pub message: String,
}

type Taken<T> = Result<T, Fault>;

/// How many blocks may be open: as many as any text can ask for, since a line holds two at most.
const MOST_OPEN: usize = 2 * MOST_DEEP + 2;

/// Takes one outermost block that fills the input.
pub fn decode(input: &[u8]) -> Taken<Block> {
    let mut r = Reader {
        input,
        at: 0,
        end: input.len(),
        start: 0,
        open: 0,
    };
    let block = r.block(|r, kind| match kind {
        SET => Ok(Block::Set(Set {
            spot: Spot::default(),
            types: r.list(Reader::ty)?,
        })),
        LAYOUT => Ok(Block::Layout(Layout {
            spot: Spot::default(),
            types: r.list(Reader::tree)?,
        })),
        VALUES => Ok(Block::Values(r.values()?)),
        RUN => Ok(Block::Run(r.run()?)),
        _ => r.fault(format!("a block of kind {kind} can't stand outermost")),
    })?;
    match r.at == r.end {
        true => Ok(block),
        false => r.fault("bytes stand behind the outermost block"),
    }
}

/// The node or argument that begins at an offset of a layout, for messages.
pub enum Found {
    Node(Node),
    Argument(Argument),
}

/// Finds what begins at an offset of a layout that is accepted.
pub fn find(layout: &[u8], offset: usize) -> Option<Found> {
    let mut r = Reader {
        input: layout,
        at: offset,
        end: layout.len(),
        start: offset,
        open: 0,
    };
    let kind = layout.get(offset + 4..offset + 6)?;
    match u16::from_le_bytes([kind[0], kind[1]]) {
        164 => r.argument().ok().map(Found::Argument),
        _ => r.node().ok().map(Found::Node),
    }
}

struct Reader<'b> {
    input: &'b [u8],
    /// The next byte.
    at: usize,
    /// The open block's end and start.
    end: usize,
    start: usize,
    /// How many blocks are open.
    open: usize,
}

impl<'b> Reader<'b> {
    fn fault<T>(&self, message: impl Into<String>) -> Taken<T> {
        Err(Fault {
            offset: self.start,
            message: message.into(),
        })
    }

    /// The open block's start, as a spot.
    fn spot(&self) -> Spot {
        Spot {
            line: 0,
            column: self.start as u32,
        }
    }

    fn bytes(&mut self, count: usize) -> Taken<&'b [u8]> {
        if count > self.end - self.at {
            return self.fault("a part runs past the end of its block");
        }
        let bytes = &self.input[self.at..self.at + count];
        self.at += count;
        Ok(bytes)
    }

    fn array<const N: usize>(&mut self) -> Taken<[u8; N]> {
        let bytes = self.bytes(N)?;
        Ok(bytes.try_into().expect("as many bytes as asked for"))
    }

    fn number(&mut self) -> Taken<u64> {
        Ok(u64::from_le_bytes(self.array()?))
    }

    fn short(&mut self) -> Taken<u16> {
        Ok(u16::from_le_bytes(self.array()?))
    }

    fn flag(&mut self) -> Taken<bool> {
        match self.array()? {
            [0] => Ok(false),
            [1] => Ok(true),
            [other] => self.fault(format!("a flag is {other}, neither 0 nor 1")),
        }
    }

    fn name(&mut self) -> Taken<String> {
        let length = self.short()?;
        let bytes = self.bytes(usize::from(length))?;
        let name = match std::str::from_utf8(bytes) {
            Ok(name) => name,
            Err(e) => {
                let byte = bytes[e.valid_up_to()];
                return self.fault(format!("a name is not UTF-8 at its byte 0x{byte:02x}"));
            }
        };
        match name.bytes().find(u8::is_ascii_control) {
            Some(byte) => self.fault(format!("a name has the byte 0x{byte:02x}")),
            None => Ok(name.to_string()),
        }
    }

    fn optional<T>(&mut self, on: bool, one: fn(&mut Self) -> Taken<T>) -> Taken<Option<T>> {
        match self.flag()? == on {
            true => one(self).map(Some),
            false => Ok(None),
        }
    }

    fn list<T>(&mut self, one: fn(&mut Self) -> Taken<T>) -> Taken<Vec<T>> {
        let count = self.short()?;
        (0..count).map(|_| one(self)).collect()
    }

    /// Takes a block; `body` gets its kind and must use it up.
    fn block<T>(&mut self, body: impl FnOnce(&mut Self, u16) -> Taken<T>) -> Taken<T> {
        let outer = (self.end, self.start);
        self.start = self.at;
        let length = u32::from_le_bytes(self.array()?) as usize;
        if length < 2 || length > self.end - self.at {
            return self.fault("the block does not lie inside its parent");
        }
        if self.open == MOST_OPEN {
            return self.fault(format!("blocks nest more than {MOST_OPEN} deep"));
        }
        self.open += 1;
        self.end = self.at + length;
        let kind = self.short()?;
        let got = body(self, kind)?;
        if self.at != self.end {
            return self.fault("the body is not used up");
        }
        self.open -= 1;
        (self.end, self.start) = outer;
        Ok(got)
    }

    /// A block of one kind.
    fn only<T>(&mut self, wanted: u16, body: fn(&mut Self) -> Taken<T>) -> Taken<T> {
        self.block(|r, kind| match kind == wanted {
            true => body(r),
            false => r.fault(format!("kind {kind} where {wanted} must stand")),
        })
    }

    // Sets.

    fn ty(&mut self) -> Taken<Type> {
        self.block(|r, kind| {
            Ok(Type {
                spot: r.spot(),
                name: r.name()?,
                size: r.optional(false, Reader::number)?,
                align: r.number()?,
                owners: r.only(32, |r| r.list(Reader::owner))?,
                shape: r.shape(kind)?,
            })
        })
    }

    fn shape(&mut self, kind: u16) -> Taken<Shape> {
        Ok(match kind {
            1 => Shape::Primitive,
            2 => Shape::Struct(self.list(Reader::field)?),
            3 => Shape::Union(self.list(Reader::field)?),
            4 => Shape::Enum(Box::new(self.expr()?), self.list(|r| r.variant(34))?),
            5 => Shape::Array(Box::new(Array {
                jagged: self.flag()?,
                element: self.ty()?,
                count: self.expr()?,
            })),
            6 => Shape::SizedUnion(self.list(|r| r.variant(35))?),
            7 => Shape::Reference(self.name()?),
            _ => return self.fault(format!("kind {kind} where a type (1 to 7) must stand")),
        })
    }

    fn owner(&mut self) -> Taken<Owner> {
        self.only(37, |r| {
            Ok(Owner {
                spot: r.spot(),
                name: r.name()?,
                paths: r.list(Reader::name)?,
            })
        })
    }

    fn field(&mut self) -> Taken<Field> {
        self.only(33, |r| {
            Ok(Field {
                spot: r.spot(),
                name: r.name()?,
                offset: r.optional(true, Reader::number)?,
                ty: r.ty()?,
            })
        })
    }

    fn variant(&mut self, wanted: u16) -> Taken<Variant> {
        self.only(wanted, |r| {
            Ok(Variant {
                spot: r.spot(),
                name: r.name()?,
                number: r.number()?,
                ty: r.ty()?,
            })
        })
    }

    fn expr(&mut self) -> Taken<Expr> {
        let mut spot = Spot::default();
        let form = self.block(|r, kind| {
            spot = r.spot();
            Ok(match kind {
                64 => r.literal()?,
                65 => Form::Path(r.list(Reader::name)?),
                66 | 67 => Form::Named(kind, r.name()?),
                79..=82 => Form::One(kind, Box::new(r.expr()?)),
                68..=91 => Form::Two(kind, Box::new(r.expr()?), Box::new(r.expr()?)),
                _ => {
                    let message = format!("kind {kind} where an expression (64 to 91) must stand");
                    return r.fault(message);
                }
            })
        })?;
        Ok(Expr { spot, form })
    }

    fn literal(&mut self) -> Taken<Form> {
        match self.array()? {
            [code @ 0..=7] => Ok(Form::Literal(code, self.number()?)),
            [code] => self.fault(format!("a literal has the code {code}, above 7")),
        }
    }

    // Layouts.

    fn tree(&mut self) -> Taken<TypeTree> {
        self.only(161, |r| {
            Ok(TypeTree {
                spot: Spot::default(),
                name: r.name()?,
                align: r.number()?,
                root: r.node()?,
                parameters: r.list(Reader::parameter)?,
            })
        })
    }

    fn parameter(&mut self) -> Taken<Parameter> {
        self.only(162, |r| {
            Ok(Parameter {
                spot: Spot::default(),
                name: r.name()?,
                description: r.optional(true, Reader::name)?,
                derived: r.flag()?,
            })
        })
    }

    fn node(&mut self) -> Taken<Node> {
        self.block(|r, kind| {
            Ok(Node {
                spot: Spot::default(),
                align: r.number()?,
                text: r.optional(true, Reader::name)?,
                op: r.op(kind)?,
            })
        })
    }

    fn op(&mut self, kind: u16) -> Taken<Op> {
        Ok(match kind {
            128 => Op::ZeroSize,
            129 => Op::Const(self.number()?),
            130 => Op::FieldRef {
                path: self.name()?,
                parameter: self.optional(true, Reader::name)?,
            },
            131 => Op::AlignUp(self.number()?, Box::new(self.node()?)),
            132 => Op::Switch {
                tag: self.name()?,
                cases: self.list(Reader::case)?,
                default: self.optional(true, Reader::node)?.map(Box::new),
            },
            133 => Op::CallNested {
                name: self.name()?,
                arguments: self.list(Reader::argument)?,
            },
            134..=143 => Op::Two(kind, Box::new(self.node()?), Box::new(self.node()?)),
            144 => Op::SumOverArray {
                count: Box::new(self.node()?),
                element: self.name()?,
                field: self.name()?,
            },
            _ => return self.fault(format!("kind {kind} where a node (128 to 144) must stand")),
        })
    }

    fn case(&mut self) -> Taken<Case> {
        self.only(163, |r| {
            Ok(Case {
                spot: Spot::default(),
                tag: r.number()?,
                node: r.node()?,
                parameters: r.list(Reader::parameter)?,
            })
        })
    }

    fn argument(&mut self) -> Taken<Argument> {
        self.only(164, |r| {
            Ok(Argument {
                spot: Spot::default(),
                name: r.name()?,
                value: r.name()?,
            })
        })
    }

    // Values and runs.

    fn values(&mut self) -> Taken<Values> {
        let entries = self.list(|r| {
            Ok(Value {
                spot: Spot::default(),
                name: r.name()?,
                number: r.number()?,
            })
        })?;
        Ok(Values {
            spot: Spot::default(),
            entries,
        })
    }

    fn run(&mut self) -> Taken<Run> {
        Ok(Run {
            spot: Spot::default(),
            name: self.name()?,
            length: self.number()?,
            values: self.only(VALUES, Reader::values)?,
        })
    }
}
