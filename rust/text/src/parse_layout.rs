//! From text to values: layouts.

use crate::lines::Cursor;
use crate::model::*;
use crate::parse::Parser;

/// The words of nodes, by kind less 128.
pub const NODES: [&str; 17] = [
    "zero-size",
    "const",
    "field-ref",
    "align-up",
    "switch",
    "call-nested",
    "add-checked",
    "sub-checked",
    "mul-checked",
    "div-checked",
    "mod-checked",
    "bit-and",
    "bit-or",
    "bit-xor",
    "left-shift",
    "right-shift",
    "sum-over-array",
];

/// What stands of a node on its line, before the metadata.
enum Head {
    ZeroSize,
    Const(u64),
    FieldRef(String, Option<String>),
    AlignUp(u64),
    Switch(String),
    CallNested(String),
    Two(u16),
    SumOverArray(String, String),
}

impl<'t> Parser<'t> {
    pub fn layout(&mut self, spot: Spot, c: Cursor<'t>) -> Read<Layout> {
        c.finish()?;
        let types = self.lines_of(1, "type", Parser::tree)?;
        Ok(Layout { spot, types })
    }

    fn tree(&mut self, spot: Spot, mut c: Cursor<'t>) -> Read<TypeTree> {
        let name = c.name()?;
        let align = c.number_behind("align")?.unwrap_or(1);
        c.finish()?;
        Ok(TypeTree {
            spot,
            name,
            align,
            root: self.child(spot, 2, "this type has no node below it")?,
            parameters: self.lines_of(2, "parameter", parameter)?,
        })
    }

    /// The node whose line stands next at this depth, below a line that needs it.
    fn child(&mut self, above: Spot, depth: usize, missing: &str) -> Read<Node> {
        let Some(c) = self.lines.peek(depth)? else {
            return Err(Problem::new(above, missing));
        };
        self.lines.take();
        self.node(c, depth)
    }

    fn node(&mut self, mut c: Cursor<'t>, depth: usize) -> Read<Node> {
        let spot = c.spot();
        let kind = 128 + c.one_of(&NODES)? as u16;
        let head = head(&mut c, kind)?;
        let align = c.number_behind("align")?.unwrap_or(1);
        let text = c.name_behind("text")?;
        c.finish()?;
        Ok(Node {
            spot,
            align,
            text,
            op: self.op(spot, head, depth + 1)?,
        })
    }

    /// The node of a line, with the lines below it.
    fn op(&mut self, spot: Spot, head: Head, below: usize) -> Read<Op> {
        let op = match head {
            Head::ZeroSize => Op::ZeroSize,
            Head::Const(value) => Op::Const(value),
            Head::FieldRef(path, parameter) => Op::FieldRef { path, parameter },
            Head::AlignUp(to) => {
                let missing = "this align-up has no node below it";
                Op::AlignUp(to, Box::new(self.child(spot, below, missing)?))
            }
            Head::Switch(tag) => return self.switch(tag, below),
            Head::CallNested(name) => {
                let arguments = self.lines_of(below, "argument", argument)?;
                return Ok(Op::CallNested { name, arguments });
            }
            Head::Two(kind) => self.two(spot, kind, below)?,
            Head::SumOverArray(element, field) => {
                let missing = "this sum-over-array has no count node below it";
                Op::SumOverArray {
                    count: Box::new(self.child(spot, below, missing)?),
                    element,
                    field,
                }
            }
        };
        self.end_below(below, &[])?;
        Ok(op)
    }

    fn two(&mut self, spot: Spot, kind: u16, below: usize) -> Read<Op> {
        let word = NODES[usize::from(kind) - 128];
        let left = self.child(spot, below, &format!("this {word} has no node below it"))?;
        let missing = format!("this {word} has one node below it and needs two");
        let right = self.child(spot, below, &missing)?;
        Ok(Op::Two(kind, Box::new(left), Box::new(right)))
    }

    fn switch(&mut self, tag: String, below: usize) -> Read<Op> {
        let mut cases = Vec::new();
        while let Some((spot, c)) = self.line_of(below, "case")? {
            cases.push(self.case(spot, c, below + 1)?);
        }
        let default = match self.line_of(below, "default")? {
            Some((spot, c)) => {
                c.finish()?;
                let node = self.child(spot, below + 1, "this default has no node below it")?;
                self.end_below(below + 1, &[])?;
                Some(Box::new(node))
            }
            None => None,
        };
        match default.is_some() {
            true => self.end_below(below, &[])?,
            false => self.end_below(below, &["case", "default"])?,
        }
        Ok(Op::Switch {
            tag,
            cases,
            default,
        })
    }

    fn case(&mut self, spot: Spot, mut c: Cursor<'t>, below: usize) -> Read<Case> {
        let tag = c.number()?;
        c.finish()?;
        Ok(Case {
            spot,
            tag,
            node: self.child(spot, below, "this case has no node below it")?,
            parameters: self.lines_of(below, "parameter", parameter)?,
        })
    }
}

fn head(c: &mut Cursor, kind: u16) -> Read<Head> {
    Ok(match kind {
        128 => Head::ZeroSize,
        129 => Head::Const(c.number()?),
        130 => Head::FieldRef(c.name()?, c.name_behind("parameter")?),
        131 => Head::AlignUp(c.number()?),
        132 => Head::Switch(c.name()?),
        133 => Head::CallNested(c.name()?),
        134..=143 => Head::Two(kind),
        _ => {
            c.need("element")?;
            let element = c.name()?;
            c.need("field")?;
            Head::SumOverArray(element, c.name()?)
        }
    })
}

fn parameter(_: &mut Parser, spot: Spot, mut c: Cursor) -> Read<Parameter> {
    let parameter = Parameter {
        spot,
        name: c.name()?,
        description: c.name_behind("description")?,
        derived: c.is("derived"),
    };
    c.finish()?;
    Ok(parameter)
}

fn argument(_: &mut Parser, spot: Spot, mut c: Cursor) -> Read<Argument> {
    let name = c.name()?;
    c.need("from")?;
    let value = c.name()?;
    c.finish()?;
    Ok(Argument { spot, name, value })
}
