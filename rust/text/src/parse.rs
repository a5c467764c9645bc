//! From text to values: outermost blocks, sets, values and runs. Layouts are in `parse_layout`.

use crate::expr;
use crate::lines::{Cursor, Lines};
use crate::model::*;

/// The words of types, by kind less 1.
pub const TYPES: [&str; 7] = [
    "primitive",
    "struct",
    "union",
    "enum",
    "array",
    "sized-union",
    "reference",
];

/// The words of outermost blocks.
const OUTERMOST: [&str; 4] = ["set", "layout", "values", "run"];

/// Reads every outermost block of a text.
pub fn parse(text: &[u8]) -> Read<Vec<Block>> {
    let mut p = Parser {
        lines: Lines::new(text),
    };
    let mut blocks = Vec::new();
    while let Some(mut c) = p.lines.peek(0)? {
        p.lines.take();
        let spot = c.spot();
        blocks.push(match c.one_of(&OUTERMOST)? {
            0 => Block::Set(p.set(spot, c)?),
            1 => Block::Layout(p.layout(spot, c)?),
            2 => Block::Values(p.values(spot, c, 1)?),
            _ => Block::Run(p.run(spot, c)?),
        });
    }
    match blocks.is_empty() {
        true => Err(Problem::new(Spot { line: 1, column: 1 }, EMPTY)),
        false => Ok(blocks),
    }
}

const EMPTY: &str = "no block stands in this text (set, layout, values or run)";

pub struct Parser<'t> {
    pub lines: Lines<'t>,
}

impl<'t> Parser<'t> {
    /// Takes the next line if it stands at this depth and begins with a word; the cursor stands
    /// behind the word.
    pub fn line_of(&mut self, depth: usize, word: &str) -> Read<Option<(Spot, Cursor<'t>)>> {
        let Some(mut c) = self.lines.peek(depth)? else {
            return Ok(None);
        };
        let spot = c.spot();
        if !c.is(word) {
            return Ok(None);
        }
        self.lines.take();
        Ok(Some((spot, c)))
    }

    /// Takes all lines at this depth, each of which must begin with one word.
    pub fn lines_of<T>(
        &mut self,
        depth: usize,
        word: &str,
        one: impl Fn(&mut Self, Spot, Cursor<'t>) -> Read<T>,
    ) -> Read<Vec<T>> {
        let mut out = Vec::new();
        while let Some((spot, c)) = self.line_of(depth, word)? {
            out.push(one(self, spot, c)?);
        }
        self.end_below(depth, &[word])?;
        Ok(out)
    }

    /// No line is left at this depth; if one is, these words could have begun it.
    pub fn end_below(&self, depth: usize, may: &[&str]) -> Read<()> {
        let Some(mut c) = self.lines.peek(depth)? else {
            return Ok(());
        };
        match may {
            [] => c.fail(format!("{} is more than belongs here", c.shown())),
            _ => c.one_of(may).map(|_| ()),
        }
    }

    // Sets.

    fn set(&mut self, spot: Spot, c: Cursor<'t>) -> Read<Set> {
        c.finish()?;
        let mut types = Vec::new();
        while let Some(c) = self.lines.peek(1)? {
            self.lines.take();
            types.push(self.ty(c, 1)?);
        }
        Ok(Set { spot, types })
    }

    /// A type whose line stands at a depth; the cursor stands before its word.
    fn ty(&mut self, mut c: Cursor<'t>, depth: usize) -> Read<Type> {
        let spot = c.spot();
        let kind = 1 + c.one_of(&TYPES)?;
        let name = c.name()?;
        let size = size(&mut c)?;
        let align = c.number_behind("align")?.unwrap_or(1);
        let (owners, shape) = match kind {
            5 => self.array(spot, c, depth + 1)?,
            _ => self.shape(kind, c, depth + 1)?,
        };
        Ok(Type {
            spot,
            name,
            size,
            align,
            owners,
            shape,
        })
    }

    /// What is left of the line of a type that is no array, and the lines below it.
    fn shape(&mut self, kind: usize, mut c: Cursor<'t>, below: usize) -> Read<(Vec<Owner>, Shape)> {
        match kind {
            1 => Ok((self.only_owners(c, below)?, Shape::Primitive)),
            2 => Ok((self.owners(c, below)?, Shape::Struct(self.fields(below)?))),
            3 => Ok((self.owners(c, below)?, Shape::Union(self.fields(below)?))),
            4 => {
                c.need("tag")?;
                let tag = Box::new(expr::read(&mut c)?);
                let owners = self.owners(c, below)?;
                Ok((owners, Shape::Enum(tag, self.variants(below, "tag")?)))
            }
            6 => {
                let owners = self.owners(c, below)?;
                Ok((owners, Shape::SizedUnion(self.variants(below, "size")?)))
            }
            _ => {
                c.need("to")?;
                let target = c.name()?;
                Ok((self.only_owners(c, below)?, Shape::Reference(target)))
            }
        }
    }

    fn array(&mut self, spot: Spot, mut c: Cursor<'t>, below: usize) -> Read<(Vec<Owner>, Shape)> {
        let jagged = c.is("jagged");
        c.need("count")?;
        let count = expr::read(&mut c)?;
        let owners = self.owners(c, below)?;
        let Some((_, element)) = self.line_of(below, "element")? else {
            self.end_below(below, &["owner", "element"])?;
            return Err(Problem::new(spot, "this array has no element below it"));
        };
        let element = self.ty(element, below)?;
        self.end_below(below, &[])?;
        let array = Array {
            jagged,
            element,
            count,
        };
        Ok((owners, Shape::Array(Box::new(array))))
    }

    /// The owners below a type's line, which must end here.
    fn owners(&mut self, c: Cursor<'t>, below: usize) -> Read<Vec<Owner>> {
        c.finish()?;
        let mut owners = Vec::new();
        while let Some((spot, c)) = self.line_of(below, "owner")? {
            owners.push(owner(spot, c)?);
        }
        Ok(owners)
    }

    /// The same, with nothing behind them.
    fn only_owners(&mut self, c: Cursor<'t>, below: usize) -> Read<Vec<Owner>> {
        let owners = self.owners(c, below)?;
        self.end_below(below, &["owner"])?;
        Ok(owners)
    }

    fn fields(&mut self, depth: usize) -> Read<Vec<Field>> {
        self.lines_of(depth, "field", |p, spot, mut c| {
            Ok(Field {
                spot,
                name: c.name()?,
                offset: c.number_behind("at")?,
                ty: p.ty(c, depth)?,
            })
        })
    }

    /// The variants of an enum or a sized union; a word stands before the number.
    fn variants(&mut self, depth: usize, word: &str) -> Read<Vec<Variant>> {
        self.lines_of(depth, "variant", |p, spot, mut c| {
            let name = c.name()?;
            c.need(word)?;
            Ok(Variant {
                spot,
                name,
                number: c.number()?,
                ty: p.ty(c, depth)?,
            })
        })
    }

    // Values and runs.

    fn values(&mut self, spot: Spot, c: Cursor<'t>, below: usize) -> Read<Values> {
        c.finish()?;
        let entries = self.lines_of(below, "value", |_, spot, mut c| {
            let value = Value {
                spot,
                name: c.name()?,
                number: c.number()?,
            };
            c.finish()?;
            Ok(value)
        })?;
        Ok(Values { spot, entries })
    }

    fn run(&mut self, spot: Spot, mut c: Cursor<'t>) -> Read<Run> {
        let name = c.name()?;
        c.need("length")?;
        let length = c.number()?;
        Ok(Run {
            spot,
            name,
            length,
            values: self.values(spot, c, 1)?,
        })
    }
}

fn size(c: &mut Cursor) -> Read<Option<u64>> {
    match c.one_of(&["size", "variable"])? {
        0 => c.number().map(Some),
        _ => Ok(None),
    }
}

fn owner(spot: Spot, mut c: Cursor) -> Read<Owner> {
    let name = c.name()?;
    let mut paths = Vec::new();
    if c.is("paths") {
        paths.push(c.name()?);
        while c.finish().is_err() {
            paths.push(c.name()?);
        }
    }
    c.finish()?;
    Ok(Owner { spot, name, paths })
}
