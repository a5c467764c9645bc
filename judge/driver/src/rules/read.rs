//! Questions 1 to 6: blocks to values, front to back; the first "no" decides.

use super::utf8::well_formed;
use crate::data::*;

type R<T> = Result<T, No>;

/// One open block: where it starts and ends, and how far it has been read.
struct Reader<'a> {
    bytes: &'a [u8],
    start: usize,
    at: usize,
    end: usize,
    open: usize,
    most_open: usize,
}

impl<'a> Reader<'a> {
    fn no(&self, number: u8) -> No {
        No::at(number, self.start)
    }

    fn take(&mut self, n: usize) -> R<&'a [u8]> {
        if self.end - self.at < n {
            return Err(self.no(2));
        }
        self.at += n;
        Ok(&self.bytes[self.at - n..self.at])
    }

    fn byte(&mut self) -> R<u8> {
        Ok(self.take(1)?[0])
    }

    fn short(&mut self) -> R<usize> {
        let b = self.take(2)?;
        Ok(u16::from_le_bytes([b[0], b[1]]) as usize)
    }

    fn number(&mut self) -> R<u64> {
        let b = self.take(8)?;
        Ok(u64::from_le_bytes(b.try_into().unwrap()))
    }

    fn count(&mut self, most: usize) -> R<usize> {
        let n = self.short()?;
        if n > most {
            return Err(self.no(4));
        }
        Ok(n)
    }

    fn flag(&mut self) -> R<bool> {
        match self.byte()? {
            0 => Ok(false),
            1 => Ok(true),
            _ => Err(self.no(5)),
        }
    }

    fn name(&mut self) -> R<String> {
        let length = self.short()?;
        let b = self.take(length)?;
        if length > 255 || !well_formed(b) {
            return Err(self.no(3));
        }
        Ok(String::from_utf8(b.to_vec()).unwrap())
    }

    fn optional_name(&mut self) -> R<Option<String>> {
        Ok(if self.flag()? {
            Some(self.name()?)
        } else {
            None
        })
    }

    /// A child block: 2 for its place, length and kind, then 4 for the blocks
    /// open together, then its parts, then 2 for what is left of its body.
    fn block<T>(
        &mut self,
        may_stand: impl Fn(u16) -> bool,
        parts: impl FnOnce(&mut Reader<'a>, u16) -> R<T>,
    ) -> R<T> {
        let start = self.at;
        let cut = No::at(2, start);
        if self.end - start < 6 {
            return Err(cut);
        }
        let head = &self.bytes[start..start + 6];
        let length = u32::from_le_bytes(head[..4].try_into().unwrap()) as usize;
        let kind = u16::from_le_bytes([head[4], head[5]]);
        if length < 2 || length > self.end - start - 4 || !may_stand(kind) {
            return Err(cut);
        }
        if self.open + 1 > self.most_open {
            return Err(No::at(4, start));
        }
        let mut child = Reader {
            bytes: self.bytes,
            start,
            at: start + 6,
            end: start + 4 + length,
            open: self.open + 1,
            most_open: self.most_open,
        };
        let value = parts(&mut child, kind)?;
        if child.at != child.end {
            return Err(child.no(2));
        }
        self.at = child.end;
        Ok(value)
    }

    fn list<T>(&mut self, most: usize, mut each: impl FnMut(&mut Reader<'a>) -> R<T>) -> R<Vec<T>> {
        let n = self.count(most)?;
        let mut out = Vec::new();
        for _ in 0..n {
            out.push(each(self)?);
        }
        Ok(out)
    }
}

/// Question 1, put to every input of a call before any is read.
pub fn sizes(inputs: &[&[u8]]) -> R<()> {
    match inputs.iter().any(|i| i.len() > LIMIT) {
        true => Err(No::at(1, 0)),
        false => Ok(()),
    }
}

fn outermost<'a, T>(
    bytes: &'a [u8],
    kind: u16,
    most_open: usize,
    parts: impl FnOnce(&mut Reader<'a>) -> R<T>,
) -> R<T> {
    let mut input = Reader {
        bytes,
        start: 0,
        at: 0,
        end: bytes.len(),
        open: 0,
        most_open,
    };
    let value = input.block(|k| k == kind, |r, _| parts(r))?;
    // Bytes behind the outermost block: asked last.
    match input.at == bytes.len() {
        true => Ok(value),
        false => Err(No::at(2, 0)),
    }
}

pub fn set(bytes: &[u8]) -> R<Set> {
    outermost(bytes, 36, 32, |r| {
        let mut seen: Vec<String> = Vec::new();
        r.list(256, |r| {
            let t = read_type(r, Some(&seen))?;
            seen.push(t.name.clone());
            Ok(t)
        })
    })
}

pub fn layout(bytes: &[u8]) -> R<Layout> {
    outermost(bytes, 160, 256, |r| {
        let mut seen: Vec<String> = Vec::new();
        r.list(256, |r| {
            let t = tree(r, &seen)?;
            seen.push(t.name.clone());
            Ok(t)
        })
    })
}

pub fn values(bytes: &[u8]) -> R<Values> {
    outermost(bytes, 192, usize::MAX, values_body)
}

pub fn run(bytes: &[u8]) -> R<Run> {
    outermost(bytes, 193, usize::MAX, |r| {
        let name = r.name()?;
        let length = r.number()?;
        let values = r.block(|k| k == 192, |r, _| values_body(r))?;
        Ok(Run {
            name,
            length,
            values,
        })
    })
}

fn values_body(r: &mut Reader) -> R<Values> {
    let mut last: Option<String> = None;
    r.list(512, |r| {
        let name = ascending(r, &mut last)?;
        Ok((name, r.number()?))
    })
}

/// A name that must be greater, byte by byte, than the one before it.
fn ascending(r: &mut Reader, last: &mut Option<String>) -> R<String> {
    let name = r.name()?;
    if last
        .as_ref()
        .is_some_and(|l| l.as_bytes() >= name.as_bytes())
    {
        return Err(r.no(6));
    }
    *last = Some(name.clone());
    Ok(name)
}

/// `seen` holds the names of the set's types before this one; nested types
/// are not asked.
fn read_type(r: &mut Reader, seen: Option<&Vec<String>>) -> R<Type> {
    r.block(
        |k| (1..=7).contains(&k),
        |r, kind| {
            let name = r.name()?;
            if seen.is_some_and(|s| s.contains(&name)) {
                return Err(r.no(6));
            }
            let size = if r.flag()? { None } else { Some(r.number()?) };
            let align = r.number()?;
            let refs = references(r)?;
            let kind = type_parts(r, kind)?;
            Ok(Type {
                name,
                size,
                align,
                refs,
                kind,
            })
        },
    )
}

fn references(r: &mut Reader) -> R<Vec<Owner>> {
    r.block(
        |k| k == 32,
        |r, _| {
            let mut last = None;
            let mut left = 64;
            r.list(64, |r| {
                r.block(|k| k == 37, |r, _| owner(r, &mut last, &mut left))
            })
        },
    )
}

/// `left` counts the paths that the references block may still hold.
fn owner(r: &mut Reader, last: &mut Option<String>, left: &mut usize) -> R<Owner> {
    let name = ascending(r, last)?;
    let mut last_path = None;
    let paths = r.list(*left, |r| ascending(r, &mut last_path))?;
    *left -= paths.len();
    Ok(Owner { name, paths })
}

fn type_parts(r: &mut Reader, kind: u16) -> R<Kind> {
    Ok(match kind {
        1 => Kind::Primitive,
        2 => Kind::Struct(r.list(64, field)?),
        3 => Kind::Union(r.list(64, field)?),
        4 => {
            let tag = expr(r)?;
            Kind::Enum(tag, r.list(64, variant)?)
        }
        5 => {
            let jagged = r.flag()?;
            let element = read_type(r, None)?;
            Kind::Array(jagged, Box::new(element), expr(r)?)
        }
        6 => Kind::Sized(r.list(64, sized_variant)?),
        _ => Kind::Reference(r.name()?),
    })
}

fn field(r: &mut Reader) -> R<Field> {
    r.block(
        |k| k == 33,
        |r, _| {
            let name = r.name()?;
            let offset = if r.flag()? { Some(r.number()?) } else { None };
            let ty = read_type(r, None)?;
            Ok(Field { name, offset, ty })
        },
    )
}

fn variant(r: &mut Reader) -> R<Variant> {
    r.block(
        |k| k == 34,
        |r, _| {
            Ok(Variant {
                name: r.name()?,
                tag: r.number()?,
                ty: read_type(r, None)?,
            })
        },
    )
}

fn sized_variant(r: &mut Reader) -> R<SizedVariant> {
    r.block(
        |k| k == 35,
        |r, _| {
            Ok(SizedVariant {
                name: r.name()?,
                size: r.number()?,
                ty: read_type(r, None)?,
            })
        },
    )
}

fn expr(r: &mut Reader) -> R<Expr> {
    r.block(
        |k| (64..=91).contains(&k),
        |r, kind| {
            Ok(match kind {
                64 => literal(r)?,
                65 => Expr::Path(r.list(64, |r| r.name())?),
                66 | 67 => Expr::Named(kind, r.name()?),
                79..=82 => Expr::One(kind, Box::new(expr(r)?)),
                _ => Expr::Two(kind, Box::new(expr(r)?), Box::new(expr(r)?)),
            })
        },
    )
}

/// The code is judged before the number is met.
fn literal(r: &mut Reader) -> R<Expr> {
    let code = r.byte()?;
    if code > 7 {
        return Err(r.no(5));
    }
    let n = r.number()?;
    match literal_fits(code, n) {
        true => Ok(Expr::Literal(code, n)),
        false => Err(r.no(5)),
    }
}

pub fn literal_fits(code: u8, n: u64) -> bool {
    let bits = [64, 32, 16, 8][code as usize % 4];
    if code < 4 {
        return (n as u128) < 1u128 << bits;
    }
    let half = 1i128 << (bits - 1);
    (-half..half).contains(&(n as i64 as i128))
}

fn tree(r: &mut Reader, seen: &[String]) -> R<Tree> {
    r.block(
        |k| k == 161,
        |r, _| {
            let name = r.name()?;
            if seen.contains(&name) {
                return Err(r.no(6));
            }
            Ok(Tree {
                name,
                align: r.number()?,
                root: node(r)?,
                params: r.list(512, param)?,
            })
        },
    )
}

fn param(r: &mut Reader) -> R<Param> {
    r.block(
        |k| k == 162,
        |r, _| {
            Ok(Param {
                name: r.name()?,
                text: r.optional_name()?,
                derived: r.flag()?,
            })
        },
    )
}

fn node(r: &mut Reader) -> R<Node> {
    r.block(
        |k| (128..=144).contains(&k),
        |r, kind| {
            let at = r.start;
            let align = r.number()?;
            let text = r.optional_name()?;
            let body = body(r, kind)?;
            Ok(Node {
                at,
                align,
                text,
                body,
            })
        },
    )
}

fn body(r: &mut Reader, kind: u16) -> R<Body> {
    Ok(match kind {
        128 => Body::Zero,
        129 => Body::Const(r.number()?),
        130 => Body::Ref(r.name()?, r.optional_name()?),
        131 => Body::Align(r.number()?, Box::new(node(r)?)),
        132 => switch(r)?,
        133 => Body::Call(r.name()?, r.list(512, argument)?),
        144 => Body::Sum(Box::new(node(r)?), r.name()?, r.name()?),
        _ => Body::Two(kind, Box::new(node(r)?), Box::new(node(r)?)),
    })
}

fn switch(r: &mut Reader) -> R<Body> {
    let tag = r.name()?;
    let cases = r.list(64, case)?;
    let default = match r.flag()? {
        true => Some(Box::new(node(r)?)),
        false => None,
    };
    Ok(Body::Switch(tag, cases, default))
}

fn case(r: &mut Reader) -> R<Case> {
    r.block(
        |k| k == 163,
        |r, _| {
            Ok(Case {
                tag: r.number()?,
                node: node(r)?,
                params: r.list(512, param)?,
            })
        },
    )
}

fn argument(r: &mut Reader) -> R<Argument> {
    r.block(
        |k| k == 164,
        |r, _| {
            Ok(Argument {
                at: r.start,
                name: r.name()?,
                value: r.name()?,
            })
        },
    )
}
