//! Two readers that a Rust program might have in place of the judge's: one
//! that decodes straight into the Rust's own values, and one that only checks
//! and keeps nothing. Both put questions 1 to 6 and say yes or no.

use crate::data::LIMIT;
use abi_gen::codegen::shared::ir::*;
use abi_reflect::ir::interpreter::ParamMap;
use std::collections::{BTreeMap, HashSet};

/// A block that is open: its bytes that are left, and how many blocks may
/// still open in it.
pub struct Cursor<'a> {
    left: &'a [u8],
    room: usize,
}

impl<'a> Cursor<'a> {
    fn take(&mut self, n: usize) -> Option<&'a [u8]> {
        let (taken, left) = self.left.split_at_checked(n)?;
        self.left = left;
        Some(taken)
    }

    pub fn number(&mut self) -> Option<u64> {
        Some(u64::from_le_bytes(self.take(8)?.try_into().ok()?))
    }

    fn short(&mut self) -> Option<usize> {
        let b = self.take(2)?;
        Some(usize::from(u16::from_le_bytes([b[0], b[1]])))
    }

    pub fn count(&mut self, most: usize) -> Option<usize> {
        self.short().filter(|n| *n <= most)
    }

    pub fn byte(&mut self) -> Option<u8> {
        Some(self.take(1)?[0])
    }

    pub fn flag(&mut self) -> Option<bool> {
        match self.byte()? {
            0 => Some(false),
            1 => Some(true),
            _ => None,
        }
    }

    pub fn text(&mut self) -> Option<&'a str> {
        let n = self.short()?;
        let b = self.take(n)?;
        let good = n <= 255 && !b.iter().any(|c| *c < 0x20 || *c == 0x7F);
        std::str::from_utf8(b).ok().filter(|_| good)
    }

    pub fn maybe<T>(&mut self, there: impl FnOnce(&mut Self) -> Option<T>) -> Option<Option<T>> {
        match self.flag()? {
            true => there(self).map(Some),
            false => Some(None),
        }
    }

    /// A block of a kind between these; its parts are all that it has.
    pub fn block<T>(
        &mut self,
        kinds: (u16, u16),
        parts: impl FnOnce(&mut Cursor<'a>, u16) -> Option<T>,
    ) -> Option<T> {
        let length = u32::from_le_bytes(self.take(4)?.try_into().ok()?);
        let mut body = Cursor {
            left: self.take(length as usize)?,
            room: self.room.checked_sub(1)?,
        };
        let kind = body.short()? as u16;
        let good = (kinds.0..=kinds.1).contains(&kind);
        let made = parts(&mut body, kind).filter(|_| good)?;
        body.left.is_empty().then_some(made)
    }

    pub fn list<T>(
        &mut self,
        most: usize,
        mut each: impl FnMut(&mut Cursor<'a>) -> Option<T>,
    ) -> Option<Vec<T>> {
        let n = self.count(most)?;
        let mut out = Vec::with_capacity(n);
        for _ in 0..n {
            out.push(each(self)?);
        }
        Some(out)
    }
}

pub fn outermost<'a, T>(
    bytes: &'a [u8],
    kind: u16,
    room: usize,
    parts: impl FnOnce(&mut Cursor<'a>) -> Option<T>,
) -> Option<T> {
    let mut input = Cursor { left: bytes, room };
    if bytes.len() > LIMIT {
        return None;
    }
    let made = input.block((kind, kind), |c, _| parts(c))?;
    input.left.is_empty().then_some(made)
}

/// A layout in the Rust's own values, with the places of its types.
pub fn layout(bytes: &[u8]) -> Option<(LayoutIr, BTreeMap<String, usize>)> {
    outermost(bytes, 160, 256, |c| {
        let mut index = BTreeMap::new();
        let mut types = Vec::new();
        for place in 0..c.count(256)? {
            let ty = c.block((161, 161), |c, _| type_ir(c))?;
            if index.insert(ty.type_name.clone(), place).is_some() {
                return None;
            }
            types.push(ty);
        }
        Some((LayoutIr::new(types), index))
    })
}

pub fn values(bytes: &[u8]) -> Option<ParamMap> {
    outermost(bytes, 192, 2, param_map)
}

/// A run's type, buffer length and values.
pub fn run(bytes: &[u8]) -> Option<(&str, u64, ParamMap)> {
    outermost(bytes, 193, 2, |c| {
        let (name, length) = (c.text()?, c.number()?);
        let values = c.block((192, 192), |c, _| param_map(c))?;
        Some((name, length, values))
    })
}

fn param_map(c: &mut Cursor) -> Option<ParamMap> {
    let mut out = ParamMap::new();
    let mut last = None;
    for _ in 0..c.count(512)? {
        let name = c.text()?;
        if last >= Some(name) {
            return None;
        }
        last = Some(name);
        out.insert(name.to_string(), u128::from(c.number()?));
    }
    Some(out)
}

fn type_ir(c: &mut Cursor) -> Option<TypeIr> {
    Some(TypeIr {
        type_name: c.text()?.to_string(),
        alignment: c.number()?,
        root: node(c)?,
        parameters: c.list(512, parameter)?,
    })
}

fn parameter(c: &mut Cursor) -> Option<IrParameter> {
    c.block((162, 162), |c, _| {
        Some(IrParameter {
            name: c.text()?.to_string(),
            description: c.maybe(Cursor::text)?.map(str::to_string),
            derived: c.flag()?,
        })
    })
}

fn node(c: &mut Cursor) -> Option<IrNode> {
    c.block((128, 144), |c, kind| {
        let meta = NodeMetadata::aligned(c.number()?);
        let size_expr = c.maybe(Cursor::text)?.map(str::to_string);
        body(c, kind, NodeMetadata { size_expr, ..meta })
    })
}

fn body(c: &mut Cursor, kind: u16, meta: NodeMetadata) -> Option<IrNode> {
    Some(match kind {
        128 => IrNode::ZeroSize { meta },
        129 => IrNode::Const(ConstNode {
            value: c.number()?,
            meta,
        }),
        130 => IrNode::FieldRef(FieldRefNode {
            path: c.text()?.to_string(),
            parameter: c.maybe(Cursor::text)?.map(str::to_string),
            meta,
        }),
        131 => IrNode::AlignUp(AlignNode {
            alignment: c.number()?,
            node: Box::new(node(c)?),
            meta,
        }),
        132 => IrNode::Switch(SwitchNode {
            tag: c.text()?.to_string(),
            cases: c.list(64, case)?,
            default: c.maybe(node)?.map(Box::new),
            meta,
        }),
        133 => IrNode::CallNested(CallNestedNode {
            type_name: c.text()?.to_string(),
            arguments: c.list(512, argument)?,
            meta,
        }),
        144 => IrNode::SumOverArray(SumOverArrayNode {
            count: Box::new(node(c)?),
            element_type_name: c.text()?.to_string(),
            field_name: c.text()?.to_string(),
            meta,
        }),
        _ => {
            let (left, right) = (node(c)?, node(c)?);
            crate::rust::ir_two(kind, left, right, meta)
        }
    })
}

fn case(c: &mut Cursor) -> Option<SwitchCase> {
    c.block((163, 163), |c, _| {
        Some(SwitchCase {
            tag_value: c.number()?,
            node: Box::new(node(c)?),
            parameters: c.list(512, parameter)?,
        })
    })
}

fn argument(c: &mut Cursor) -> Option<IrArgument> {
    c.block((164, 164), |c, _| {
        Some(IrArgument {
            name: c.text()?.to_string(),
            value: c.text()?.to_string(),
        })
    })
}

/// Whether the bytes are a layout. Of it only the types' names are kept, for
/// question 6.
pub fn is_layout(bytes: &[u8]) -> bool {
    let names = outermost(bytes, 160, 256, |c| {
        let n = c.count(256)?;
        let mut names = HashSet::with_capacity(n);
        for _ in 0..n {
            let name = c.block((161, 161), |c, _| check_type(c))?;
            if !names.insert(name) {
                return None;
            }
        }
        Some(())
    });
    names.is_some()
}

fn check_type<'a>(c: &mut Cursor<'a>) -> Option<&'a str> {
    let name = c.text()?;
    c.number()?;
    check_node(c)?;
    each(c, 512, check_parameter)?;
    Some(name)
}

pub fn each<'a>(
    c: &mut Cursor<'a>,
    most: usize,
    mut one: impl FnMut(&mut Cursor<'a>) -> Option<()>,
) -> Option<()> {
    (0..c.count(most)?).try_for_each(|_| one(c))
}

fn check_parameter(c: &mut Cursor) -> Option<()> {
    c.block((162, 162), |c, _| {
        c.text()?;
        c.maybe(Cursor::text)?;
        c.flag().map(drop)
    })
}

fn check_node(c: &mut Cursor) -> Option<()> {
    c.block((128, 144), |c, kind| {
        c.number()?;
        c.maybe(Cursor::text)?;
        check_body(c, kind)
    })
}

fn check_body(c: &mut Cursor, kind: u16) -> Option<()> {
    match kind {
        128 => Some(()),
        129 => c.number().map(drop),
        130 => {
            c.text()?;
            c.maybe(Cursor::text).map(drop)
        }
        131 => {
            c.number()?;
            check_node(c)
        }
        132 => {
            c.text()?;
            each(c, 64, check_case)?;
            c.maybe(check_node).map(drop)
        }
        133 => {
            c.text()?;
            each(c, 512, check_argument)
        }
        144 => {
            check_node(c)?;
            c.text()?;
            c.text().map(drop)
        }
        _ => {
            check_node(c)?;
            check_node(c)
        }
    }
}

fn check_case(c: &mut Cursor) -> Option<()> {
    c.block((163, 163), |c, _| {
        c.number()?;
        check_node(c)?;
        each(c, 512, check_parameter)
    })
}

fn check_argument(c: &mut Cursor) -> Option<()> {
    c.block((164, 164), |c, _| {
        c.text()?;
        c.text().map(drop)
    })
}
