//! The lean readers for sets: one that decodes straight into the Rust's own
//! values, and one that only checks.

use super::lean::{each, outermost, Cursor};
use crate::rules::read::literal_fits;
use crate::rust::{any_primitive, literal, one, two, Types};
use abi_gen::abi::expr::*;
use abi_gen::abi::resolved::*;
use abi_gen::abi::types::PrimitiveType;
use std::collections::{BTreeMap, HashMap, HashSet};

pub fn set(bytes: &[u8]) -> Option<Types> {
    let types = outermost(bytes, 36, 32, |c| {
        let mut names = HashSet::new();
        c.list(256, |c| {
            let ty = resolved(c)?;
            names.insert(ty.name.clone()).then_some(ty)
        })
    });
    types.map(Types::decoded)
}

fn resolved(c: &mut Cursor) -> Option<ResolvedType> {
    c.block((1, 7), |c, kind| {
        Some(ResolvedType {
            name: c.text()?.to_string(),
            size: match c.flag()? {
                true => Size::Variable(HashMap::new()),
                false => Size::Const(c.number()?),
            },
            alignment: c.number()?,
            comment: None,
            dynamic_params: references(c)?,
            kind: resolved_kind(c, kind)?,
        })
    })
}

/// A name that stands behind the last one in byte order.
fn ascending<'a>(c: &mut Cursor<'a>, last: &mut Option<&'a str>) -> Option<&'a str> {
    let name = c.text()?;
    let before = last.replace(name);
    (before < Some(name)).then_some(name)
}

type Owners = BTreeMap<String, BTreeMap<String, PrimitiveType>>;

/// There are at most 64 paths in all.
fn references(c: &mut Cursor) -> Option<Owners> {
    c.block((32, 32), |c, _| {
        let mut out = Owners::new();
        let (mut last, mut left) = (None, 64);
        each(c, 64, |c| {
            let (name, paths) = c.block((37, 37), |c, _| {
                let name = ascending(c, &mut last)?;
                let mut before = None;
                let paths = c.list(left, |c| ascending(c, &mut before))?;
                Some((name, paths))
            })?;
            left -= paths.len();
            let paths = paths.iter().map(|p| (p.to_string(), any_primitive()));
            out.insert(name.to_string(), paths.collect());
            Some(())
        })?;
        Some(out)
    })
}

fn resolved_kind(c: &mut Cursor, kind: u16) -> Option<ResolvedTypeKind> {
    Some(match kind {
        1 => ResolvedTypeKind::Primitive {
            prim_type: any_primitive(),
        },
        2 => ResolvedTypeKind::Struct {
            fields: c.list(64, field)?,
            packed: false,
            custom_alignment: None,
        },
        3 => ResolvedTypeKind::Union {
            variants: c.list(64, field)?,
        },
        4 => ResolvedTypeKind::Enum {
            tag_expression: expr(c)?,
            tag_constant_status: ConstantStatus::Constant,
            variants: c.list(64, variant)?,
        },
        5 => {
            let jagged = c.flag()?;
            ResolvedTypeKind::Array {
                element_type: Box::new(resolved(c)?),
                size_expression: expr(c)?,
                size_constant_status: ConstantStatus::Constant,
                jagged,
            }
        }
        6 => ResolvedTypeKind::SizeDiscriminatedUnion {
            variants: c.list(64, sized_variant)?,
        },
        _ => ResolvedTypeKind::TypeRef {
            target_name: c.text()?.to_string(),
            resolved: true,
        },
    })
}

fn field(c: &mut Cursor) -> Option<ResolvedField> {
    c.block((33, 33), |c, _| {
        Some(ResolvedField {
            name: c.text()?.to_string(),
            offset: c.maybe(Cursor::number)?,
            field_type: resolved(c)?,
        })
    })
}

fn variant(c: &mut Cursor) -> Option<ResolvedEnumVariant> {
    c.block((34, 34), |c, _| {
        Some(ResolvedEnumVariant {
            name: c.text()?.to_string(),
            tag_value: c.number()?,
            variant_type: resolved(c)?,
            requires_payload_size: false,
        })
    })
}

fn sized_variant(c: &mut Cursor) -> Option<ResolvedSizeDiscriminatedVariant> {
    c.block((35, 35), |c, _| {
        Some(ResolvedSizeDiscriminatedVariant {
            name: c.text()?.to_string(),
            expected_size: c.number()?,
            variant_type: resolved(c)?,
        })
    })
}

fn expr(c: &mut Cursor) -> Option<ExprKind> {
    c.block((64, 91), |c, kind| {
        Some(match kind {
            64 => {
                let (code, n) = checked_literal(c)?;
                ExprKind::Literal(literal(code, n))
            }
            65 => ExprKind::FieldRef(FieldRefExpr {
                path: c.list(64, |c| c.text().map(str::to_string))?,
            }),
            66 => ExprKind::Sizeof(SizeofExpr {
                type_name: c.text()?.to_string(),
            }),
            67 => ExprKind::Alignof(AlignofExpr {
                type_name: c.text()?.to_string(),
            }),
            79..=82 => one(kind, Box::new(expr(c)?)),
            _ => {
                let (left, right) = (Box::new(expr(c)?), Box::new(expr(c)?));
                two(kind, left, right)
            }
        })
    })
}

fn checked_literal(c: &mut Cursor) -> Option<(u8, u64)> {
    let code = c.byte().filter(|code| *code <= 7)?;
    let n = c.number()?;
    literal_fits(code, n).then_some((code, n))
}

/// Whether the bytes are a set. Of it only the types' names are kept, for
/// question 6.
pub fn is_set(bytes: &[u8]) -> bool {
    let names = outermost(bytes, 36, 32, |c| {
        let mut names = HashSet::new();
        each(c, 256, |c| {
            let name = check_type(c)?;
            names.insert(name).then_some(())
        })
    });
    names.is_some()
}

fn check_type<'a>(c: &mut Cursor<'a>) -> Option<&'a str> {
    c.block((1, 7), |c, kind| {
        let name = c.text()?;
        if !c.flag()? {
            c.number()?;
        }
        c.number()?;
        check_references(c)?;
        check_kind(c, kind)?;
        Some(name)
    })
}

fn check_references(c: &mut Cursor) -> Option<()> {
    c.block((32, 32), |c, _| {
        let (mut last, mut left) = (None, 64);
        each(c, 64, |c| {
            c.block((37, 37), |c, _| {
                ascending(c, &mut last)?;
                let mut before = None;
                let n = c.count(left)?;
                left -= n;
                (0..n).try_for_each(|_| ascending(c, &mut before).map(drop))
            })
        })
    })
}

fn check_kind(c: &mut Cursor, kind: u16) -> Option<()> {
    match kind {
        1 => Some(()),
        2 | 3 => each(c, 64, |c| {
            c.block((33, 33), |c, _| {
                c.text()?;
                c.maybe(Cursor::number)?;
                check_type(c).map(drop)
            })
        }),
        4 => {
            check_expr(c)?;
            each(c, 64, |c| check_variant(c, 34))
        }
        5 => {
            c.flag()?;
            check_type(c)?;
            check_expr(c)
        }
        6 => each(c, 64, |c| check_variant(c, 35)),
        _ => c.text().map(drop),
    }
}

fn check_variant(c: &mut Cursor, kind: u16) -> Option<()> {
    c.block((kind, kind), |c, _| {
        c.text()?;
        c.number()?;
        check_type(c).map(drop)
    })
}

fn check_expr(c: &mut Cursor) -> Option<()> {
    c.block((64, 91), |c, kind| match kind {
        64 => checked_literal(c).map(drop),
        65 => each(c, 64, |c| c.text().map(drop)),
        66 | 67 => c.text().map(drop),
        79..=82 => check_expr(c),
        _ => {
            check_expr(c)?;
            check_expr(c)
        }
    })
}
