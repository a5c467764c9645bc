//! Values for a layout: present, absent and at the limits.

use crate::data::*;
use crate::prng::{some_number, Rng};
use std::collections::{BTreeMap, BTreeSet};

/// Every name that a tree may ask for, with the tag values of its switches.
pub fn names(layout: &Layout) -> BTreeMap<String, Vec<u64>> {
    let mut out = BTreeMap::new();
    for t in layout {
        for p in &t.params {
            out.entry(p.name.clone()).or_default();
        }
        gather(&t.root, &mut out);
    }
    out
}

fn gather(n: &Node, out: &mut BTreeMap<String, Vec<u64>>) {
    match &n.body {
        Body::Zero | Body::Const(_) => {}
        Body::Ref(path, parameter) => {
            let name = parameter.as_ref().unwrap_or(path);
            out.entry(name.clone()).or_default();
        }
        Body::Align(_, inner) | Body::Sum(inner, ..) => gather(inner, out),
        Body::Switch(tag, cases, default) => {
            let tags = cases.iter().map(|c| c.tag);
            out.entry(tag.clone()).or_default().extend(tags);
            for c in cases {
                gather(&c.node, out);
            }
            if let Some(n) = default {
                gather(n, out);
            }
        }
        Body::Call(_, arguments) => {
            for a in arguments {
                out.entry(a.value.clone()).or_default();
            }
        }
        Body::Two(_, left, right) => {
            gather(left, out);
            gather(right, out);
        }
    }
}

pub fn values(r: &mut Rng, names: &BTreeMap<String, Vec<u64>>) -> Values {
    let present = *r.pick(&[100, 100, 97, 85, 40]);
    let mut out = Values::new();
    for (name, tags) in names {
        let given = match name.as_str() {
            "__buffer_size" => r.chance(15),
            _ => r.chance(present),
        };
        if given && name.len() <= 255 {
            let value = match !tags.is_empty() && r.chance(85) {
                true => *r.pick(tags),
                false => some_number(r),
            };
            out.push((name.clone(), value));
        }
    }
    if r.chance(5) {
        extra(r, &mut out);
    }
    out.truncate(512);
    out
}

/// Names that no tree asks for: they change nothing but the search.
fn extra(r: &mut Rng, out: &mut Values) {
    let n = if r.chance(10) {
        512 - out.len().min(512)
    } else {
        3
    };
    let have: BTreeSet<String> = out.iter().map(|(k, _)| k.clone()).collect();
    let before = *r.pick(&["~", "~", "\u{ffff}", "\u{10000}"]);
    for i in 0..n {
        let name = format!("{before}{i:03}");
        if !have.contains(&name) {
            out.push((name, some_number(r)));
        }
    }
    out.sort();
}

/// A buffer length near a count, or at a limit.
pub fn length(r: &mut Rng, count: Option<u64>) -> u64 {
    match (count, r.weighted(&[30, 20, 15, 15, 10, 10])) {
        (Some(c), 0) => c,
        (Some(c), 1) => c.wrapping_sub(1),
        (Some(c), 2) => c.wrapping_add(1),
        (_, 3) => r.below(64) as u64,
        (_, 4) => u64::MAX,
        (_, 5) => 0,
        _ => some_number(r).wrapping_mul(7),
    }
}
