//! Generated sets and layouts of some size, each of which the unchanged Rust
//! and the rules build alike.

use super::{names, sets};
use crate::data::*;
use crate::prng::Rng;
use crate::rules::{build, read};
use crate::{rust, write};

/// A layout of about so many KB, and one of mostly long names.
pub fn layout(kilobytes: usize) -> Vec<u8> {
    grown(1, kilobytes * 1024, false)
}

pub fn long_names() -> Vec<u8> {
    grown(2, 60 * 1024, true)
}

/// The layout of a generated set, grown type by type up to about `bytes`
/// bytes.
fn grown(seed: u64, bytes: usize, long: bool) -> Vec<u8> {
    let r = &mut Rng::new(seed, 0);
    let mut set = Set::new();
    let mut best = Vec::new();
    for i in 0..10_000 {
        if set.len() == 256 || best.len() + bytes / 100 > bytes {
            break;
        }
        let name = names::stretch(r, format!("T{i}"), long);
        set.push(sets::another(r, &set, &name, long));
        match layout_of(&set) {
            Some(layout) if layout.len() <= bytes => best = layout,
            _ => drop(set.pop()),
        }
    }
    best
}

/// 48 generated types of 300 bytes or more each.
pub fn types() -> Set {
    grown_set(18, 48, 300)
}

/// A generated set of so many types, each of at least `least` bytes.
fn grown_set(seed: u64, many: usize, least: usize) -> Set {
    let r = &mut Rng::new(seed, 0);
    let mut set = Set::new();
    let mut tried = 0;
    while set.len() < many {
        let next = sets::another(r, &set, &format!("T{tried}"), false);
        // A set of this type alone has 8 bytes before it.
        let short = write::set(std::slice::from_ref(&next)).len() < least + 8;
        set.push(next);
        if short || layout_of(&set).is_none() {
            set.pop();
        }
        tried += 1;
    }
    set
}

/// `None` where the rules or the Rust refuse the set, or the rules its layout.
pub fn layout_of(set: &Set) -> Option<Vec<u8>> {
    let trees = build::build_set(set).ok()?;
    let layout = write::layout(&trees);
    let same = rust::build(set, set.len()).is_ok_and(|t| t == trees);
    let read = same && layout.len() <= LIMIT && read::layout(&layout).is_ok();
    read.then_some(layout)
}
