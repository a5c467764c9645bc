//! Names and paths from small pools, so that they meet one another.

use crate::prng::Rng;

const WORDS: [&str; 14] = [
    "a", "b", "n", "m", "ab", "tag", "legs", "element", "array", "p", "q", "hdr", "len", "kind",
];

const PATHS: [&str; 22] = [
    "n",
    "m",
    "a",
    "b",
    "a.b",
    "",
    "a.",
    "p::n",
    "p::q.r",
    "q.r",
    "r",
    "p::",
    "a::b",
    "..",
    "element.n",
    "legs.element.n",
    "x.payload_size",
    "__variant",
    "__computed_tag",
    "__payload_size",
    "__buffer_size",
    "hdr.kind",
];

/// A long tail in some cases, so that made names pass 255 bytes.
pub fn stretch(r: &mut Rng, name: String, long: bool) -> String {
    if !long || r.chance(40) {
        return name;
    }
    let to = *r.pick(&[
        60, 90, 120, 125, 126, 127, 128, 200, 240, 247, 250, 254, 255,
    ]);
    let mut name = name;
    while name.len() < to {
        name.push((b'a' + (name.len() % 26) as u8) as char);
    }
    name
}

pub fn word(r: &mut Rng) -> String {
    r.pick(&WORDS).to_string()
}

pub fn path(r: &mut Rng) -> String {
    match r.chance(60) {
        true => word(r),
        false => r.pick(&PATHS).to_string(),
    }
}

/// How a path that an expression asks for may be stored under its owner: as
/// it stands, with the owner before it, or so that its alias is asked for.
pub fn stored(r: &mut Rng, owner: &str, path: &str) -> String {
    match r.weighted(&[70, 18, 12]) {
        0 => path.to_string(),
        1 if path.is_empty() => owner.to_string(),
        1 => format!("{owner}.{path}"),
        _ => format!("{}::{path}", word(r)),
    }
}

/// The path as segments: whole, or cut at its dots.
pub fn segments(r: &mut Rng, path: &str) -> Vec<String> {
    if path.is_empty() && r.chance(50) {
        return Vec::new();
    }
    match r.chance(30) {
        true => vec![path.to_string()],
        false => path.split('.').map(str::to_string).collect(),
    }
}

/// The name of the `i`th type of a set.
pub fn type_name(r: &mut Rng, i: usize) -> String {
    match r.weighted(&[70, 12, 10, 4, 4]) {
        0 => format!("T{i}"),
        1 => format!("pk::T{i}"),
        2 => format!(
            "{}{}",
            word(r),
            if r.chance(50) {
                i.to_string()
            } else {
                String::new()
            }
        ),
        3 => format!("a::{}", word(r)),
        _ => word(r),
    }
}
