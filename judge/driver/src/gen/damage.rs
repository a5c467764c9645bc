//! Damaged copies of good inputs, for questions 1 to 6.

use super::texts::{BAD, GOOD};
use crate::prng::Rng;

/// Starts of the blocks of a good input, found without its meaning: a length
/// and a kind that fit, at any place.
fn block_starts(bytes: &[u8]) -> Vec<usize> {
    let mut out = Vec::new();
    for at in 0..bytes.len().saturating_sub(5) {
        let length = u32::from_le_bytes(bytes[at..at + 4].try_into().unwrap()) as usize;
        let kind = u16::from_le_bytes([bytes[at + 4], bytes[at + 5]]);
        let known = matches!(kind, 1..=7 | 32..=37 | 64..=91 | 128..=144 | 160..=164 | 192 | 193);
        if known && length >= 2 && length <= bytes.len() - at - 4 {
            out.push(at);
        }
    }
    out
}

pub fn damage(r: &mut Rng, good: &[u8]) -> Vec<u8> {
    let mut b = good.to_vec();
    let times = if r.chance(80) { 1 } else { r.between(2, 3) };
    for _ in 0..times {
        once(r, &mut b);
    }
    b
}

fn once(r: &mut Rng, b: &mut Vec<u8>) {
    if b.is_empty() {
        b.push(r.next() as u8);
        return;
    }
    match r.weighted(&[14, 10, 10, 10, 10, 10, 8, 14, 8, 1, 5, 6, 12, 6, 6]) {
        0 => {
            let at = r.below(b.len());
            b[at] ^= 1 << r.below(8);
        }
        1 => {
            let at = r.below(b.len());
            b[at] = *r.pick(&[0, 1, 2, 9, 0x1F, 0x7F, 0x80, 0xA9, 0xC3, 0xE2, 0xF0, 0xFF]);
        }
        2 => b.truncate(r.below(b.len())),
        3 => b.extend((0..r.between(1, 8)).map(|i| i as u8)),
        4 => change_length(r, b),
        5 => change_kind(r, b),
        6 => swap_words(r, b),
        7 => insert_inside(r, b),
        8 => remove_inside(r, b),
        9 => b.resize(r.between(65_530, 65_545), 0),
        10 => copy_block(r, b),
        11 => long_name(r, b),
        12 => other_text(r, b),
        13 => cut_name(r, b),
        _ => byte_to_next_name(r, b),
    }
}

fn change_length(r: &mut Rng, b: &mut [u8]) {
    let starts = block_starts(b);
    if starts.is_empty() {
        return;
    }
    let at = *r.pick(&starts);
    let old = u32::from_le_bytes(b[at..at + 4].try_into().unwrap());
    let by = r.between(1, 4) as u32;
    let new = match r.below(5) {
        0 => old.wrapping_add(by),
        1 => old.wrapping_sub(by),
        2 => 1,
        3 => u32::MAX,
        _ => 65_533,
    };
    b[at..at + 4].copy_from_slice(&new.to_le_bytes());
}

fn change_kind(r: &mut Rng, b: &mut [u8]) {
    let starts = block_starts(b);
    if starts.is_empty() {
        return;
    }
    let at = *r.pick(&starts);
    let kinds = [
        0, 1, 2, 3, 4, 5, 6, 7, 8, 31, 32, 36, 37, 63, 64, 70, 79, 91, 92, 127, 128, 134, 143, 144,
        145, 160, 192, 256,
    ];
    let kind: u16 = *r.pick(&kinds);
    b[at + 4..at + 6].copy_from_slice(&kind.to_le_bytes());
}

/// Two pieces of equal length change places: names out of order, counts off.
fn swap_words(r: &mut Rng, b: &mut [u8]) {
    let n = r.between(1, 8).min(b.len() / 2);
    if n == 0 {
        return;
    }
    let one = r.below(b.len() - n + 1);
    let two = r.below(b.len() - n + 1);
    for i in 0..n {
        b.swap(one + i, two + i);
    }
}

/// The blocks around a place, outermost first.
fn around(b: &[u8], place: usize) -> Vec<usize> {
    let mut out = Vec::new();
    let mut end = b.len();
    for at in block_starts(b) {
        let length = u32::from_le_bytes(b[at..at + 4].try_into().unwrap()) as usize;
        if at + 6 <= place && place < at + 4 + length && at + 4 + length <= end {
            end = at + 4 + length;
            out.push(at);
        }
    }
    out
}

fn raise(b: &mut [u8], blocks: &[usize], by: i64) {
    for at in blocks {
        let old = u32::from_le_bytes(b[*at..at + 4].try_into().unwrap()) as i64;
        b[*at..at + 4].copy_from_slice(&((old + by) as u32).to_le_bytes());
    }
}

/// A byte more, with the lengths around it raised to match.
fn insert_inside(r: &mut Rng, b: &mut Vec<u8>) {
    let place = r.below(b.len());
    let blocks = around(b, place);
    raise(b, &blocks, 1);
    b.insert(place, *r.pick(&[0, 1, 2, 0x20, 0x7E, 0x7F, 0xFF]));
}

fn remove_inside(r: &mut Rng, b: &mut Vec<u8>) {
    let place = r.below(b.len());
    let blocks = around(b, place);
    raise(b, &blocks, -1);
    b.remove(place);
}

/// A block stands twice, with the lengths around it raised and the count that
/// may stand before it raised by one.
fn copy_block(r: &mut Rng, b: &mut Vec<u8>) {
    let starts = block_starts(b);
    let Some(at) = starts.get(r.below(starts.len().max(1))).copied() else {
        return;
    };
    let length = u32::from_le_bytes(b[at..at + 4].try_into().unwrap()) as usize + 4;
    if at < 8 || b.len() + length > 70_000 {
        return;
    }
    let blocks = around(b, at - 1);
    raise(b, &blocks, length as i64);
    b[at - 2] = b[at - 2].wrapping_add(1);
    let copy = b[at..at + length].to_vec();
    b.splice(at..at, copy);
}

/// A name: where its length stands, and its bytes.
struct Name {
    at: usize,
    bytes: Vec<u8>,
}

/// What may be names: a short that is followed by that many bytes of text is
/// taken for a name's length.
fn names(b: &[u8]) -> Vec<Name> {
    (6..b.len().saturating_sub(3))
        .filter_map(|at| name_at(b, at))
        .collect()
}

fn name_at(b: &[u8], at: usize) -> Option<Name> {
    let head = b.get(at..at + 2)?;
    let length = u16::from_le_bytes([head[0], head[1]]) as usize;
    let bytes = b.get(at + 2..at + 2 + length)?;
    let text = std::str::from_utf8(bytes).is_ok_and(|t| !t.chars().any(|c| c.is_ascii_control()));
    let name = || Name {
        at,
        bytes: bytes.to_vec(),
    };
    (text && (1..=255).contains(&length)).then(name)
}

/// Another name in its place, with the lengths around it changed to match.
fn rename(b: &mut Vec<u8>, old: &Name, new: &[u8]) {
    let blocks = around(b, old.at);
    raise(b, &blocks, new.len() as i64 - old.bytes.len() as i64);
    let end = old.at + 2 + old.bytes.len();
    let mut both = (new.len() as u16).to_le_bytes().to_vec();
    both.extend(new);
    b.splice(old.at..end, both);
}

/// A name grown to about 255 bytes.
fn long_name(r: &mut Rng, b: &mut Vec<u8>) {
    let names = names(b);
    if names.is_empty() {
        return;
    }
    let old = r.pick(&names);
    let length = r.between(254, 257);
    let mut new = old.bytes.clone();
    let tail = *r.pick(&["z", "z", "\u{E9}", "\u{20AC}", "\u{1F68C}"]);
    while new.len() + tail.len() <= length {
        new.extend(tail.as_bytes());
    }
    new.resize(length.max(new.len()), b'z');
    rename(b, old, &new);
}

/// A text of the lists in a name, in place of it, or before or behind it: a
/// bad one mostly.
fn other_text(r: &mut Rng, b: &mut Vec<u8>) {
    let names = names(b);
    if names.is_empty() {
        return;
    }
    let old = r.pick(&names);
    let text = match r.chance(75) {
        true => *r.pick(&BAD),
        false => r.pick(&GOOD).as_bytes(),
    };
    let length = old.bytes.len();
    let range = match r.below(4) {
        0 => 0..length,
        1 => 0..0,
        2 => length..length,
        _ => r.below(length)..length,
    };
    let mut new = old.bytes.clone();
    new.splice(range, text.iter().copied());
    rename(b, old, &new);
}

/// A name without its last byte or its first: half a character where it had
/// more than one byte.
fn cut_name(r: &mut Rng, b: &mut Vec<u8>) {
    let mut names = names(b);
    if r.chance(80) && names.iter().any(|n| !n.bytes.is_ascii()) {
        names.retain(|n| !n.bytes.is_ascii());
    }
    if names.is_empty() {
        return;
    }
    let old = r.pick(&names);
    let new = match r.chance(70) {
        true => &old.bytes[..old.bytes.len() - 1],
        false => &old.bytes[1..],
    };
    rename(b, old, new);
}

/// The last byte of a name goes to the front of the name behind it: together
/// they have whole characters still.
fn byte_to_next_name(r: &mut Rng, b: &mut [u8]) {
    let follows = |n: &Name| name_at(b, n.at + 2 + n.bytes.len()).map(|next| next.at);
    let mut pairs: Vec<(Name, usize)> = Vec::new();
    for name in names(b) {
        if let Some(next) = follows(&name) {
            pairs.push((name, next));
        }
    }
    if pairs.iter().any(|(n, _)| !n.bytes.is_ascii()) {
        pairs.retain(|(n, _)| !n.bytes.is_ascii());
    }
    if pairs.is_empty() {
        return;
    }
    let (name, next) = r.pick(&pairs);
    if b[*next] == 255 {
        return;
    }
    b[name.at] -= 1;
    b[*next] += 1;
    b[next - 1..next + 2].rotate_left(1);
}
