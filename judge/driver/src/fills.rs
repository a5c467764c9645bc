//! The fill that a program `lengths` prints, held against the rule in exact
//! arithmetic: 100 × count / length to the nearest whole number, an exact half
//! to the even neighbour, for every length up to 2^64 − 1.

use crate::against::output;
use crate::data::*;
use crate::prng::Rng;
use crate::write;

/// Count, length and fill: the request's two, and where sums and products
/// would not fit in 64 bits.
pub const TABLE: [(u64, u64, u64); 20] = [
    (1, 8, 12),
    (3, 8, 38),
    (5, 8, 62),
    (7, 8, 88),
    (1, 200, 0),
    (3, 200, 2),
    (197, 200, 98),
    (199, 200, 100),
    ((1 << 61) - 1, u64::MAX - 7, 12),
    (3 * ((1 << 61) - 1), u64::MAX - 7, 38),
    ((1 << 63) - 1, u64::MAX, 50),
    (1 << 63, u64::MAX, 50),
    (0, 0, 0),
    (0, 1, 0),
    (1, 1, 100),
    (1, 201, 0),
    (1, 199, 1),
    (184_467_440_737_095_516, 1_475_739_525_896_764_128, 12),
    (184_467_440_737_095_517, 1_475_739_525_896_764_136, 12),
    (u64::MAX, u64::MAX, 100),
];

/// A record that takes as many bytes as its parameter says.
fn set() -> Set {
    let named = |name: &str, size| Type {
        name: name.to_string(),
        size,
        align: 1,
        refs: Vec::new(),
        kind: Kind::Primitive,
    };
    let n = Expr::Path(vec!["n".to_string()]);
    let bytes = Kind::Array(false, Box::new(named("byte", Some(1))), n);
    let field = Field {
        name: "bytes".to_string(),
        offset: None,
        ty: Type {
            kind: bytes,
            ..named("Block::bytes", None)
        },
    };
    let owner = Owner {
        name: "bytes".to_string(),
        paths: vec!["n".to_string()],
    };
    vec![Type {
        refs: vec![owner],
        kind: Kind::Struct(vec![field]),
        ..named("Block", None)
    }]
}

/// The set and a run for each count and length.
pub fn input(pairs: impl Iterator<Item = (u64, u64)>) -> Vec<u8> {
    let mut out = write::set(&set());
    for (count, length) in pairs {
        out.extend(write::run(&Run {
            name: "Block".to_string(),
            length,
            values: vec![("bytes.n".to_string(), count)],
        }));
    }
    out
}

pub fn table_input() -> Vec<u8> {
    input(TABLE.iter().map(|(count, length, _)| (*count, *length)))
}

/// A number of up to 64 bits, all widths alike.
fn of_any_width(r: &mut Rng) -> u64 {
    r.next() >> r.below(64)
}

/// A count and a length whose hundredfold ratio is so many halves, an odd number.
fn half(r: &mut Rng) -> (u64, u64) {
    let halves = 2 * r.below(100) as u64 + 1;
    let common = [25, 5, 1].into_iter().find(|n| halves % n == 0).unwrap();
    let (count, length) = (halves / common, 200 / common);
    let times = (u64::MAX / length >> r.below(56)).max(1);
    let times = times - r.next() % times.min(1 << 20);
    (count * times, length * times)
}

fn pair(r: &mut Rng) -> (u64, u64) {
    match r.weighted(&[20, 20, 10, 20, 28, 2]) {
        // small, and of any width
        0 => {
            let length = r.below(1001) as u64;
            (r.next() % (length + 1), length)
        }
        1 => {
            let length = of_any_width(r);
            (of_any_width(r).min(length), length)
        }
        // close to the greatest length
        2 => {
            let length = u64::MAX - r.below(1000) as u64;
            (r.next().min(length), length)
        }
        // an exact half, and one byte beside it
        3 => half(r),
        4 => {
            let (count, length) = half(r);
            match r.below(4) {
                0 => (count - 1, length),
                1 => (count + 1, length),
                2 => (count, length - 1),
                _ => (count, length.saturating_add(1)),
            }
        }
        // more than there is
        _ => {
            let length = of_any_width(r) >> 1;
            (length + 1 + r.below(9) as u64, length)
        }
    }
}

/// Twice what lies between the fill and the hundredfold ratio, in parts of the length.
fn twice_off(count: u64, length: u64, fill: u64) -> u128 {
    2 * (100 * count as u128).abs_diff(fill as u128 * length as u128)
}

/// Whether a fill is the rule's. No division is made: the number that is told is held against the rule.
fn right(count: u64, length: u64, fill: u64) -> bool {
    if length == 0 || count > length {
        return fill == 0;
    }
    let off = twice_off(count, length, fill);
    off < length as u128 || off == length as u128 && fill % 2 == 0
}

fn line_is_right(i: usize, count: u64, length: u64, line: &str) -> bool {
    let number = if count > length { 25 } else { 0 };
    let words: Vec<&str> = line.split(' ').collect();
    let wanted = [i.to_string(), number.to_string(), count.to_string()];
    let [a, b, c, fill] = words[..] else {
        return false;
    };
    let fill = fill.parse().ok().filter(|n| *n <= 100);
    [a, b, c] == wanted && fill.is_some_and(|n| right(count, length, n))
}

/// Holds a program against the table and so many random pairs.
pub fn fills(program: &str, cases: u64, seed: u64) -> Result<(), String> {
    let r = &mut Rng::new(seed, 0);
    let table = TABLE.iter().map(|(count, length, _)| (*count, *length));
    let pairs: Vec<(u64, u64)> = table.chain((0..cases).map(|_| pair(r))).collect();
    let lines = output(program, &input(pairs.iter().copied()))?;
    let lines: Vec<&str> = lines.lines().collect();
    if lines.len() != pairs.len() {
        return Err(format!("{} pairs, {} lines", pairs.len(), lines.len()));
    }
    let mut differ = 0;
    for (i, (count, length)) in pairs.iter().enumerate() {
        let told = TABLE
            .get(i)
            .is_none_or(|row| lines[i].ends_with(&format!(" {}", row.2)));
        if !told || !line_is_right(i, *count, *length, lines[i]) {
            differ += 1;
            println!("{count} of {length}: got {:?}", lines[i]);
        }
    }
    tell(&pairs);
    println!("pairs {}, differ {differ}", pairs.len());
    match differ {
        0 => Ok(()),
        _ => Err("the program's fill is not the rule's".to_string()),
    }
}

/// How many pairs there are of each kind.
fn tell(pairs: &[(u64, u64)]) {
    let many = |f: &dyn Fn(u64, u64) -> bool| pairs.iter().filter(|p| f(p.0, p.1)).count();
    let half = |count: u64, length: u64| {
        let twice = 200 * count as u128;
        length > 0
            && count <= length
            && twice % length as u128 == 0
            && twice / length as u128 % 2 == 1
    };
    println!("  exact halves            {:>9}", many(&half));
    println!(
        "  with a length from 2^63 {:>9}",
        many(&|_, length| length >> 63 == 1)
    );
    println!(
        "  both                    {:>9}",
        many(&|count, length| length >> 63 == 1 && half(count, length))
    );
    println!(
        "  more than there is      {:>9}",
        many(&|count, length| count > length)
    );
}
