//! Refusals in words.

use crate::decode::{find, Found};
use crate::lines::written;
use crate::model::*;
use ciztarmo::Refusal;

/// Why reading refused a block of a kind, inside an outermost one.
pub fn reading(number: u8, kind: u16, outermost: u16) -> String {
    let sentence = match (number, kind) {
        (1, _) => "longer than 65,536 bytes",
        (2, _) => {
            "a block does not lie inside its parent, may not stand here, or has too many parts"
        }
        (3, _) => {
            "a name or text is longer than 255 bytes, is not UTF-8, or has a byte below 0x20 or the byte 0x7F"
        }
        (4, _) => return above(kind, outermost),
        (5, 64) => "a literal is outside its type",
        (5, _) => "a flag is neither 0 nor 1",
        (6, 37) => "owners, and the paths of one owner, must ascend in byte order, each once",
        (6, VALUES) => "the names of values must ascend in byte order, each once",
        (6, _) => "an earlier type has the same name",
        _ => return other(number),
    };
    sentence.to_string()
}

/// What a limit allows for the parts of a kind.
fn above(kind: u16, outermost: u16) -> String {
    let parts = match kind {
        SET | LAYOUT => "256 types",
        2 | 3 => "64 fields",
        4 | 6 => "64 variants",
        32 => "64 owners",
        37 => "64 paths among the owners of one type",
        65 => "64 segments",
        132 => "64 cases",
        133 => "512 arguments",
        161 | 163 => "512 parameters",
        VALUES => "512 values",
        _ => "",
    };
    let blocks = match outermost {
        SET => "32 blocks open together",
        LAYOUT => "256 blocks open together",
        _ => "",
    };
    let both: Vec<&str> = [parts, blocks]
        .into_iter()
        .filter(|p| !p.is_empty())
        .collect();
    format!("more than {}", both.join(", or more than "))
}

/// Why a build refused a type or a set.
pub fn building(number: u8) -> String {
    let sentence = match number {
        10 => "a type of this shape has no variable size",
        11 => "references that the layout needs are missing",
        12 => "a path names no parameter",
        13 => "an array can't have elements of this shape",
        14 => "an expression of this kind can't be a size",
        15 => "a type that is referred to is not in the set",
        16 => "a field's offset and size together reach 2^64",
        17 => "a name or text of more than 255 bytes, or more than 512 parameters or arguments, would be written",
        18 => "the layout is longer than 65,536 bytes, or could not be read back",
        _ => return other(number),
    };
    sentence.to_string()
}

fn other(number: u8) -> String {
    format!("see question {number} in docs/FORMAT.md")
}

/// What a run was answered, for a reader. The layout was built and the run was read.
pub fn answer(
    answer: Result<u64, Refusal>,
    layout: &[u8],
    trees: &[TypeTree],
    run: &Run,
) -> String {
    let refusal = match answer {
        Ok(1) => return format!("1 byte of {}", run.length),
        Ok(count) => return format!("{count} bytes of {}", run.length),
        Err(refusal) => refusal,
    };
    let number = refusal.number().code();
    let value = refusal.value();
    let sentence = match number {
        20 if trees.iter().all(|t| t.name != run.name) => "no type has this name".to_string(),
        20 => "a type that it calls is not there".to_string(),
        25 => format!("{value} bytes are needed and {} are there", run.length),
        _ => at_node(number, value, find(layout, refusal.offset() as usize)),
    };
    let holder = refusal.place().and_then(|p| trees.get(usize::from(p)));
    let inside = match holder {
        Some(tree) if tree.name != run.name => format!(" (in {})", written(&tree.name)),
        _ => String::new(),
    };
    format!("refused {number}: {sentence}{inside}")
}

/// Why the evaluation of a node, or of an argument, was refused.
fn at_node(number: u8, value: u64, found: Option<Found>) -> String {
    let node = match found {
        Some(Found::Argument(a)) => return format!("the value {} is missing", written(&a.value)),
        Some(Found::Node(node)) => node,
        None => return other(number),
    };
    match (number, &node.op) {
        (21, Op::FieldRef { path, parameter }) => {
            let name = parameter.as_ref().unwrap_or(path);
            format!("the value {} is missing", written(name))
        }
        (21, Op::Switch { tag, .. }) => format!("the value {} is missing", written(tag)),
        (22, Op::Switch { tag, .. }) => {
            format!("no case for the value {value} of {}", written(tag))
        }
        (23, Op::Two(135, ..)) => "a difference is below zero".to_string(),
        (23, Op::Two(137 | 138, ..)) => "a divisor is zero".to_string(),
        (23, _) => "a shift is by 128 or more".to_string(),
        (24, Op::SumOverArray { field, .. }) => {
            format!("the jagged array {} can't be summed", written(field))
        }
        (26, Op::Two(134, ..)) => "a sum reaches 2^64".to_string(),
        (26, Op::Two(136, ..)) => "a product reaches 2^64".to_string(),
        (26, Op::AlignUp(..)) => "an aligned count reaches 2^64".to_string(),
        (26, _) => "a left shift reaches 2^64".to_string(),
        (27, Op::CallNested { name, .. }) => {
            format!("the call of {} would be the 17th open", written(name))
        }
        _ => other(number),
    }
}
