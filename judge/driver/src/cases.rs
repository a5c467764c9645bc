//! A case is a seed and an index; from them come its calls.

use crate::call::Call;
use crate::data::*;
use crate::gen::{damage, layouts, limits, lists, pairs, runs, sets};
use crate::prng::Rng;
use crate::rules::eval::STOPPED;
use crate::rules::{build, eval, read};
use crate::write;

#[derive(Clone, Copy, PartialEq, Eq, Debug)]
pub enum What {
    Sets,
    Layouts,
    Damaged,
    Pairs,
}

pub struct Case {
    pub what: What,
    pub calls: Vec<Call>,
    /// For a pair: what "Old and new layout" is broken by.
    pub broken: Option<String>,
    /// For a pair: answers held together, and old 22s with an added case.
    pub pair_answers: usize,
    pub pair_added: usize,
}

impl Case {
    fn new(what: What, calls: Vec<Call>) -> Case {
        Case {
            what,
            calls,
            broken: None,
            pair_answers: 0,
            pair_added: 0,
        }
    }
}

pub fn make(seed: u64, index: u64) -> Case {
    let r = &mut Rng::new(seed, index);
    // By the index, so that the other cases do not depend on it.
    let lists = index / 10 % 15 == 14;
    let case = match index % 10 {
        0..=3 if lists => list_set_case(r),
        4..=5 if lists => list_layout_case(r),
        0..=3 => set_case(r),
        4..=5 => layout_case(r),
        6..=8 => damaged_case(r),
        _ => pair_case(r),
    };
    with_runs(r, case)
}

/// Half of the validations as run blocks too, some of them damaged. Drawn
/// last, so that the other calls of a case do not depend on it.
fn with_runs(r: &mut Rng, mut case: Case) -> Case {
    let mut runs = Vec::new();
    for call in &case.calls {
        let Call::Validate {
            words,
            length,
            layout,
            name,
            values,
        } = call
        else {
            continue;
        };
        if r.chance(50) {
            let run = write::run_around(name, *length, values);
            runs.push(Call::Run {
                words: *words,
                layout: layout.clone(),
                run: match r.chance(10) {
                    true => damage::damage(r, &run),
                    false => run,
                },
            });
        }
    }
    case.calls.extend(runs);
    case
}

fn words(r: &mut Rng) -> u64 {
    match r.below(400) {
        0 => 8191,
        1 => 0,
        2 => 100_000,
        _ => WORDS,
    }
}

/// The output that a build is lent: now and then none, or about as long as
/// the layout, whose length is asked for only then.
fn room(r: &mut Rng, size: impl FnOnce() -> u64) -> u64 {
    match r.below(60) {
        0 => size(),
        1 => size().saturating_sub(1),
        2 => 0,
        _ => LIMIT as u64,
    }
}

/// A build alone, without runs: nine of ten as in a case of sets, the tenth
/// of a damaged set.
pub fn set_call(seed: u64, index: u64) -> Call {
    let r = &mut Rng::new(seed, index);
    if index % 10 == 9 {
        return Call::Build {
            words: WORDS,
            room: LIMIT as u64,
            set: damaged_set(r, sets::set),
        };
    }
    let set = write::set(&sets::set(r));
    let size = || build::build(&set, WORDS, LIMIT as u64).map_or(0, |b| b.len() as u64);
    Call::Build {
        room: room(r, size),
        words: words(r),
        set,
    }
}

fn set_case(r: &mut Rng) -> Case {
    set_case_of(r, sets::set)
}

/// The same with a small set.
pub fn small_case(seed: u64, index: u64) -> Case {
    let r = &mut Rng::new(seed, index);
    let case = match index % 8 {
        0..=4 => set_case_of(r, sets::small),
        5 => layout_case(r),
        _ => damaged_of(r, sets::small),
    };
    with_runs(r, case)
}

fn set_case_of(r: &mut Rng, set: fn(&mut Rng) -> Set) -> Case {
    let set = write::set(&set(r));
    let built = build::build(&set, WORDS, LIMIT as u64);
    let size = || built.as_ref().map_or(0, |b| b.len() as u64);
    let mut calls = vec![Call::Build {
        room: room(r, size),
        words: words(r),
        set: set.clone(),
    }];
    if let Ok(layout) = built {
        let many = r.between(2, 4);
        calls.extend(run_calls(r, &layout, many));
        if r.chance(10) {
            calls.push(lengths_call(r, set, &layout));
        }
    } else if r.chance(3) {
        calls.push(Call::Lengths(set));
    }
    Case::new(What::Sets, calls)
}

fn layout_case(r: &mut Rng) -> Case {
    let layout = write::layout(&layouts::layout(r));
    let many = r.between(3, 6);
    Case::new(What::Layouts, run_calls(r, &layout, many))
}

/// A set whose records ask for many values of long lists; mostly runs of it as
/// standard input of `lengths` too.
fn list_set_case(r: &mut Rng) -> Case {
    let (set, pool) = lists::set(r);
    let set = write::set(&set);
    let mut calls = vec![Call::Build {
        room: LIMIT as u64,
        words: WORDS,
        set: set.clone(),
    }];
    if let Ok(layout) = build::build(&set, WORDS, LIMIT as u64) {
        let asked = list_calls(r, &layout, &pool);
        if r.chance(60) {
            calls.push(lengths_of(r, &set, &asked));
        }
        calls.extend(asked);
    }
    Case::new(What::Sets, calls)
}

fn list_layout_case(r: &mut Rng) -> Case {
    let (trees, pool) = lists::layout(r);
    let layout = write::layout(&trees);
    Case::new(What::Layouts, list_calls(r, &layout, &pool))
}

/// Some validations of a layout's first type, each with a list of its own.
fn list_calls(r: &mut Rng, layout: &[u8], pool: &[String]) -> Vec<Call> {
    let Ok(trees) = read::layout(layout) else {
        return Vec::new();
    };
    let mut out = Vec::new();
    for _ in 0..r.between(2, 4) {
        let name = trees[0].name.as_bytes();
        let values = lists::values(r, &trees, pool);
        let first = eval::required(&trees, name, u64::MAX / 3, &values);
        let length = runs::length(r, first.ok());
        out.push(validation(r, layout, name, length, &values));
    }
    out
}

/// The longest input of `lengths`: a record of the list has room for it.
const LENGTHS: usize = 250_000;

/// The set and the validations as runs, one of them now and then damaged.
fn lengths_of(r: &mut Rng, set: &[u8], asked: &[Call]) -> Call {
    let mut input = set.to_vec();
    for call in asked {
        if let Call::Validate {
            length,
            name,
            values,
            ..
        } = call
        {
            let run = write::run_around(name, *length, values);
            let run = match r.chance(10) {
                true => damage::damage(r, &run),
                false => run,
            };
            if input.len() + run.len() > LENGTHS {
                break;
            }
            input.extend(run);
        }
    }
    Call::Lengths(input)
}

fn asked_name(r: &mut Rng, trees: &Layout) -> Vec<u8> {
    if trees.is_empty() || r.chance(2) {
        return r
            .pick(&["", "T", "L", "nowhere", "\u{e9}"])
            .as_bytes()
            .to_vec();
    }
    r.pick(trees).name.as_bytes().to_vec()
}

/// Some validations of a layout: lengths are drawn near the count.
fn run_calls(r: &mut Rng, layout: &[u8], many: usize) -> Vec<Call> {
    let Ok(trees) = read::layout(layout) else {
        return vec![validation(r, layout, b"L0", 0, &Values::new())];
    };
    let names = runs::names(&trees);
    let mut out = Vec::new();
    for _ in 0..many {
        let name = asked_name(r, &trees);
        let values = runs::values(r, &names);
        let first = eval::required(&trees, &name, u64::MAX / 3, &values);
        let length = runs::length(r, first.ok());
        out.push(validation(r, layout, &name, length, &values));
    }
    out
}

fn validation(r: &mut Rng, layout: &[u8], name: &[u8], length: u64, values: &Values) -> Call {
    Call::Validate {
        words: words(r),
        length,
        layout: layout.to_vec(),
        name: name.to_vec(),
        values: write::values(values),
    }
}

/// Standard input for `lengths`: mostly a good set with runs.
pub fn lengths_input(seed: u64, index: u64) -> Vec<u8> {
    let r = &mut Rng::new(seed, index);
    let set = match r.chance(10) {
        true => damaged_set(r, sets::small),
        false => write::set(&sets::set(r)),
    };
    match build::build(&set, WORDS, LIMIT as u64) {
        Ok(layout) => match lengths_call(r, set, &layout) {
            Call::Lengths(input) => input,
            _ => unreachable!(),
        },
        Err(_) => set,
    }
}

fn stopped(answer: &Result<u64, No>) -> bool {
    answer.is_err_and(|no| no.number == STOPPED)
}

/// The set and some runs as standard input; now and then damaged.
fn lengths_call(r: &mut Rng, set: Vec<u8>, layout: &[u8]) -> Call {
    let trees = read::layout(layout).unwrap();
    let names = runs::names(&trees);
    let mut input = set;
    for _ in 0..r.below(4) {
        let values = runs::values(r, &names);
        let name = String::from_utf8(asked_name(r, &trees)).unwrap();
        let first = eval::required(&trees, name.as_bytes(), u64::MAX / 3, &values);
        let length = runs::length(r, first.ok());
        if stopped(&eval::required(&trees, name.as_bytes(), length, &values)) {
            continue;
        }
        let run = Run {
            length,
            name,
            values,
        };
        let bytes = write::run(&run);
        input.extend(match r.chance(15) {
            true => damage::damage(r, &bytes),
            false => bytes,
        });
    }
    if r.chance(10) {
        input.truncate(r.below(input.len() + 1));
    }
    Call::Lengths(input)
}

fn damaged_case(r: &mut Rng) -> Case {
    damaged_of(r, sets::set)
}

fn damaged_of(r: &mut Rng, set: fn(&mut Rng) -> Set) -> Case {
    let calls = match r.below(3) {
        0 => vec![Call::Build {
            words: WORDS,
            room: LIMIT as u64,
            set: damaged_set(r, set),
        }],
        1 => {
            let bad = damaged_layout(r, set);
            run_calls(r, &bad, 2)
        }
        _ => {
            let layout = write::layout(&layouts::layout(r));
            let calls = run_calls(r, &layout, 2);
            damaged_values(r, calls)
        }
    };
    Case::new(What::Damaged, calls)
}

fn damaged_set(r: &mut Rng, set: fn(&mut Rng) -> Set) -> Vec<u8> {
    let mut types = set(r);
    match r.below(10) {
        0 => write::set(&limits::counted_set(r)),
        1..=3 => {
            limits::wrong_set(r, &mut types);
            write::set(&types)
        }
        _ => damage::damage(r, &write::set(&types)),
    }
}

fn damaged_layout(r: &mut Rng, set: fn(&mut Rng) -> Set) -> Vec<u8> {
    let mut trees = match r.chance(50) {
        true => layouts::layout(r),
        false => build::build_set(&set(r)).unwrap_or_default(),
    };
    match r.below(10) {
        0 => write::layout(&limits::counted_layout(r)),
        1..=2 if !trees.is_empty() => {
            limits::wrong_layout(r, &mut trees);
            write::layout(&trees)
        }
        _ => damage::damage(r, &write::layout(&trees)),
    }
}

fn damaged_values(r: &mut Rng, mut calls: Vec<Call>) -> Vec<Call> {
    for c in &mut calls {
        if let Call::Validate { values, .. } = c {
            let mut good = read::values(values).unwrap_or_default();
            *values = match r.below(10) {
                0 => write::values(&limits::counted_values(r)),
                1..=2 => {
                    limits::wrong_values(r, &mut good);
                    write::values(&good)
                }
                _ => damage::damage(r, values),
            };
        }
    }
    calls
}

fn pair_case(r: &mut Rng) -> Case {
    let old = sets::set(r);
    let new = pairs::newer(r, &old);
    let (old, new) = (write::set(&old), write::set(&new));
    let build = |set: &[u8]| Call::Build {
        words: WORDS,
        room: LIMIT as u64,
        set: set.to_vec(),
    };
    let mut case = Case::new(What::Pairs, vec![build(&old), build(&new)]);
    let built = |set: &[u8]| build::build(set, WORDS, LIMIT as u64);
    if let (Ok(old), Ok(new)) = (built(&old), built(&new)) {
        let runs = pair_runs(r, &old, &new, &mut case);
        case.calls.extend(runs);
    }
    case
}

/// The same runs put to both layouts, and the statement checked on them.
fn pair_runs(r: &mut Rng, old: &[u8], new: &[u8], case: &mut Case) -> Vec<Call> {
    let old_trees = read::layout(old).unwrap();
    let new_trees = read::layout(new).unwrap();
    case.broken = pair_trees(&old_trees, &new_trees);
    let names = runs::names(&new_trees);
    let mut out = Vec::new();
    if old_trees.is_empty() {
        return out;
    }
    for _ in 0..6 {
        let name = r.pick(&old_trees).name.as_bytes().to_vec();
        let values = runs::values(r, &names);
        let length = runs::length(r, None);
        let one = eval::required(&old_trees, &name, length, &values);
        let two = eval::required(&new_trees, &name, length, &values);
        out.push(validation(r, old, &name, length, &values));
        out.push(validation(r, new, &name, length, &values));
        if stopped(&one) || stopped(&two) {
            continue;
        }
        case.pair_answers += 1;
        match same_answer(one, &old_trees, two, &new_trees) {
            true => {}
            false if added_case(one, &old_trees, &new_trees) => case.pair_added += 1,
            false => case.broken = Some(format!("answers differ: {one:?} and {two:?}")),
        }
    }
    out
}

/// The new tree of an old type is the old one with cases appended.
fn pair_trees(old: &Layout, new: &Layout) -> Option<String> {
    for o in old {
        let Some(n) = new.iter().find(|n| n.name == o.name) else {
            return Some(format!("{} is missing", o.name));
        };
        let bytes =
            |t: &Tree| -> Vec<Vec<u8>> { t.params.iter().map(write::param_alone).collect() };
        if o.align != n.align || bytes(o) != bytes(n) || !pairs::extends(&o.root, &n.root) {
            return Some(format!("the tree of {} changed", o.name));
        }
    }
    None
}

/// Equal but for the offset; type places are compared by name.
fn same_answer(one: Result<u64, No>, old: &Layout, two: Result<u64, No>, new: &Layout) -> bool {
    let name = |place: u16, trees: &Layout| match place {
        NO_PLACE => None,
        p => Some(trees[p as usize].name.clone()),
    };
    match (one, two) {
        (Ok(a), Ok(b)) => a == b,
        (Err(a), Err(b)) => {
            a.number == b.number && a.value == b.value && name(a.place, old) == name(b.place, new)
        }
        _ => false,
    }
}

/// An old 22 at a switch that has, in the new layout, an added case for it.
fn added_case(one: Result<u64, No>, old: &Layout, new: &Layout) -> bool {
    let Err(no) = one else { return false };
    if no.number != 22 {
        return false;
    }
    let tree = &old[no.place as usize];
    let same = new.iter().find(|n| n.name == tree.name).unwrap();
    let Some(way) = pairs::way_to(&tree.root, no.offset as usize) else {
        return false;
    };
    let was = pairs::follow(&tree.root, &way).map(|n| &n.body);
    let is = pairs::follow(&same.root, &way).map(|n| &n.body);
    match (was, is) {
        (Some(Body::Switch(_, a, _)), Some(Body::Switch(_, b, _))) => {
            b[a.len().min(b.len())..].iter().any(|c| c.tag == no.value)
        }
        _ => false,
    }
}
