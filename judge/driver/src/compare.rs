//! The comparison at scale, and what it counted.

use crate::call::{judge, Answer, Call, Verdict};
use crate::cases::{make, What};
use crate::data::*;
use crate::gen::{lists, spelling};
use crate::rules::{build, eval, lengths, read};
use crate::write;
use std::collections::BTreeMap;
use std::panic::{catch_unwind, AssertUnwindSafe};

#[derive(Default)]
pub struct Tally {
    cases: BTreeMap<&'static str, u64>,
    calls: BTreeMap<&'static str, u64>,
    numbers: BTreeMap<(&'static str, u8), (u64, u64)>,
    kinds: BTreeMap<u16, u64>,
    stopped: u64,
    panics: u64,
    pair_answers: usize,
    pair_added: usize,
    beyond: Met,
    indexed: Met,
    differences: Vec<String>,
}

/// How much of it had something, as a name beyond ASCII that was read: cases,
/// those in which the Rust confirmed such a call, such calls, and those that it
/// confirmed.
#[derive(Default, Clone, Copy)]
pub struct Met {
    cases: u64,
    cases_confirmed: u64,
    calls: u64,
    calls_confirmed: u64,
}

impl Met {
    pub fn call(&mut self, confirmed: bool) {
        self.calls += 1;
        self.calls_confirmed += u64::from(confirmed);
    }

    /// A case ends, before which so much was met.
    pub fn case(&mut self, before: Met) {
        self.cases += u64::from(self.calls > before.calls);
        self.cases_confirmed += u64::from(self.calls_confirmed > before.calls_confirmed);
    }

    pub fn lines(&self, what: &str) -> String {
        let Met {
            cases,
            cases_confirmed,
            calls,
            calls_confirmed,
        } = self;
        format!("{what}; confirmed by the Rust\n")
            + &format!("  cases           {cases:>9}{cases_confirmed:>10}\n")
            + &format!("  calls           {calls:>9}{calls_confirmed:>10}")
    }
}

/// What `asks_index` counts, in words.
pub const INDEXED: &str =
    "with an index: more than 8 names asked at the root of 256 values or more, by a tree as long as one that asks for 40";

pub fn call_name(call: &Call) -> &'static str {
    match call {
        Call::Build { .. } => "build",
        Call::Validate { .. } => "validate",
        Call::Run { .. } => "run",
        Call::Lengths(_) => "lengths",
    }
}

fn case_name(what: What) -> &'static str {
    match what {
        What::Sets => "sets",
        What::Layouts => "layouts",
        What::Damaged => "damaged inputs",
        What::Pairs => "pairs",
    }
}

impl Tally {
    pub fn case(&mut self, seed: u64, index: u64) {
        let place = format!("seed {seed} index {index}");
        let Ok(case) = catch_unwind(AssertUnwindSafe(|| make(seed, index))) else {
            return self.panicked(&place, "while it was made");
        };
        *self.cases.entry(case_name(case.what)).or_default() += 1;
        self.pair_answers += case.pair_answers;
        self.pair_added += case.pair_added;
        if let Some(text) = case.broken {
            self.differences
                .push(format!("{place}: old and new: {text}"));
        }
        let before = (self.beyond, self.indexed);
        for (i, call) in case.calls.iter().enumerate() {
            let place = format!("{place} call {i}");
            match catch_unwind(AssertUnwindSafe(|| judge(call))) {
                Ok(v) => self.verdict(call, v, &place),
                Err(_) => self.panicked(&place, "in the call"),
            }
        }
        self.beyond.case(before.0);
        self.indexed.case(before.1);
    }

    fn panicked(&mut self, place: &str, when: &str) {
        self.panics += 1;
        self.differences.push(format!("{place}: panic {when}"));
    }

    fn verdict(&mut self, call: &Call, v: Verdict, place: &str) {
        if v.stopped() {
            self.stopped += 1;
            return;
        }
        let name = call_name(call);
        *self.calls.entry(name).or_default() += 1;
        let counts = self.numbers.entry((name, v.answer.number())).or_default();
        counts.0 += 1;
        counts.1 += v.confirmed as u64;
        for kind in kinds_met(call, &v.answer) {
            *self.kinds.entry(kind).or_default() += 1;
        }
        if beyond_ascii(call) {
            self.beyond.call(v.confirmed);
        }
        if asks_index(call) {
            self.indexed.call(v.confirmed);
        }
        if let Some(text) = v.differs {
            self.differences.push(format!("{place}: {text}"));
        }
    }

    pub fn print(&self) {
        println!("cases");
        for (name, n) in &self.cases {
            println!("  {name:<16}{n:>9}");
        }
        println!("calls compared");
        for (name, n) in &self.calls {
            println!("  {name:<16}{n:>9}");
        }
        println!("answers, by call and number (0: accepted); confirmed by the Rust; rules only");
        for ((name, number), (all, confirmed)) in &self.numbers {
            let rules = all - confirmed;
            println!("  {name:<10}{number:>4}{all:>10}{confirmed:>10}{rules:>10}");
        }
        println!("inputs and layouts in which a kind occurs");
        for (kind, n) in &self.kinds {
            println!("  {kind:>4}{n:>10}");
        }
        println!(
            "old and new layout: {} pairs of answers, {} of them an old 22 with an added case",
            self.pair_answers, self.pair_added
        );
        let beyond = "with a name beyond ASCII that was read";
        println!("{}", self.beyond.lines(beyond));
        println!("{}", self.indexed.lines(INDEXED));
        println!("not compared, evaluation too long: {}", self.stopped);
        println!("panics: {}", self.panics);
        println!("differences: {}", self.differences.len());
        for text in self.differences.iter().take(20) {
            println!("  {text}");
        }
    }

    /// Numbers that a comparison of some size must have met.
    fn missing(&self) -> Vec<u8> {
        let met = |n: &u8| self.numbers.keys().any(|(_, k)| k == n);
        (10..=15).chain(20..=25).filter(|n| !met(n)).collect()
    }

    /// Differences, or a number that did not occur in a large run.
    pub fn failed(&self, cases: u64) -> bool {
        let missing = self.missing();
        if cases >= 100_000 && !missing.is_empty() {
            println!("numbers that did not occur: {missing:?}");
            return true;
        }
        !self.differences.is_empty()
    }
}

/// Whether an input that the call reads has a name beyond ASCII.
pub fn beyond_ascii(call: &Call) -> bool {
    let beyond = |name: &str| !name.is_ascii();
    let in_set = |set: &[u8]| read::set(set).is_ok_and(spelling::beyond_in_set);
    let in_layout = |layout: &[u8]| read::layout(layout).is_ok_and(spelling::beyond_in_layout);
    let in_values = |v: Values| v.iter().any(|(name, _)| beyond(name));
    match call {
        Call::Build { set, .. } => in_set(set),
        Call::Validate { layout, values, .. } => {
            in_layout(layout) || read::values(values).is_ok_and(in_values)
        }
        Call::Run { layout, run, .. } => {
            in_layout(layout)
                || read::run(run).is_ok_and(|r| beyond(&r.name) || in_values(r.values))
        }
        Call::Lengths(input) => lengths::blocks(input).is_some_and(|(set, _)| in_set(set)),
    }
}

/// Whether so many names are asked of so long a list that they are found by an
/// index of it (gen/lists.rs).
pub fn asks_index(call: &Call) -> bool {
    match call {
        Call::Build { .. } => false,
        Call::Validate {
            words,
            length,
            layout,
            name,
            values,
        } => {
            let asks = |v: Values| asks_many(layout, name, *length, &v);
            *words >= WORDS && read::values(values).is_ok_and(asks)
        }
        Call::Run { words, layout, run } => *words >= WORDS && run_asks_index(layout, run),
        Call::Lengths(input) => lengths::blocks(input).is_some_and(|(set, runs)| {
            // Names and numbers have ten bytes each or more.
            let long = |run: &&&[u8]| run.len() >= 10 * lists::VALUES;
            let mut long = runs.iter().filter(long).peekable();
            long.peek().is_some()
                && build::build(set, WORDS, LIMIT as u64)
                    .is_ok_and(|layout| long.any(|run| run_asks_index(&layout, run)))
        }),
    }
}

fn run_asks_index(layout: &[u8], run: &[u8]) -> bool {
    let asks = |r: Run| asks_many(layout, r.name.as_bytes(), r.length, &r.values);
    read::run(run).is_ok_and(asks)
}

fn asks_many(layout: &[u8], name: &[u8], length: u64, values: &Values) -> bool {
    values.len() >= lists::VALUES
        && read::layout(layout).is_ok_and(|trees| {
            let tree = trees.iter().find(|t| t.name.as_bytes() == name);
            let bytes = |t| write::layout(std::slice::from_ref(t)).len() - LAYOUT_HEAD - LENGTH;
            let listed = write::values(values).len() - LENGTH;
            tree.is_some_and(|t| lists::has_index(bytes(t), listed, values.len()))
                && eval::asked_at_root(&trees, name, length, values) > lists::FOUND
        })
}

/// Bytes of a length field, and of what stands before the trees of a layout.
const LENGTH: usize = 4;
const LAYOUT_HEAD: usize = 8;

/// The kinds of types and expressions in a good set, of nodes in a layout.
pub fn kinds_met(call: &Call, answer: &Answer) -> Vec<u16> {
    let mut out = Vec::new();
    if let Call::Build { set, .. } = call {
        if let Ok(types) = read::set(set) {
            types.iter().for_each(|t| type_kinds(t, &mut out));
        }
    }
    if let Answer::Layout(bytes) = answer {
        layout_kinds(bytes, &mut out);
    }
    if let Call::Validate { layout, .. } | Call::Run { layout, .. } = call {
        layout_kinds(layout, &mut out);
    }
    out.sort();
    out.dedup();
    out
}

fn layout_kinds(bytes: &[u8], out: &mut Vec<u16>) {
    if let Ok(trees) = read::layout(bytes) {
        trees.iter().for_each(|t| node_kinds(&t.root, out));
    }
}

fn type_kinds(t: &Type, out: &mut Vec<u16>) {
    out.push(t.kind.number());
    match &t.kind {
        Kind::Primitive | Kind::Reference(_) => {}
        Kind::Struct(fields) | Kind::Union(fields) => {
            fields.iter().for_each(|f| type_kinds(&f.ty, out));
        }
        Kind::Enum(tag, variants) => {
            expr_kinds(tag, out);
            variants.iter().for_each(|v| type_kinds(&v.ty, out));
        }
        Kind::Array(_, element, size) => {
            type_kinds(element, out);
            expr_kinds(size, out);
        }
        Kind::Sized(variants) => variants.iter().for_each(|v| type_kinds(&v.ty, out)),
    }
}

fn expr_kinds(e: &Expr, out: &mut Vec<u16>) {
    out.push(e.number());
    match e {
        Expr::Literal(..) | Expr::Path(_) | Expr::Named(..) => {}
        Expr::One(_, a) => expr_kinds(a, out),
        Expr::Two(_, a, b) => {
            expr_kinds(a, out);
            expr_kinds(b, out);
        }
    }
}

fn node_kinds(n: &Node, out: &mut Vec<u16>) {
    out.push(n.body.number());
    match &n.body {
        Body::Zero | Body::Const(_) | Body::Ref(..) | Body::Call(..) => {}
        Body::Align(_, inner) | Body::Sum(inner, ..) => node_kinds(inner, out),
        Body::Switch(_, cases, default) => {
            cases.iter().for_each(|c| node_kinds(&c.node, out));
            default.iter().for_each(|n| node_kinds(n, out));
        }
        Body::Two(_, left, right) => {
            node_kinds(left, out);
            node_kinds(right, out);
        }
    }
}
