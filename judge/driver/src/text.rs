//! Cases and answers as text.

use crate::call::{judge, Answer, Call, Verdict};
use crate::cases::{make, set_call, small_case};
use crate::data::*;
use crate::names;
use crate::rules::{self, read};
use std::collections::BTreeMap;
use std::io::Read;

pub fn hex(bytes: &[u8]) -> String {
    match bytes.is_empty() {
        true => "-".to_string(),
        false => bytes.iter().map(|b| format!("{b:02x}")).collect(),
    }
}

fn no_text(no: &No) -> String {
    let No {
        number,
        place,
        offset,
        value,
    } = no;
    format!("NO {number} {place} {offset} {value}")
}

fn answer_text(answer: &Answer) -> String {
    match answer {
        Answer::Layout(bytes) => format!("OK {}", hex(bytes)),
        Answer::Count(count) => format!("OK {count}"),
        Answer::Lines(lines) => format!("OK {}", hex(lines.as_bytes())),
        Answer::No(no) => no_text(no),
    }
}

pub fn case(seed: u64, index: u64, sets: bool) -> Result<(), String> {
    if sets {
        let call = set_call(seed, index);
        println!("seed {seed} index {index} of the sets");
        show_call(&call);
        show_verdict(&judge(&call));
        return Ok(());
    }
    let case = make(seed, index);
    println!("seed {seed} index {index}: {:?}", case.what);
    for (i, call) in case.calls.iter().enumerate() {
        println!("call {i}");
        show_call(call);
        show_verdict(&judge(call));
    }
    case.broken.map_or(Ok(()), Err)
}

fn show_call(call: &Call) {
    match call {
        Call::Build { words, room, set } => {
            println!("build, words {words}, output {room}\nset {}", hex(set));
            println!("{:#?}", read::set(set));
        }
        Call::Validate {
            words,
            length,
            layout,
            name,
            values,
        } => {
            println!("validate, words {words}, length {length}");
            println!("name {} ({})", hex(name), String::from_utf8_lossy(name));
            println!("layout {}\n{:#?}", hex(layout), read::layout(layout));
            println!("values {}\n{:?}", hex(values), read::values(values));
        }
        Call::Run { words, layout, run } => {
            println!("run, words {words}");
            println!("layout {}\n{:#?}", hex(layout), read::layout(layout));
            println!("run {}\n{:?}", hex(run), read::run(run));
        }
        Call::Lengths(input) => println!("lengths\ninput {}", hex(input)),
    }
}

fn show_verdict(v: &Verdict) {
    match &v.answer {
        Answer::Lines(lines) => print!("{lines}"),
        other => println!("-> {}", answer_text(other)),
    }
    if let Answer::Layout(bytes) = &v.answer {
        println!("{:#?}", read::layout(bytes));
    }
    match (&v.differs, v.confirmed) {
        (Some(text), _) => println!("DIFFERS: {text}"),
        (None, true) => println!("confirmed by the Rust"),
        (None, false) => println!("by the rules only"),
    }
}

fn file(path: &str) -> Result<Vec<u8>, String> {
    std::fs::read(path).map_err(|e| format!("{path}: {e}"))
}

fn kind_of(bytes: &[u8], path: &str) -> Result<u16, String> {
    match bytes.get(4..6) {
        Some(k) => Ok(u16::from_le_bytes([k[0], k[1]])),
        None => Err(format!(
            "{path}: cut off, no block begins in {} bytes",
            bytes.len()
        )),
    }
}

/// A set file, or a layout file and a run file.
pub fn answer(args: &[String]) -> Result<(), String> {
    match args {
        [one] => {
            let set = file(one)?;
            expect_kind(&set, one, 36, "a type set")?;
            print_answer(&Call::Build {
                words: WORDS,
                room: LIMIT as u64,
                set,
            })
        }
        [one, two] => {
            let (layout, run) = (file(one)?, file(two)?);
            expect_kind(&layout, one, 160, "a layout")?;
            expect_kind(&run, two, 193, "a run")?;
            print_answer(&Call::Run {
                words: WORDS,
                layout,
                run,
            })
        }
        _ => Err("answer needs a set file, or a layout file and a run file".to_string()),
    }
}

fn expect_kind(bytes: &[u8], path: &str, kind: u16, what: &str) -> Result<(), String> {
    let found = kind_of(bytes, path)?;
    if found != kind {
        return Err(format!(
            "{path}: kind {found} stands where {what} ({kind}) is needed"
        ));
    }
    let length = u32::from_le_bytes(bytes[..4].try_into().unwrap()) as usize;
    match length.saturating_add(4) > bytes.len() {
        true => Err(format!(
            "{path}: cut off, {} of {} bytes",
            bytes.len(),
            length + 4
        )),
        false => Ok(()),
    }
}

fn print_answer(call: &Call) -> Result<(), String> {
    let v = judge(call);
    println!("{}", answer_text(&v.answer));
    match v.differs {
        Some(text) => Err(format!("the rules and the Rust differ: {text}")),
        None => Ok(()),
    }
}

pub fn lengths() -> Result<(), String> {
    let mut input = Vec::new();
    let read = std::io::stdin().read_to_end(&mut input);
    read.map_err(|e| format!("standard input: {e}"))?;
    print!("{}", rules::lengths::lengths(&input));
    Ok(())
}

const SMALL: usize = 600;

/// Small cases as lines, for tests that a checker computes. No answer takes
/// more than an eighth of them, so that the seldom ones are seen.
pub fn antt(cases: u64, seed: u64) -> Result<(), String> {
    let mut met: BTreeMap<(String, u8), u64> = BTreeMap::new();
    let mut printed = 0;
    let mut index = 0;
    while printed < cases {
        for call in small_case(seed, index).calls {
            let v = judge(&call);
            if let Some(text) = &v.differs {
                return Err(format!("seed {seed} index {index}: {text}"));
            }
            let (Some(line), false) = (small_line(&call, &v.answer), v.stopped()) else {
                continue;
            };
            let word = line.split(' ').next().unwrap_or_default().to_string();
            let count = met.entry((word, v.answer.number())).or_default();
            *count += 1;
            if *count <= cases / 8 + 1 {
                println!("{line}");
                printed += 1;
            }
        }
        index += 1;
    }
    Ok(())
}

/// The names beyond ASCII of the stored list as such lines, as far as they
/// are small.
pub fn antt_names() -> Result<(), String> {
    for call in names::calls() {
        let v = judge(&call);
        if let Some(text) = &v.differs {
            return Err(format!("the rules and the Rust differ: {text}"));
        }
        if let Some(line) = small_line(&call, &v.answer) {
            println!("{line}");
        }
    }
    Ok(())
}

fn small_line(call: &Call, answer: &Answer) -> Option<String> {
    match call {
        Call::Build { words, room, set } => {
            let usual = *words == WORDS && *room == LIMIT as u64 && set.len() <= SMALL;
            match answer {
                _ if !usual => None,
                Answer::No(no @ No { number: 1..=6, .. }) => Some(read_line("SET", set, no)),
                _ => Some(format!("SET {} -> {}", hex(set), answer_text(answer))),
            }
        }
        Call::Validate {
            words,
            length,
            layout,
            name,
            values,
        } => {
            if *words != WORDS || layout.len() > SMALL || values.len() > SMALL {
                return None;
            }
            if let Answer::No(no @ No { number: 1..=6, .. }) = answer {
                return Some(match read::layout(layout) {
                    Err(_) => read_line("LAYOUT", layout, no),
                    Ok(_) => read_line("VALUES", values, no),
                });
            }
            Some(format!(
                "RUN {} {} {} {length} -> {}",
                hex(layout),
                hex(name),
                hex(values),
                answer_text(answer)
            ))
        }
        Call::Run { .. } | Call::Lengths(_) => None,
    }
}

fn read_line(what: &str, bytes: &[u8], no: &No) -> String {
    format!(
        "READ {what} {} -> NO {} {}",
        hex(bytes),
        no.number,
        no.offset
    )
}

/// A tree in one line, for a reader.
pub fn show_tree(t: &Tree) -> String {
    let params: Vec<String> = t.params.iter().map(show_param).collect();
    format!(
        "{}: {} parameters [{}]",
        t.name,
        show_node(&t.root),
        params.join(", ")
    )
}

fn show_param(p: &Param) -> String {
    let derived = if p.derived { " derived" } else { "" };
    let text = p
        .text
        .as_ref()
        .map_or(String::new(), |t| format!(" \"{t}\""));
    format!("{}{derived}{text}", p.name)
}

fn show_node(n: &Node) -> String {
    match &n.body {
        Body::Zero => "zero".to_string(),
        Body::Const(value) => value.to_string(),
        Body::Ref(path, parameter) => match parameter {
            Some(name) => format!("ref({path:?} = {name:?})"),
            None => format!("ref({path:?})"),
        },
        Body::Align(to, inner) => format!("align({to}, {})", show_node(inner)),
        Body::Switch(tag, cases, default) => show_switch(tag, cases, default),
        Body::Call(name, arguments) => {
            let names: Vec<String> = arguments.iter().map(|a| format!("{:?}", a.name)).collect();
            format!("call({name}: {})", names.join(", "))
        }
        Body::Two(kind, left, right) => {
            format!(
                "{}({}, {})",
                operation(*kind),
                show_node(left),
                show_node(right)
            )
        }
        Body::Sum(count, element, field) => {
            format!("sum({}, {element}, {field})", show_node(count))
        }
    }
}

fn show_switch(tag: &str, cases: &[Case], default: &Option<Box<Node>>) -> String {
    let case = |c: &Case| format!("{}: {}", c.tag, show_node(&c.node));
    let mut parts: Vec<String> = cases.iter().map(case).collect();
    parts.extend(default.iter().map(|n| format!("else {}", show_node(n))));
    format!("switch({tag}; {})", parts.join(", "))
}

fn operation(kind: u16) -> &'static str {
    let names = [
        "add", "sub", "mul", "div", "mod", "and", "or", "xor", "left", "right",
    ];
    names[kind as usize - 134]
}
