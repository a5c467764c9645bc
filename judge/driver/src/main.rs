//! The judge: document 01 as a program, the unchanged Rust, and random cases
//! on which the two are held together.

mod against;
#[cfg(feature = "bench")]
mod bench;
mod call;
mod cases;
mod compare;
mod data;
mod fills;
mod findings;
mod gen;
mod long_lists;
mod names;
mod plain;
mod prng;
mod rules;
mod rust;
mod slow;
mod stream;
mod text;
mod trip;
mod vectors;
mod write;

use std::process::ExitCode;

const USAGE: &str = "usage: judge/run COMMAND
  compare [--cases N] [--seed S]   hold the rules and the Rust together
  case --seed S --index I [--sets] make one case again; of the stream of sets
  answer SET                       the layout (hex) or the refusal
  answer LAYOUT RUN                the count or the refusal
  lengths < INPUT                  the program `lengths`, by the rules
  plain < INPUT                    the same, as a Rust program that only buffers
  inputs trip|large [--runs N]     a set and runs of it, to standard output
  vectors FOLDER                   write the stored list
  check FOLDER                     read the stored list and answer it again
  findings                         the inputs behind docs/DIFFERENCES.md
  stream [--sets] [--cases N] [--seed S]
                                   records of the list's form, to standard output;
                                   with --sets one build for each case and no runs
  against PROGRAM [--cases N] [--seed S]
                                   hold a program `lengths` against the rules
  fills PROGRAM [--cases N] [--seed S]
                                   hold the fill that it prints against exact arithmetic
  bench [--markdown] [--only TEXT] [--before FOLDER [--shift N]]
                                   time, ours beside the Rust: all tables, or those with TEXT
                                   in their title; beside FOLDER's older libciztarmo.a too, the
                                   code of both put N bytes further (0, 16, 32 or 48)
  slow FOLDER                      write the bench's larger sets and layouts, and the inputs that
                                   take long, a file each: NAME.set, NAME.layout, or NAME.run, which
                                   is a layout and behind it a run
  trip                             M13: bytes and lines of the worked example
  antt [--cases N] [--seed S]      small cases as lines of text
  antt --names                     the stored list's names beyond ASCII as such lines
  test                             the judge's own tests";

fn main() -> ExitCode {
    // A layout holds up to 256 blocks open and 16 calls.
    let work = std::thread::Builder::new().stack_size(256 << 20);
    let worker = work.spawn(run).expect("a thread could not be started");
    match worker.join() {
        Ok(Ok(())) => ExitCode::SUCCESS,
        Ok(Err(message)) => {
            eprintln!("judge: {message}");
            ExitCode::FAILURE
        }
        Err(_) => ExitCode::FAILURE,
    }
}

/// `--name value` among the arguments, else the default.
fn option(args: &[String], name: &str, default: u64) -> Result<u64, String> {
    let Some(at) = args.iter().position(|a| a == name) else {
        return Ok(default);
    };
    let text = args.get(at + 1).ok_or(format!("{name} needs a number"))?;
    text.parse()
        .map_err(|_| format!("{name}: {text} is no number"))
}

/// `--name text` among the arguments.
#[cfg(feature = "bench")]
fn text_option<'a>(args: &'a [String], name: &str) -> Result<Option<&'a str>, String> {
    let Some(at) = args.iter().position(|a| a == name) else {
        return Ok(None);
    };
    let text = args.get(at + 1).ok_or(format!("{name} needs a text"))?;
    Ok(Some(text))
}

fn run() -> Result<(), String> {
    let args: Vec<String> = std::env::args().skip(1).collect();
    let Some((command, rest)) = args.split_first() else {
        return Err(USAGE.to_string());
    };
    known_options(command, rest)?;
    let flag = |name: &str| rest.iter().any(|a| a == name);
    let seed = option(rest, "--seed", 1)?;
    match command.as_str() {
        "compare" => compare_command(option(rest, "--cases", 100_000)?, seed),
        "case" => text::case(seed, option(rest, "--index", 0)?, flag("--sets")),
        "answer" => text::answer(rest),
        "lengths" => text::lengths(),
        "plain" => plain::program(),
        "inputs" => plain::inputs(program(rest)?, option(rest, "--runs", 10_000)?),
        "vectors" => vectors::write_list(folder(rest)?),
        "check" => vectors::check_list(folder(rest)?),
        "stream" if flag("--sets") => stream::sets(option(rest, "--cases", 1000)?, seed),
        "stream" => stream::all(option(rest, "--cases", 1000)?, seed),
        "against" => against::against(program(rest)?, option(rest, "--cases", 1000)?, seed),
        "fills" => fills::fills(program(rest)?, option(rest, "--cases", 100_000)?, seed),
        "trip" => trip::trip(),
        "findings" => findings::show_all(),
        #[cfg(feature = "bench")]
        "bench" => bench::bench(flag("--markdown"), text_option(rest, "--only")?),
        "slow" => slow_files(folder(rest)?),
        "antt" if flag("--names") => text::antt_names(),
        "antt" => text::antt(option(rest, "--cases", 1000)?, seed),
        _ => Err(format!("unknown command {command}\n{USAGE}")),
    }
}

fn program(args: &[String]) -> Result<&str, String> {
    args.first()
        .map(String::as_str)
        .ok_or("a program is needed".to_string())
}

/// An option that is misspelt, or another command's, must not be passed over.
fn known_options(command: &str, args: &[String]) -> Result<(), String> {
    let known: &[&str] = match command {
        "compare" | "against" | "fills" => &["--cases", "--seed"],
        "antt" => &["--cases", "--seed", "--names"],
        "stream" => &["--cases", "--seed", "--sets"],
        "case" => &["--seed", "--index", "--sets"],
        "inputs" => &["--runs"],
        "bench" => &["--markdown", "--only"],
        _ => &[],
    };
    let unknown = |a: &&String| a.starts_with("--") && !known.contains(&a.as_str());
    match args.iter().find(unknown) {
        Some(a) => Err(format!("{command} has no option {a}\n{USAGE}")),
        None => Ok(()),
    }
}

fn folder(args: &[String]) -> Result<&str, String> {
    args.first()
        .map(String::as_str)
        .ok_or("a folder is needed".to_string())
}

/// The inputs that take long at each scale, and the larger ones of the bench.
fn slow_files(folder: &str) -> Result<(), String> {
    let mut files = vec![
        ("types-48.set".to_string(), write::set(&gen::grown::types())),
        ("layout-48-kb.layout".to_string(), gen::grown::layout(48)),
        ("long-names.layout".to_string(), gen::grown::long_names()),
    ];
    for (kind, scale) in [
        ("full", slow::FULL),
        ("one", slow::ONE),
        ("small", slow::SMALL),
    ] {
        for slow in slow::all(scale) {
            let ending = match slow.call {
                slow::Call::ReadLayout => "layout",
                slow::Call::Run => "run",
                slow::Call::ReadSet | slow::Call::Build => "set",
            };
            files.push((format!("{kind}-{}.{ending}", slow.name), slow.bytes));
        }
    }
    for (name, bytes) in files {
        let path = std::path::Path::new(folder).join(name);
        std::fs::write(&path, bytes).map_err(|e| format!("{}: {e}", path.display()))?;
    }
    Ok(())
}

fn compare_command(cases: u64, seed: u64) -> Result<(), String> {
    println!("seed {seed}, indexes 0 to {}", cases.saturating_sub(1));
    trip::trip()?;
    let mut tally = compare::Tally::default();
    for index in 0..cases {
        tally.case(seed, index);
    }
    tally.print();
    match tally.failed(cases) {
        true => Err("the rules and the Rust differ, or a number did not occur".to_string()),
        false => Ok(()),
    }
}
