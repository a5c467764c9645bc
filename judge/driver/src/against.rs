//! A program `lengths` held against the rules, one process for each input.

use crate::call::{judge, Call};
use crate::cases::lengths_input;
use crate::{trip, vectors};
use std::collections::BTreeMap;
use std::io::Write;
use std::process::{Command, Stdio};

/// What a program prints on an input, which is written beside the reading: neither waits for the other.
pub fn output(program: &str, input: &[u8]) -> Result<String, String> {
    let mut child = Command::new(program)
        .stdin(Stdio::piped())
        .stdout(Stdio::piped())
        .spawn()
        .map_err(|e| format!("{program}: {e}"))?;
    let mut stdin = child.stdin.take().unwrap();
    let done = std::thread::scope(|scope| {
        // A program may end before it has read everything.
        scope.spawn(move || stdin.write_all(input));
        child.wait_with_output()
    });
    let done = done.map_err(|e| format!("{program}: {e}"))?;
    Ok(String::from_utf8_lossy(&done.stdout).into_owned())
}

/// What each line says: a refusal by `S`, or a run's number.
fn count_lines(lines: &str, met: &mut BTreeMap<String, u64>) {
    for line in lines.lines() {
        let words: Vec<&str> = line.split(' ').collect();
        let key = match words[0] {
            "S" => line.to_string(),
            _ => format!("run {:>3}", words.get(1).unwrap_or(&"")),
        };
        *met.entry(key).or_default() += 1;
    }
}

pub fn against(program: &str, cases: u64, seed: u64) -> Result<(), String> {
    let mut met = BTreeMap::new();
    let mut differ = 0;
    let mut confirmed = 0;
    let made = (0..cases).map(|i| lengths_input(seed, i));
    for (i, input) in std::iter::once(trip::input()).chain(made).enumerate() {
        let v = judge(&Call::Lengths(input.clone()));
        let wanted = vectors::lines_of(&v.answer);
        let got = output(program, &input)?;
        confirmed += v.confirmed as u64;
        count_lines(wanted, &mut met);
        if got != wanted {
            differ += 1;
            println!("input {i}: wanted {wanted:?}, got {got:?}");
        }
    }
    for (line, n) in &met {
        println!("  {line:<10}{n:>9}");
    }
    println!(
        "inputs {}, confirmed by the Rust {confirmed}, differ {differ}",
        cases + 1
    );
    match differ {
        0 => Ok(()),
        _ => Err("the program differs from the rules".to_string()),
    }
}
