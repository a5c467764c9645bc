//! What the tests share. Each test program uses a part of it.
#![allow(dead_code)]

use ciztarmo::Work;
use ciztarmo_text::commands;
use ciztarmo_text::decode::decode;
use ciztarmo_text::model::{Block, Type};
use std::path::PathBuf;

/// A file of the repository, by its path from the top.
pub fn repository(path: &str) -> PathBuf {
    PathBuf::from(env!("CARGO_MANIFEST_DIR"))
        .join("../..")
        .join(path)
}

pub fn read(path: &str) -> Vec<u8> {
    std::fs::read(repository(path)).unwrap_or_else(|e| panic!("{path}: {e}"))
}

/// The blocks of a text that is accepted.
pub fn blocks(text: &str) -> Vec<u8> {
    let done = commands::blocks("t", text.as_bytes(), false);
    done.unwrap_or_else(|e| panic!("{e}\n{text}")).output
}

/// The text of blocks that are accepted.
pub fn show(blocks: &[u8]) -> String {
    let done = commands::show("b", blocks, false);
    String::from_utf8(done.unwrap_or_else(|e| panic!("{e}")).output).unwrap()
}

/// What is said of a text that is not accepted.
pub fn wrong(text: impl AsRef<[u8]>) -> String {
    match commands::blocks("t", text.as_ref(), false) {
        Err(message) => message,
        Ok(_) => panic!("accepted: {}", String::from_utf8_lossy(text.as_ref())),
    }
}

/// What is said of a text that reads well but whose set is refused somewhere.
pub fn unbuilt(text: &str) -> String {
    match commands::check("t", text.as_bytes()) {
        Err(message) => message,
        Ok(_) => panic!("accepted: {text}"),
    }
}

/// A block: length, kind, body.
pub fn block(kind: u16, body: &[u8]) -> Vec<u8> {
    let mut out = (body.len() as u32 + 2).to_le_bytes().to_vec();
    out.extend(kind.to_le_bytes());
    out.extend(body);
    out
}

/// A name: length, bytes.
pub fn name(name: &str) -> Vec<u8> {
    let mut out = (name.len() as u16).to_le_bytes().to_vec();
    out.extend(name.bytes());
    out
}

/// Cuts an input into outermost blocks where their lengths allow it.
pub fn cut(input: &[u8]) -> Option<Vec<&[u8]>> {
    let mut rest = input;
    let mut out = Vec::new();
    while !rest.is_empty() {
        let length = u32::from_le_bytes(rest.get(..4)?.try_into().unwrap()) as usize;
        let block = rest.get(..length.checked_add(4)?)?;
        out.push(block);
        rest = &rest[block.len()..];
    }
    Some(out)
}

/// The sets of the stored list (judge/vectors/README.md) that are read.
pub fn stored_sets() -> Vec<(Vec<u8>, Vec<Type>)> {
    let file = read("judge/vectors/answers.bin");
    let mut rest = &file[..];
    let mut work = Work::new();
    let mut sets = Vec::new();
    while !rest.is_empty() {
        let length = u32::from_le_bytes(rest[2..6].try_into().unwrap()) as usize;
        let (kind, record) = (rest[0], &rest[6..6 + length]);
        rest = &rest[6 + length..];
        if kind != 1 {
            continue;
        }
        let length = u32::from_le_bytes(record[8..12].try_into().unwrap()) as usize;
        let set = &record[12..12 + length];
        if work.read_set(set).is_ok() {
            let Ok(Block::Set(types)) = decode(set) else {
                panic!("a set that is read has its parts");
            };
            sets.push((set.to_vec(), types.types));
        }
    }
    sets
}
