//! The layout's bytes for a device: from text, from blocks, to a file, and what may go wrong.

mod common;

use ciztarmo::Work;
use ciztarmo_text::commands;
use common::{blocks, cut, read, repository, show};
use std::path::PathBuf;
use std::process::{Command, Output};

fn trip() -> Vec<u8> {
    Work::new()
        .build_set(cut(&read("examples/trip")).unwrap()[0])
        .unwrap()
}

fn layout(input: impl AsRef<[u8]>) -> Result<Vec<u8>, String> {
    commands::layout("t", input.as_ref()).map(|done| done.output)
}

/// From the set as text and as blocks, and from the layout itself as blocks and as text.
#[test]
fn from_each_form() {
    assert_eq!(layout(read("examples/trip.txt")), Ok(trip()));
    assert_eq!(layout(read("examples/trip")), Ok(trip()));
    assert_eq!(layout(trip()), Ok(trip()));
    assert_eq!(layout(show(&trip())), Ok(trip()));
}

/// The layout of an empty set is eight bytes, not nothing.
#[test]
fn of_an_empty_set() {
    assert_eq!(layout("set\n"), Ok(blocks("layout\n")));
}

#[test]
fn one_is_asked_for() {
    let none = "t: neither a set nor a layout stands in it";
    assert_eq!(layout("run T length 1\n"), Err(none.to_string()));
    let two = "t:3: a second set or layout, and one is asked for (the first: t:1)";
    let text = "set\n  primitive a size 1\nset\n";
    assert_eq!(layout(text), Err(two.to_string()));
    let two = "t: byte 34: a second set or layout, and one is asked for (the first: t: byte 0)";
    let set = blocks("set\n  primitive a size 1\n");
    let bytes = [&set[..], &blocks("layout\n")].concat();
    let two = two.replace("34", &set.len().to_string());
    assert_eq!(layout(bytes), Err(two));
}

/// A run that is refused stops it too.
#[test]
fn refusals() {
    let text = "set\n  primitive a size 1\nrun a length 1\n  value b 1\n  value a 1\n";
    let order = "t:5: refused 6: the names of values must ascend in byte order, each once";
    assert_eq!(layout(text), Err(order.to_string()));
    let told = layout("set\n  primitive a variable\n").unwrap_err();
    assert!(told.starts_with("t:2: refused 10: "), "{told}");
}

fn run(args: &[&str]) -> Output {
    let mut command = Command::new(env!("CARGO_BIN_EXE_text"));
    command.args(args).current_dir(repository("examples"));
    command.output().unwrap()
}

/// The file is replaced if all went well, and stays as it was if the set is refused.
#[test]
fn output_files() {
    let folder = PathBuf::from(env!("CARGO_TARGET_TMPDIR")).join("layout_files");
    let _ = std::fs::remove_dir_all(&folder);
    std::fs::create_dir_all(&folder).unwrap();
    let (out, bad) = (folder.join("out"), folder.join("bad.txt"));
    std::fs::write(&out, "old").unwrap();
    std::fs::write(&bad, "set\n  primitive a variable\n").unwrap();
    let path = out.to_str().unwrap();
    let output = run(&["layout", bad.to_str().unwrap(), "-o", path]);
    assert_eq!(output.status.code(), Some(1));
    assert_eq!(std::fs::read(&out).unwrap(), b"old");
    let output = run(&["layout", "trip.txt", "-o", path]);
    assert_eq!((output.status.code(), output.stdout.len()), (Some(0), 0));
    assert_eq!(std::fs::read(&out).unwrap(), trip());
    assert_eq!(run(&["layout", "trip.txt"]).stdout, trip());
    assert_eq!(std::fs::read_dir(&folder).unwrap().count(), 2);
    // What can't be written is told: a folder, and a file in a folder that is not there.
    for path in [folder.clone(), folder.join("nowhere/out")] {
        let path = path.to_str().unwrap();
        let output = run(&["layout", "trip.txt", "-o", path]);
        assert_eq!(output.status.code(), Some(2), "{path}");
        let said = String::from_utf8(output.stderr).unwrap();
        assert!(said.starts_with(&format!("{path}: ")), "{said}");
    }
    assert_eq!(std::fs::read_dir(&folder).unwrap().count(), 2);
}

/// Standard output that is full: told, and a status that is not 0. The layout has no line end, so
/// that it stays in the buffer until the end.
#[cfg(target_os = "linux")]
#[test]
fn standard_output_that_is_full() {
    for args in [
        &["layout", "trip.txt"][..],
        &["tree", "trip.txt"],
        &["help"],
    ] {
        let full = std::fs::OpenOptions::new()
            .write(true)
            .open("/dev/full")
            .unwrap();
        let mut command = Command::new(env!("CARGO_BIN_EXE_text"));
        command.args(args).current_dir(repository("examples"));
        let output = command.stdout(full).output().unwrap();
        assert_eq!(output.status.code(), Some(2), "{args:?}");
        let said = String::from_utf8(output.stderr).unwrap();
        assert!(said.starts_with("standard output: "), "{said}");
    }
}
