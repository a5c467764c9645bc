//! The command line: statuses, files, standard input and output.

mod common;

use common::{read, repository};
use std::io::Write;
use std::path::PathBuf;
use std::process::{Command, Output, Stdio};

fn text(args: &[&str]) -> Command {
    let mut command = Command::new(env!("CARGO_BIN_EXE_text"));
    command.args(args).current_dir(repository("examples"));
    command
}

fn run(args: &[&str]) -> Output {
    text(args).output().unwrap()
}

fn fed(args: &[&str], input: &[u8]) -> Output {
    let mut command = text(args);
    command
        .stdin(Stdio::piped())
        .stdout(Stdio::piped())
        .stderr(Stdio::piped());
    let mut child = command.spawn().unwrap();
    child.stdin.take().unwrap().write_all(input).unwrap();
    child.wait_with_output().unwrap()
}

fn error(output: &Output) -> String {
    String::from_utf8(output.stderr.clone()).unwrap()
}

/// A folder of this test's own, empty.
fn folder(test: &str) -> PathBuf {
    let folder = PathBuf::from(env!("CARGO_TARGET_TMPDIR")).join(test);
    let _ = std::fs::remove_dir_all(&folder);
    std::fs::create_dir_all(&folder).unwrap();
    folder
}

/// A call that is not understood: status 2, nothing on standard output, a message and the usage.
fn misused(args: &[&str], message: &str) {
    let output = run(args);
    assert_eq!(output.status.code(), Some(2), "{args:?}");
    assert!(output.stdout.is_empty());
    let said = error(&output);
    assert!(
        said.starts_with(&format!("text: {message}\nusage: text blocks FILE ")),
        "{said}"
    );
}

#[test]
fn misuse() {
    misused(&[], "no command");
    misused(&["convert", "trip.txt"], "there is no command convert");
    misused(&["blocks"], "blocks needs a file");
    misused(&["tree", "trip", "trip"], "tree takes one file");
    misused(&["blocks", "trip.txt", "-o"], "-o needs a file");
    misused(
        &["blocks", "trip.txt", "-o", "a", "-o", "b"],
        "blocks does not take -o",
    );
    misused(&["tree", "trip.txt", "-o", "x"], "tree does not take -o");
    misused(
        &["parameters", "trip.txt"],
        "parameters needs a file and a type",
    );
    misused(
        &["parameters", "trip.txt", "Trip", "Trip"],
        "parameters takes one file and one type",
    );
    misused(&["map", "trip.txt"], "map needs a file and a type");
    misused(&["tree", "trip.txt", "--svg"], "tree does not take --svg");
    misused(
        &["parameters", "trip.txt", "Trip", "-o", "x"],
        "parameters does not take -o",
    );
    misused(
        &["map", "trip.txt", "Trip", "--run"],
        "--run needs a number",
    );
    misused(
        &["map", "trip.txt", "Trip", "--run", "-1"],
        "--run: `-1` is no number",
    );
    misused(
        &["map", "trip.txt", "Trip", "--length", "1", "--length", "2"],
        "map does not take --length",
    );
    misused(
        &["map", "trip.txt", "Trip", "legs.n"],
        "legs.n where NAME=NUMBER must stand",
    );
    misused(
        &["map", "trip.txt", "Trip", "legs.n="],
        "legs.n=: `` is no number",
    );
    misused(
        &["map", "trip.txt", "Trip", "legs.n=18446744073709551616"],
        "legs.n=18446744073709551616: the number 18446744073709551616 is not below 2^64",
    );
    misused(
        &["map", "trip.txt", "Trip", "legs.n=1", "legs.n=1"],
        "legs.n=1: legs.n has a value already",
    );
    misused(
        &["map", "trip.txt", "Trip", "legs.n=1", "--run", "0"],
        "map takes --run or values, not both",
    );
    misused(
        &["layout", "--unchecked", "trip.txt"],
        "layout does not take --unchecked",
    );
    misused(
        &["check", "--unchecked", "trip.txt"],
        "check does not take --unchecked",
    );
    misused(&["show", "--all", "trip"], "show does not take --all");
}

#[test]
fn help() {
    for word in ["help", "-h", "--help"] {
        let output = run(&[word]);
        assert_eq!(output.status.code(), Some(0));
        assert!(output.stdout.starts_with(b"usage: text blocks FILE "));
        assert!(output.stderr.is_empty());
    }
}

#[test]
fn files_that_cannot_be_read() {
    for command in ["blocks", "show", "tree", "lengths", "check", "layout"] {
        for file in ["nowhere.txt", "."] {
            let output = run(&[command, file]);
            assert_eq!(output.status.code(), Some(2));
            assert!(output.stdout.is_empty());
            assert!(
                error(&output).starts_with(&format!("{file}: ")),
                "{}",
                error(&output)
            );
        }
    }
}

#[test]
fn wrong_inputs() {
    let output = fed(&["check", "-"], b"set\n  struct a\n");
    assert_eq!(output.status.code(), Some(1));
    assert!(output.stdout.is_empty());
    let message = "<stdin>:2:11: the end of the line where one of `size`, `variable` must stand\n";
    assert_eq!(error(&output), message);
    let twice = b"set\n  primitive a size 1\n  primitive a size 1\n";
    let output = fed(&["blocks", "-"], twice);
    assert_eq!(output.status.code(), Some(1));
    assert!(output.stdout.is_empty());
    let message = "<stdin>:3: refused 6: an earlier type has the same name";
    assert_eq!(error(&output), format!("{message}\n"));
    let output = fed(&["blocks", "-", "--unchecked"], twice);
    assert_eq!(output.status.code(), Some(0));
    assert!(!output.stdout.is_empty());
    assert_eq!(
        error(&output),
        format!("{message}; written all the same (--unchecked)\n")
    );
}

#[test]
fn each_command() {
    let checked = run(&["check", "zones.txt"]);
    assert_eq!(
        (
            checked.status.code(),
            checked.stdout.len(),
            checked.stderr.len()
        ),
        (Some(0), 0, 0)
    );
    // A warning goes to standard error, and the status stays 0.
    let warned = fed(
        &["check", "-"],
        b"set\n  array T size 4 count 2u8\n    element primitive p size 3\n",
    );
    assert_eq!((warned.status.code(), warned.stdout.len()), (Some(0), 0));
    assert!(error(&warned).starts_with("<stdin>:2: warning: drawn: "));
    assert_eq!(run(&["blocks", "trip.txt"]).stdout, read("examples/trip"));
    assert_eq!(
        run(&["tree", "transfers.txt"]).stdout,
        read("examples/transfers.tree")
    );
    assert_eq!(run(&["tree", "trip"]).stdout, read("examples/trip.tree"));
    let shown = run(&["show", "trip"]).stdout;
    assert_eq!(fed(&["blocks", "-"], &shown).stdout, read("examples/trip"));
    let said = String::from_utf8(run(&["parameters", "trip", "Trip"]).stdout).unwrap();
    assert_eq!(said, "Trip, 1 parameter\n  legs.n: count of field legs\n");
    let drawn = run(&["map", "trip", "Trip", "legs.n=3", "--length", "13"]).stdout;
    assert_eq!(drawn, read("examples/trip.map"));
    let drawn = run(&["map", "--svg", "--run", "2", "--", "zones.txt", "FareBlock"]).stdout;
    assert_eq!(drawn, read("examples/zones.svg"));
    // Behind --, a name may begin with a dash; a name may have an equals sign in it.
    let set = b"set\n  array -a variable count n\n";
    let set = String::from_utf8(set.to_vec())
        .unwrap()
        .replace("-a", "\"-a\"");
    let set = set + "    owner \"a=b\" paths n\n    element primitive p size 2\n";
    let drawn = fed(&["map", "-", "--", "-a", "a=b.n=2"], set.as_bytes());
    assert!(
        drawn
            .stdout
            .starts_with(b"\"-a\": 4 bytes\n\"a=b.n\" = 2\n"),
        "{}",
        error(&drawn)
    );
    let said = String::from_utf8(run(&["lengths", "trip"]).stdout).unwrap();
    assert!(
        said.starts_with("trip: byte 205: Trip: 13 bytes of 13\n"),
        "{said}"
    );
}

#[test]
fn inputs_without_what_is_asked_for() {
    let says = |command: &str, input: &str, message: &str| {
        let output = fed(&[command, "-"], input.as_bytes());
        assert_eq!(output.status.code(), Some(1));
        assert!(output.stdout.is_empty());
        assert_eq!(error(&output), format!("{message}\n"));
    };
    says(
        "tree",
        "run T length 1\n",
        "<stdin>: neither a set nor a layout stands in it",
    );
    says(
        "lengths",
        "run T length 1\n",
        "<stdin>: a set must stand first",
    );
    let set = "set\n  primitive T size 1\n";
    says(
        "lengths",
        &format!("{set}run T length 1\nvalues\n"),
        "<stdin>:4: behind the set stand runs only",
    );
    says(
        "lengths",
        "set\n  struct a variable\n",
        "<stdin>:2: refused 11: references that the layout needs are missing: \
            struct a is variable and has no fields; what would help: a field, or a constant size",
    );
}

/// An output file is whole or as it was, and nothing else is left in its folder.
#[test]
fn output_files() {
    let folder = folder("output_files");
    let out = folder.join("out");
    let path = out.to_str().unwrap();
    let output = run(&["blocks", "trip.txt", "-o", path]);
    assert_eq!((output.status.code(), output.stdout.len()), (Some(0), 0));
    assert_eq!(std::fs::read(&out).unwrap(), read("examples/trip"));
    let output = fed(&["blocks", "-o", path, "-"], b"run a\n");
    assert_eq!(output.status.code(), Some(1));
    assert_eq!(std::fs::read(&out).unwrap(), read("examples/trip"));
    let output = run(&["show", "-o", path, path]);
    assert_eq!(output.status.code(), Some(0));
    assert!(std::fs::read(&out).unwrap().starts_with(b"set\n"));
    assert_eq!(std::fs::read_dir(&folder).unwrap().count(), 1);
}

#[test]
fn output_files_that_cannot_be_written() {
    let folder = folder("no_output_files");
    let shown = folder.to_str().unwrap();
    // In a folder that is not there, a folder, and a name that only a folder can have.
    for path in [
        format!("{shown}/a/b"),
        shown.to_string(),
        format!("{shown}/a/"),
    ] {
        let output = run(&["blocks", "trip.txt", "-o", &path]);
        assert_eq!(output.status.code(), Some(2), "{path}");
        let said = error(&output);
        assert!(said.starts_with(&format!("{path}: ")), "{said}");
    }
    assert_eq!(std::fs::read_dir(&folder).unwrap().count(), 0);
}

/// What is no file is not replaced. A pipe of the test's own stands for all such things: a fault
/// must not cost the machine a device.
#[cfg(unix)]
#[test]
fn output_to_what_is_no_file() {
    use std::os::unix::fs::FileTypeExt;
    let folder = folder("no_file");
    let pipe = folder.join("pipe");
    assert!(Command::new("mkfifo")
        .arg(&pipe)
        .status()
        .unwrap()
        .success());
    let path = pipe.to_str().unwrap();
    let output = run(&["blocks", "trip.txt", "-o", path]);
    assert_eq!(output.status.code(), Some(2));
    let message = format!("{path}: this is no file that could be replaced\n");
    assert_eq!(error(&output), message);
    assert!(std::fs::symlink_metadata(&pipe)
        .unwrap()
        .file_type()
        .is_fifo());
    assert_eq!(std::fs::read_dir(&folder).unwrap().count(), 1);
}

/// A link stays a link; what it points to is replaced.
#[cfg(unix)]
#[test]
fn output_through_a_link() {
    let folder = folder("output_through_a_link");
    let (file, link) = (folder.join("file"), folder.join("link"));
    std::fs::write(&file, "old").unwrap();
    std::os::unix::fs::symlink(&file, &link).unwrap();
    let output = run(&["blocks", "trip.txt", "-o", link.to_str().unwrap()]);
    assert_eq!(output.status.code(), Some(0));
    assert!(std::fs::symlink_metadata(&link)
        .unwrap()
        .file_type()
        .is_symlink());
    assert_eq!(std::fs::read(&file).unwrap(), read("examples/trip"));
    // `rt ci` refuses links, also below target/
    std::fs::remove_file(&link).unwrap();
}
