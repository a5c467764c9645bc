//! The crate without std: the program in bare/, which has no allocator either, is built and run;
//! and the crate with an allocator alone is compiled.

use std::path::{Path, PathBuf};
use std::process::Command;

/// Runs cargo on a manifest of this folder, in a target folder of its own, which it gives.
fn cargo(manifest: &str, command: &str, words: &[&str]) -> PathBuf {
    let manifest = Path::new(env!("CARGO_MANIFEST_DIR")).join(manifest);
    let target = Path::new(env!("CARGO_TARGET_TMPDIR")).join(command);
    let ran = Command::new(env!("CARGO"))
        .args([command, "--offline", "--quiet", "--manifest-path"])
        .arg(&manifest)
        .arg("--target-dir")
        .arg(&target)
        .args(words)
        .output()
        .expect("cargo runs");
    let said = String::from_utf8_lossy(&ran.stderr);
    assert!(ran.status.success(), "{}:\n{said}", manifest.display());
    target
}

#[test]
fn a_program_without_an_allocator() {
    // The C library, which std would bring, is asked for by name.
    let words = ["--release", "--", "-C", "link-arg=-lc"];
    let target = cargo("bare/Cargo.toml", "rustc", &words);
    let program = target.join("release/ciztarmo-bare");
    let status = Command::new(&program).status().expect("the program runs");
    assert_eq!(status.code(), Some(0), "the check of that number fails");
}

#[test]
fn an_allocator_without_std() {
    let words = ["--no-default-features", "--features", "alloc"];
    cargo("Cargo.toml", "check", &words);
}
