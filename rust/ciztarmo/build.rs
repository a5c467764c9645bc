//! Links libciztarmo.a, the proved code. The folder that holds it is the one that the variable
//! CIZTARMO_LIB names, else the one that the repository's script `archive` prints.

use std::path::{Path, PathBuf};
use std::process::{Command, Stdio};

const FILE: &str = "libciztarmo.a";

fn main() {
    println!("cargo:rerun-if-changed=build.rs");
    println!("cargo:rerun-if-env-changed=CIZTARMO_LIB");
    let folder = match std::env::var_os("CIZTARMO_LIB").filter(|f| !f.is_empty()) {
        Some(folder) => named(PathBuf::from(folder)),
        None => made(),
    };
    match folder {
        Ok(folder) => link(&folder),
        Err(message) => {
            eprintln!("ciztarmo: {message}");
            std::process::exit(1);
        }
    }
}

/// The folder that the variable names.
fn named(folder: PathBuf) -> Result<PathBuf, String> {
    let shown = folder.display();
    if folder.is_relative() {
        return Err(format!("CIZTARMO_LIB is not an absolute path: {shown}"));
    }
    if !folder.join(FILE).is_file() {
        return Err(format!(
            "CIZTARMO_LIB names a folder without {FILE}: {shown}"
        ));
    }
    Ok(folder)
}

/// The folder that the script prints for the processor that is compiled for. It makes the archive where it is missing or old, so that a
/// change of what it is made from runs it again.
fn made() -> Result<PathBuf, String> {
    let top = Path::new(env!("CARGO_MANIFEST_DIR")).join("../..");
    let script = top.join("archive");
    for from in ["archive", "lib.sh", "crates.txt"] {
        println!("cargo:rerun-if-changed={}", top.join(from).display());
    }
    // What the crates are made from, and not what the toolchain keeps beside it.
    for entry in std::fs::read_dir(top.join("crates"))
        .into_iter()
        .flatten()
        .flatten()
    {
        for part in ["src", "specs", "proofs"].map(|part| entry.path().join(part)) {
            if part.is_dir() {
                println!("cargo:rerun-if-changed={}", part.display());
            }
        }
    }
    let help = format!("set CIZTARMO_LIB to the folder that holds {FILE}");
    let target = std::env::var("CARGO_CFG_TARGET_ARCH").unwrap_or_default();
    let output = Command::new(&script)
        .args(["--target", &target])
        .stderr(Stdio::inherit())
        .output()
        .map_err(|e| format!("{} does not run ({e}); {help}", script.display()))?;
    if !output.status.success() {
        return Err(format!("{} failed; {help}", script.display()));
    }
    let printed = String::from_utf8_lossy(&output.stdout);
    let folder = PathBuf::from(printed.trim_end_matches('\n'));
    if !folder.join(FILE).is_file() {
        return Err(format!(
            "{} printed a folder without {FILE}: {}; {help}",
            script.display(),
            folder.display()
        ));
    }
    Ok(folder)
}

fn link(folder: &Path) {
    println!("cargo:rerun-if-changed={}", folder.join(FILE).display());
    println!("cargo:rustc-link-search=native={}", folder.display());
    println!("cargo:rustc-link-lib=static=ciztarmo");
}
