// Shared by the two build scripts: writes the `#[path]` lines for the
// unchanged files, so that no path of a machine stands in the repository.

use std::{env, fs, path::PathBuf};

fn source_folder() -> PathBuf {
    println!("cargo:rerun-if-env-changed=THRU_SRC");
    let Ok(folder) = env::var("THRU_SRC") else {
        panic!("THRU_SRC is not set: it names the folder that holds rpc/abi (use judge/run)");
    };
    PathBuf::from(folder)
}

fn module_line(name: &str, file: &str) -> String {
    let path = source_folder().join(file);
    println!("cargo:rerun-if-changed={}", path.display());
    if !path.is_file() {
        panic!("THRU_SRC does not hold the sources: {} is missing", path.display());
    }
    format!("#[path = {:?}]\npub mod {};\n", path.display().to_string(), name)
}

fn write_lines(name: &str, lines: &[String]) {
    let out = PathBuf::from(env::var("OUT_DIR").unwrap()).join(name);
    fs::write(out, lines.concat()).unwrap();
}
