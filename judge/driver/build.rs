//! Links the archive of crates/ciztarmo for the feature `bench`, from the folder
//! that CIZTARMO_LIB names, and for the feature `before` an older one, whose calls
//! have `before_` in front of their names, from the folder that CIZTARMO_BEFORE
//! names.

fn main() {
    println!("cargo:rerun-if-changed=build.rs");
    if std::env::var_os("CARGO_FEATURE_BENCH").is_some() {
        link("CIZTARMO_LIB", "ciztarmo");
    }
    if std::env::var_os("CARGO_FEATURE_BEFORE").is_some() {
        link("CIZTARMO_BEFORE", "ciztarmo_before");
    }
}

fn link(variable: &str, archive: &str) {
    println!("cargo:rerun-if-env-changed={variable}");
    let folder = std::env::var(variable);
    let folder = folder.unwrap_or_else(|_| panic!("{variable} names the archive's folder"));
    println!("cargo:rerun-if-changed={folder}/lib{archive}.a");
    println!("cargo:rustc-link-search=native={folder}");
    println!("cargo:rustc-link-lib=static={archive}");
}
