//! Tells the linker where the static libraries under test are.

use std::path::PathBuf;

const LIBRARY_VARIABLE: &str = "YEGNABIT_LIB";
const ARCHIVES: [&str; 2] = ["libyegnabit.a", "libc_probe.a"];
const DEFAULT_FOLDER: &str = "../target/staticlib";

fn main() {
    let here = PathBuf::from(std::env::var("CARGO_MANIFEST_DIR").expect("set by cargo"));
    let folder =
        std::env::var(LIBRARY_VARIABLE).map_or_else(|_| here.join(DEFAULT_FOLDER), PathBuf::from);
    let folder = here.join(folder);

    println!("cargo:rerun-if-env-changed={LIBRARY_VARIABLE}");
    println!("cargo:rerun-if-changed=build.rs");
    for archive in ARCHIVES.map(|name| folder.join(name)) {
        println!("cargo:rerun-if-changed={}", archive.display());
        if !archive.exists() {
            println!(
                "cargo:warning=no {}: build it first or set {LIBRARY_VARIABLE}",
                archive.display()
            );
        }
    }
    // `#[link(kind = "static")]` in src/ffi.rs names the libraries
    // themselves, so that only the program, and not the oracle or the
    // rival, needs them.
    println!("cargo:rustc-link-search=native={}", folder.display());
}
