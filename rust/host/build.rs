//! Links the static libraries of the proved machine.

use std::env;
use std::path::PathBuf;
use std::process::exit;

/// The folder of the libraries, where they aren't in the repository's own folders.
const FOLDER: &str = "HOST_LIBRARY_DIR";

fn main() {
    println!("cargo:rerun-if-env-changed={FOLDER}");
    let given = env::var_os(FOLDER).map(PathBuf::from);
    let own = PathBuf::from(env::var_os("CARGO_MANIFEST_DIR").expect("cargo sets it"));
    // The first engine is in a library of its own.
    for name in ["host", "host_first"] {
        let folder = match &given {
            Some(folder) => folder.clone(),
            None => own.join(format!("../../crates/{name}/out")),
        };
        let archive = folder.join(format!("lib{name}.a"));
        println!("cargo:rerun-if-changed={}", archive.display());
        if !archive.is_file() {
            eprintln!(
                "error: there is no {}: run `tools/libraries` in the repository's top folder, or set {FOLDER} to the folder that has it",
                archive.display()
            );
            exit(1);
        }
        println!("cargo:rustc-link-search=native={}", folder.display());
        println!("cargo:rustc-link-lib=static={name}");
    }
}
