//! Links the two static libraries of the folder that `MOPSIENNA_LIB` names; with the feature `before` also that of another commit.

use std::{env, path::Path, process::exit};

/// The library, and the one with its functions at any page size, which only this workspace uses.
const LIBRARIES: [&str; 2] = ["mopsienna", "sized"];

/// Where they are when `MOPSIENNA_LIB` is not set, seen from the repository's root.
const DEFAULT_FOLDER: &str = "target/staticlib";

/// Where that of another commit is.
const BEFORE_FOLDER: &str = "target/before";

fn main() {
    println!("cargo:rerun-if-env-changed=MOPSIENNA_LIB");
    // Cargo sets CARGO_MANIFEST_DIR for every build script.
    let root = Path::new(&env::var_os("CARGO_MANIFEST_DIR").unwrap()).join("../..");
    let named = env::var_os("MOPSIENNA_LIB").unwrap_or(DEFAULT_FOLDER.into());
    let folder = root.join(named);

    for name in LIBRARIES {
        link(&folder, name);
    }
    if env::var_os("CARGO_FEATURE_BEFORE").is_some() {
        link(&root.join(BEFORE_FOLDER), "before");
    }
}

fn link(folder: &Path, name: &str) {
    let library = folder.join(format!("lib{name}.a"));
    if !library.is_file() {
        eprintln!(
            "the library {} does not exist; build it, or set MOPSIENNA_LIB to its folder",
            library.display()
        );
        exit(1);
    }
    println!("cargo:rustc-link-search=native={}", folder.display());
    println!("cargo:rerun-if-changed={}", library.display());
    println!("cargo:rustc-link-lib=static={name}");
}
