//! Links the proved library, libtidmaruls.a, that `tools/archive` writes.
//!
//! It is looked for in the folder of the variable TIDMARULS_LIB_DIR, else in target/staticlib of the repository.

use std::env;
use std::path::PathBuf;

fn folder() -> PathBuf {
    if let Some(named) = env::var_os("TIDMARULS_LIB_DIR") {
        return PathBuf::from(named);
    }
    let manifest = PathBuf::from(env::var_os("CARGO_MANIFEST_DIR").expect("set by cargo"));
    manifest.join("../../target/staticlib")
}

fn main() {
    let folder = folder();
    let library = folder.join("libtidmaruls.a");
    println!("cargo::rerun-if-env-changed=TIDMARULS_LIB_DIR");
    println!("cargo::rerun-if-changed={}", library.display());
    if !library.is_file() {
        println!(
            "cargo::error={} is not there: run `tools/archive`, or name its folder in TIDMARULS_LIB_DIR",
            library.display()
        );
    }
    println!("cargo::rustc-link-search=native={}", folder.display());
    println!("cargo::rustc-link-lib=static=tidmaruls");
    println!("cargo::rustc-env=TIDMARULS_ARCHIVE={}", library.display());
}
