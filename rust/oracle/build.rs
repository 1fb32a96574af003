//! Finds the Rust that is the oracle and names its files as modules of this crate; none of it is copied.
//!
//! The folder is that of the variable TIDMARULS_ORACLE, else `shared/docs/src` beside the repository.

use std::env;
use std::fs;
use std::path::{Path, PathBuf};

/// The modules used as they stand: those at the root, and those of each folder.
const ROOT: [&str; 10] = [
    "crc",
    "error",
    "lfs_alloc_module",
    "lfs_config",
    "lfs_gstate",
    "lfs_info",
    "lfs_type",
    "tag",
    "types",
    "util",
];
const BLOCK_ALLOC: [&str; 1] = ["alloc"];
const DIR: [&str; 6] = [
    "fetch",
    "find",
    "lfs_fcrc",
    "lfs_mdir",
    "lfs_mlist",
    "traverse",
];
const FILE: [&str; 3] = ["ctz", "lfs_ctz", "ops"];

fn folder() -> PathBuf {
    if let Some(named) = env::var_os("TIDMARULS_ORACLE") {
        return PathBuf::from(named);
    }
    let manifest = PathBuf::from(env::var_os("CARGO_MANIFEST_DIR").expect("set by cargo"));
    let beside = manifest
        .ancestors()
        .nth(3)
        .expect("rust/oracle of a folder");
    beside.join("shared/docs/src")
}

/// Every file that the modules are read from.
fn sources(src: &Path) -> Vec<PathBuf> {
    let below = |folder: &str, names: &[&str]| -> Vec<PathBuf> {
        let path = |name: &&str| src.join(folder).join(format!("{name}.rs"));
        names.iter().map(path).collect()
    };
    [
        below("", &ROOT),
        below("block_alloc", &BLOCK_ALLOC),
        below("dir", &DIR),
        below("file", &FILE),
    ]
    .concat()
}

/// A folder's modules, with what the shims add to it. (A path on an inline module names the folder of its files.)
fn inline(src: &Path, name: &str, modules: &[&str], more: &str) -> String {
    let inner: String = modules.iter().map(|m| format!("pub mod {m}; ")).collect();
    let path = src.join(name);
    format!("#[allow(warnings)]\n#[path = {path:?}]\nmod {name} {{ {inner}{more} }}\n")
}

fn modules(src: &Path) -> String {
    let root = |name: &&str| {
        let path = src.join(format!("{name}.rs"));
        format!("#[allow(warnings)]\n#[path = {path:?}]\nmod {name};\n")
    };
    let dir = "pub use crate::shims::commit; pub use lfs_fcrc::LfsFcrc; pub use lfs_mdir::LfsMdir; pub use lfs_mlist::LfsMlist;";
    let file = "pub use crate::shims::file::LfsFile; pub use lfs_ctz::LfsCtz;";
    let mut text: String = ROOT.iter().map(root).collect();
    text += &inline(src, "block_alloc", &BLOCK_ALLOC, "");
    text += &inline(src, "dir", &DIR, dir);
    text += &inline(src, "file", &FILE, file);
    text
}

fn main() {
    println!("cargo::rerun-if-env-changed=TIDMARULS_ORACLE");
    let folder = folder();
    let src = folder.join("littlefs-rust-core").join("src");
    let files = sources(&src);
    let available = files.iter().all(|file| file.is_file());
    for file in &files {
        println!("cargo::rerun-if-changed={}", file.display());
    }
    println!("cargo::metadata=available={available}");
    if available {
        println!("cargo::rustc-cfg=oracle");
    }
    let about = format!(
        "/// Whether the Rust was there when this was built.\npub const AVAILABLE: bool = {available};\n\
         /// Where it was looked for.\npub const FOLDER: &str = {folder:?};\n"
    );
    let text = if available {
        about + &modules(&src)
    } else {
        about
    };
    let out = PathBuf::from(env::var_os("OUT_DIR").expect("set by cargo"));
    fs::write(out.join("littlefs.rs"), text).expect("the build's own folder can be written");
}
