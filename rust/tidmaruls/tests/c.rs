//! The header, as C and C++ read it, and programs in C that link the library.

use std::mem::{offset_of, size_of};
use std::path::{Path, PathBuf};
use std::process::{Command, Output};
use tidmaruls::ffi;

const STRICT: [&str; 5] = ["-pedantic", "-Wall", "-Wextra", "-Werror", "-O1"];

fn folder() -> PathBuf {
    PathBuf::from(env!("CARGO_MANIFEST_DIR"))
}

/// A compiler, set to complain of everything, that finds the header.
fn compiler(name: &str, standard: &str) -> Command {
    let mut command = Command::new(name);
    command.arg(standard).args(STRICT);
    command.arg("-I").arg(folder().join("../../include"));
    command
}

fn ran(mut command: Command) -> Output {
    let output = command.output();
    let output = output.unwrap_or_else(|error| panic!("{command:?}: {error}"));
    let told = String::from_utf8_lossy(&output.stderr);
    assert!(output.status.success(), "{command:?}:\n{told}");
    assert!(told.is_empty(), "{command:?}:\n{told}");
    output
}

/// Compiles a program of tests/c, links the library to it, runs it, and answers what it prints.
fn program(name: &str) -> String {
    let made =
        Path::new(env!("CARGO_TARGET_TMPDIR")).join(format!("{name}-{}", std::process::id()));
    let mut command = compiler("cc", "-std=c99");
    command.arg(folder().join(format!("tests/c/{name}.c")));
    command.arg(env!("TIDMARULS_ARCHIVE")).arg("-o").arg(&made);
    ran(command);
    let output = ran(Command::new(&made));
    std::fs::remove_file(made).expect("just made");
    String::from_utf8(output.stdout).expect("plain text")
}

#[test]
fn lists() {
    assert_eq!(program("lists"), "lists from C\n");
}

#[cfg(feature = "full")]
#[test]
fn store() {
    assert_eq!(program("store"), "files from C\n");
}

/// The header alone, in each language that it promises.
#[test]
fn header_alone() {
    for (name, standard, language) in [("cc", "-std=c99", "c"), ("c++", "-std=c++11", "c++")] {
        if Command::new(name).arg("--version").output().is_err() {
            println!("header: no {name} here, not compiled as {language}");
            continue;
        }
        let mut command = compiler(name, standard);
        command.args(["-fsyntax-only", "-x", language]);
        command.arg(folder().join("../../include/tidmaruls.h"));
        ran(command);
    }
}

/// A line for a struct's size and one for each field's place, under the name that C has for it.
macro_rules! layout {
    ($to:ident, $name:literal, $type:ty, $($field:ident),*) => {
        $to.push(format!("{} {}", $name, size_of::<$type>()));
        $($to.push(format!("{}.{} {}", $name, stringify!($field), offset_of!($type, $field)));)*
    };
}

#[test]
fn layouts() {
    let mut rust: Vec<String> = Vec::new();
    layout!(rust, "tid_geometry", ffi::Geometry, block_size, block_count);
    layout!(
        rust,
        "tid_window",
        ffi::Window,
        map,
        start,
        next,
        size,
        ckpoint
    );
    layout!(rust, "tid_entry", ffi::Entry, number, size, head);
    layout!(rust, "tid_table", ffi::Table, files, count);
    layout!(rust, "tid_place", ffi::Visit, index, block, held, after);
    layout!(rust, "tid_index_answer", ffi::Indexed, code, index, offset);
    layout!(
        rust,
        "tid_find_answer",
        ffi::Found,
        code,
        block,
        offset,
        hops
    );
    layout!(rust, "tid_visit_answer", ffi::Begun, code, more, place);
    layout!(
        rust,
        "tid_traverse_answer",
        ffi::Step,
        code,
        block,
        more,
        place
    );
    layout!(
        rust,
        "tid_check_answer",
        ffi::Checked,
        code,
        kind,
        index,
        pointer
    );
    layout!(rust, "tid_window_answer", ffi::Windowed, code, window);
    layout!(
        rust,
        "tid_alloc_answer",
        ffi::Allocated,
        code,
        block,
        window
    );
    layout!(
        rust,
        "tid_extend_answer",
        ffi::Extended,
        code,
        block,
        offset,
        window
    );
    layout!(rust, "tid_table_answer", ffi::Tabled, code, table);
    layout!(rust, "tid_size_answer", ffi::FileSize, code, size);
    layout!(rust, "tid_seek_answer", ffi::Sought, code, position);
    layout!(rust, "tid_save_answer", ffi::Saved, code, length);
    layout!(rust, "tid_read_answer", ffi::Reading, code, length);
    layout!(
        rust,
        "tid_stretch_answer",
        ffi::Stretch,
        code,
        place,
        length
    );
    layout!(rust, "tid_store_answer", ffi::Stored, code, window, table);
    let c = program("layouts");
    let c: Vec<&str> = c.lines().collect();
    assert_eq!(rust, c);
    println!("header: {} sizes and places as in Rust", c.len());
}

/// Every exported call is declared in both places.
#[test]
fn calls() {
    let names = |text: &str| {
        let words = text.split(|c: char| !(c.is_alphanumeric() || c == '_' || c == '('));
        let mut names: Vec<String> = words
            .filter_map(|word| word.split_once('(').map(|(name, _)| name))
            .filter(|name| name.starts_with("tid_"))
            .map(str::to_string)
            .collect();
        names.sort();
        names.dedup();
        names
    };
    let read = |path: PathBuf| std::fs::read_to_string(path).expect("a file of the repository");
    let modules = std::fs::read_dir(folder().join("src/ffi")).expect("a folder of the repository");
    let declared: String = modules
        .map(|module| read(module.expect("a module").path()))
        .collect();
    let header = names(&read(folder().join("../../include/tidmaruls.h")));
    assert_eq!(header, names(&declared));
    assert_eq!(header.len(), 20);
}
