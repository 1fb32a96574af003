//! Says whether the oracle was found: the comparisons with it are built only then (`cfg(oracle)`).

fn main() {
    if std::env::var("DEP_LITTLEFS_AVAILABLE").as_deref() == Ok("true") {
        println!("cargo::rustc-cfg=oracle");
    }
}
