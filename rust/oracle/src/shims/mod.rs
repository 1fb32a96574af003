//! What the oracle's Rust leans on and does not bring: macros, structs, the device, the walk of the table.

pub mod bd;
pub mod commit;
pub mod device;
pub mod file;
pub mod fs;

macro_rules! lfs_pass_err {
    ($e:expr) => {
        $e
    };
}
macro_rules! lfs_err {
    ($e:expr) => {
        $e
    };
}
macro_rules! lfs_trace {
    ($($t:tt)*) => {};
}
macro_rules! lfs_assert {
    ($e:expr) => {
        debug_assert!($e)
    };
}
pub(crate) use {lfs_assert, lfs_err, lfs_pass_err, lfs_trace};
