//! The oracle: block lists, allocator, seek and read of littlefs-rust, compiled unchanged over a plain device.
//!
//! The Rust stays in its own folder (see build.rs); what it leans on and does not bring is in `shims`.
//! Where the folder is not there this crate is empty but for `AVAILABLE` and `FOLDER`.

include!(concat!(env!("OUT_DIR"), "/littlefs.rs"));

#[cfg(oracle)]
mod face;
#[cfg(oracle)]
mod shims;
#[cfg(oracle)]
mod values;
#[cfg(oracle)]
use shims::{bd, fs};
#[cfg(oracle)]
use shims::{lfs_assert, lfs_err, lfs_pass_err, lfs_trace};

#[cfg(oracle)]
pub use face::Oracle;
#[cfg(oracle)]
pub use shims::device::Device;
#[cfg(oracle)]
pub use values::{File, Found, Window};
