//! Metadata commits: named by file/ops.rs, reached by nothing that the oracle runs.

use crate::dir::LfsMdir;
use crate::fs::Lfs;

pub fn lfs_dir_commit(
    _lfs: *mut Lfs,
    _dir: *mut LfsMdir,
    _attrs: *const core::ffi::c_void,
    _count: i32,
) -> i32 {
    unimplemented!("the oracle writes no metadata")
}
