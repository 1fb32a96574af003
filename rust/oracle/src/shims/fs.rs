//! The file system's state and the walk of the table, in place of its directories.

use super::device::Device;
use crate::bd::LfsCache;
use crate::dir::LfsMlist;
use crate::lfs_config::LfsConfig;
use crate::lfs_gstate::LfsGstate;

pub struct LfsLookahead {
    pub start: u32,
    pub size: u32,
    pub next: u32,
    pub ckpoint: u32,
    pub buffer: *mut u8,
}

/// littlefs's fields, then the plain device and the table.
pub struct Lfs {
    pub cfg: *const LfsConfig,
    pub block_count: u32,
    pub lookahead: LfsLookahead,
    pub file_max: u32,
    pub rcache: LfsCache,
    pub pcache: LfsCache,
    pub seed: u32,
    pub gdisk: LfsGstate,
    pub root: [u32; 2],
    pub mlist: *mut LfsMlist,
    pub name_max: u32,
    pub attr_max: u32,
    pub inline_max: u32,
    pub device: *mut Device,
    /// Head and size of each file, file numbers rising.
    pub files: *const Vec<(u32, u32)>,
}

/// Consistency of directories: named by file/ops.rs, reached by nothing that the oracle runs.
pub mod superblock {
    use super::Lfs;

    pub fn lfs_fs_forceconsistency(_: *mut Lfs) -> i32 {
        unimplemented!("the oracle has no directories")
    }

    pub fn lfs_fs_deorphan(_: *mut Lfs, _: bool) -> i32 {
        unimplemented!("the oracle has no directories")
    }
}

pub mod traverse {
    use super::Lfs;
    use crate::bd::LfsCache;
    use crate::file::ctz::lfs_ctz_traverse;
    use core::ffi::c_void;

    /// The plain walk: every block of every file of the table.
    pub fn lfs_fs_traverse_(
        lfs: *mut Lfs,
        cb: Option<unsafe extern "C" fn(*mut c_void, u32) -> i32>,
        data: *mut c_void,
        _includeorphans: bool,
    ) -> i32 {
        let mut none = LfsCache::none();
        let files = unsafe { &*(*lfs).files };
        for &(head, size) in files {
            let err = lfs_ctz_traverse(lfs, core::ptr::null(), &mut none, head, size, cb, data);
            if err != 0 {
                return err;
            }
        }
        0
    }
}
