//! An open file, with the fields that file/ops.rs names.

use crate::bd::LfsCache;
use crate::dir::LfsMdir;
use crate::file::LfsCtz;
use crate::lfs_info::LfsFileConfig;

#[repr(C)]
pub struct LfsFile {
    pub next: *mut LfsFile,
    pub id: u16,
    pub type_: u8,
    pub m: LfsMdir,
    pub ctz: LfsCtz,
    pub flags: u32,
    pub pos: u32,
    pub block: u32,
    pub off: u32,
    pub cache: LfsCache,
    pub cfg: *const LfsFileConfig,
}
