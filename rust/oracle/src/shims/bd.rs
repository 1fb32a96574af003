//! The block device's functions of littlefs, over the plain device; a cache is only a name here.

/// The struct that the Rust hands about; never filled.
pub struct LfsCache {
    pub block: u32,
    pub off: u32,
    pub size: u32,
    pub buffer: *mut u8,
}

impl LfsCache {
    pub const fn none() -> Self {
        LfsCache {
            block: u32::MAX,
            off: 0,
            size: 0,
            buffer: core::ptr::null_mut(),
        }
    }
}

#[allow(clippy::too_many_arguments, clippy::module_inception)]
pub mod bd {
    use super::LfsCache;
    use crate::error::LFS_ERR_CORRUPT;
    use crate::fs::Lfs;
    use crate::shims::device::Device;
    use core::slice::{from_raw_parts, from_raw_parts_mut};

    /// The device behind the pointer that the Rust carries.
    fn device<'a>(lfs: *const Lfs) -> &'a mut Device {
        unsafe { &mut *(*lfs).device }
    }

    fn code(done: bool) -> i32 {
        if done {
            0
        } else {
            LFS_ERR_CORRUPT
        }
    }

    pub fn lfs_cache_drop(_: *const Lfs, _: *mut LfsCache) {}

    pub fn lfs_cache_zero(_: *const Lfs, _: *mut LfsCache) {}

    pub fn lfs_bd_flush(_: *const Lfs, _: *mut LfsCache, _: *mut LfsCache, _: bool) -> i32 {
        0
    }

    pub fn lfs_bd_sync(_: *mut Lfs, _: *mut LfsCache, _: *mut LfsCache, _: bool) -> i32 {
        0
    }

    pub fn lfs_bd_read(
        lfs: *mut Lfs,
        _: *const LfsCache,
        _: *mut LfsCache,
        _hint: u32,
        block: u32,
        off: u32,
        buffer: *mut u8,
        size: u32,
    ) -> i32 {
        let to = unsafe { from_raw_parts_mut(buffer, size as usize) };
        code(device(lfs).read(block, off, to))
    }

    pub fn lfs_bd_prog(
        lfs: *const Lfs,
        _: *mut LfsCache,
        _: *mut LfsCache,
        _validate: bool,
        block: u32,
        off: u32,
        buffer: *const u8,
        size: u32,
    ) -> i32 {
        let from = unsafe { from_raw_parts(buffer, size as usize) };
        code(device(lfs).program(block, off, from))
    }

    pub fn lfs_bd_erase(lfs: *const Lfs, block: u32) -> i32 {
        code(device(lfs).erase(block))
    }

    pub fn lfs_bd_cmp(
        _: *mut Lfs,
        _: *const LfsCache,
        _: *mut LfsCache,
        _hint: u32,
        _block: u32,
        _off: u32,
        _buffer: *const u8,
        _size: u32,
    ) -> i32 {
        unimplemented!("only metadata is compared")
    }

    pub fn lfs_bd_crc(
        _: *mut Lfs,
        _: *const LfsCache,
        _: *mut LfsCache,
        _hint: u32,
        _block: u32,
        _off: u32,
        _size: u32,
        _crc: *mut u32,
    ) -> i32 {
        unimplemented!("only metadata has checksums")
    }
}
