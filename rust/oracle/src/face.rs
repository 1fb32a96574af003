//! The safe face of the oracle: one value that owns geometry, device, table and window.

use crate::bd::LfsCache;
use crate::block_alloc::alloc::{lfs_alloc, lfs_alloc_ckpoint, lfs_alloc_drop};
use crate::file::ctz::{lfs_ctz_extend, lfs_ctz_find, lfs_ctz_index, lfs_ctz_traverse};
use crate::file::ops::{lfs_file_flush, lfs_file_flushedread, lfs_file_seek_, lfs_file_write_};
use crate::fs::{Lfs, LfsLookahead};
use crate::lfs_config::LfsConfig;
use crate::shims::device::Device;
use crate::types::LFS_FILE_MAX;
use crate::values::{File, Found, Window};
use core::ffi::c_void;
use core::ptr::null;

/// The Rust with all that it works on.
pub struct Oracle {
    cfg: LfsConfig,
    lfs: Lfs,
    map: [u8; 64],
    pub device: Device,
    /// Head and size of each file, file numbers rising: what a scan visits.
    pub files: Vec<(u32, u32)>,
}

impl Oracle {
    /// An erased card of good blocks, no files, a fresh window that starts at `start`.
    pub fn new(block_size: u32, block_count: u32, lookahead: u32, start: u32) -> Oracle {
        // Numbers, null pointers and absent functions: all zero is a value of each field.
        let mut cfg: LfsConfig = unsafe { core::mem::zeroed() };
        cfg.block_size = block_size;
        cfg.block_count = block_count;
        cfg.lookahead_size = lookahead;
        let mut lfs: Lfs = unsafe { core::mem::zeroed() };
        lfs.block_count = block_count;
        lfs.file_max = LFS_FILE_MAX as u32;
        lfs.rcache = LfsCache::none();
        lfs.lookahead = LfsLookahead {
            start,
            size: 0,
            next: 0,
            ckpoint: block_count,
            buffer: core::ptr::null_mut(),
        };
        Oracle {
            cfg,
            lfs,
            map: [0; 64],
            device: Device::new(block_size, block_count),
            files: Vec::new(),
        }
    }

    /// No card at all: for `index` alone, which serves block sizes that no card has.
    pub fn bare(block_size: u32) -> Oracle {
        Oracle::new(block_size, 0, 8, 0)
    }

    /// The pointer that the Rust wants; its inner ones are set anew for each call, since the value may have moved.
    fn pointer(&mut self) -> *mut Lfs {
        self.lfs.cfg = &self.cfg;
        self.lfs.device = &mut self.device;
        self.lfs.files = &self.files;
        self.lfs.lookahead.buffer = self.map.as_mut_ptr();
        &mut self.lfs
    }

    pub fn window(&self) -> Window {
        let held = &self.lfs.lookahead;
        Window {
            map: self.map,
            start: held.start,
            next: held.next,
            size: held.size,
            ckpoint: held.ckpoint,
        }
    }

    pub fn set_window(&mut self, window: Window) {
        self.map = window.map;
        let held = &mut self.lfs.lookahead;
        held.start = window.start;
        held.next = window.next;
        held.size = window.size;
        held.ckpoint = window.ckpoint;
    }

    /// Index and offset of a position.
    pub fn index(&mut self, position: u32) -> (u32, u32) {
        let mut offset = position;
        let index = lfs_ctz_index(self.pointer(), &mut offset);
        (index as u32, offset)
    }

    pub fn find(&mut self, head: u32, size: u32, position: u32) -> Result<Found, i32> {
        let mut none = LfsCache::none();
        let (mut block, mut offset) = (0, 0);
        let before = self.device.reads;
        let lfs = self.pointer();
        let err = lfs_ctz_find(
            lfs,
            null(),
            &mut none,
            head,
            size,
            position,
            &mut block,
            &mut offset,
        );
        let hops = self.device.reads - before;
        answer(
            err,
            Found {
                block,
                offset,
                hops,
            },
        )
    }

    /// The blocks handed over, and 0 or the number that the walk ended with.
    pub fn traverse(&mut self, head: u32, size: u32) -> (i32, Vec<u32>) {
        unsafe extern "C" fn push(blocks: *mut c_void, block: u32) -> i32 {
            unsafe { (*(blocks as *mut Vec<u32>)).push(block) };
            0
        }
        let mut none = LfsCache::none();
        let mut blocks: Vec<u32> = Vec::new();
        let data = &mut blocks as *mut Vec<u32> as *mut c_void;
        let lfs = self.pointer();
        let err = lfs_ctz_traverse(lfs, null(), &mut none, head, size, Some(push), data);
        (err, blocks)
    }

    pub fn ckpoint(&mut self) {
        unsafe { lfs_alloc_ckpoint(self.pointer()) }
    }

    pub fn drop_window(&mut self) {
        lfs_alloc_drop(self.pointer())
    }

    pub fn alloc(&mut self) -> Result<u32, i32> {
        let mut block = 0;
        let err = lfs_alloc(self.pointer(), &mut block);
        answer(err, block)
    }

    /// One growth: the new block and the offset in it.
    pub fn extend(&mut self, head: u32, size: u32) -> Result<(u32, u32), i32> {
        let (mut program, mut read) = (LfsCache::none(), LfsCache::none());
        let (mut block, mut offset) = (0, 0);
        let lfs = self.pointer();
        let err = lfs_ctz_extend(
            lfs,
            &mut program,
            &mut read,
            head,
            size,
            &mut block,
            &mut offset,
        );
        answer(err, (block, offset))
    }

    /// The position, or the refusal, of a seek in a file of this size at this position.
    pub fn seek(&mut self, size: u32, position: u32, offset: i32, whence: i32) -> i32 {
        let mut file = File::open(0, size, position);
        lfs_file_seek_(self.pointer(), &mut file.0, offset, whence)
    }

    /// Reads on from the file's position: the number of bytes, or the refusal.
    pub fn read(&mut self, file: &mut File, to: &mut [u8]) -> i32 {
        let buffer = to.as_mut_ptr() as *mut c_void;
        lfs_file_flushedread(self.pointer(), &mut file.0, buffer, to.len() as u32)
    }

    /// Writes on from the file's position; the list changes with `flush`.
    pub fn write(&mut self, file: &mut File, from: &[u8]) -> i32 {
        let buffer = from.as_ptr() as *const c_void;
        lfs_file_write_(self.pointer(), &mut file.0, buffer, from.len() as u32)
    }

    /// Ends a write: copies the old file's tail and gives the file its new list.
    pub fn flush(&mut self, file: &mut File) -> i32 {
        lfs_file_flush(self.pointer() as *const c_void, &mut file.0)
    }

    /// Programs bytes as the Rust does, through the device; false where the block refuses.
    pub fn program(&mut self, block: u32, offset: u32, from: &[u8]) -> bool {
        self.device.program(block, offset, from)
    }
}

fn answer<T>(err: i32, value: T) -> Result<T, i32> {
    if err == 0 {
        Ok(value)
    } else {
        Err(err)
    }
}
