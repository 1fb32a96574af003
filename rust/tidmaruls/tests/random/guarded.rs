//! Lent bytes between guards.

/// Bytes with a guard on either side, to see a write that goes past its slice.
#[derive(Clone, PartialEq, Eq, Debug, Hash)]
pub struct Guarded(Vec<u8>);

const GUARD: [u8; 32] = [0xA7; 32];

impl Guarded {
    pub fn new(bytes: &[u8]) -> Guarded {
        Guarded([&GUARD, bytes, &GUARD].concat())
    }

    pub fn length(&self) -> usize {
        self.0.len() - 2 * GUARD.len()
    }

    pub fn bytes(&self) -> &[u8] {
        &self.0[GUARD.len()..self.0.len() - GUARD.len()]
    }

    pub fn start(&self) -> *const u8 {
        self.bytes().as_ptr()
    }

    pub fn start_mut(&mut self) -> *mut u8 {
        self.0[GUARD.len()..].as_mut_ptr()
    }

    /// Whether both guards are as they were set.
    pub fn holds(&self) -> bool {
        self.0.starts_with(&GUARD) && self.0.ends_with(&GUARD)
    }
}
