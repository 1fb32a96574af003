//! The calls with their numbers, for tests and tools that pass values which no safe type holds.
//!
//! The library's calls test all that they are given, so nothing is tested here: slices go as pointer and length, and a
//! refusal number comes back as an `Err`. A call is wrapped where its feature is on.

mod card;
#[cfg(feature = "index")]
mod layout;
#[cfg(any(feature = "find", feature = "visit", feature = "check"))]
mod lists;
mod table;

use crate::ffi;

pub use crate::ffi::{Entry, Geometry, Table, Window};
pub use crate::{FILE_MAX, NULL};
pub use card::*;
#[cfg(feature = "index")]
pub use layout::*;
#[cfg(any(feature = "find", feature = "visit", feature = "check"))]
pub use lists::*;

/// A refusal: one of the numbers -2, -12, -17, -22, -27, -28, -84.
pub type Refusal = i32;

/// An answer's code as a result.
#[allow(dead_code)]
fn refused(code: i32) -> Result<(), Refusal> {
    if code == 0 {
        Ok(())
    } else {
        Err(code)
    }
}
