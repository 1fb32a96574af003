//! Files in block lists on flash: a safe layer over the proved library.
//!
//! A card is an image (bytes in blocks) and a health byte for each block, both lent by the caller. A [`Table`] says which
//! files there are, a [`Window`] where the allocator looks for free blocks. [`Card`] holds all of it for calls that write,
//! [`View`] what is needed to read, [`Image`] what is needed to look at one list.
//!
#![cfg_attr(
    feature = "full",
    doc = r#"
```
use std::io::{Read, Seek, SeekFrom};
use tidmaruls::{Card, Geometry};

let geometry = Geometry::new(512, 64)?;
let mut image = geometry.blank_image();
let health = geometry.good_health();
let mut card = Card::new(geometry, &mut image, &health)?;

card.create(3)?;
card.write(3, 0, &[7; 1000])?;
card.write(3, 500, b"a stop that crosses a block border")?;

let mut reader = card.view().reader(3)?;
reader.seek(SeekFrom::Start(500))?;
let mut text = [0; 34];
reader.read_exact(&mut text)?;
assert_eq!(&text, b"a stop that crosses a block border");
assert_eq!(card.view().check(3)?, None);
# Ok::<(), Box<dyn std::error::Error>>(())
```
"#
)]
//! Every call checks the length of each slice it is lent. Nothing here panics on bad input: what is wrong comes back as an
//! [`Error`], whose message is a sentence that says what to do. [`ffi`] has the exported calls themselves, [`raw`] a thin
//! layer over them without checks of its own. The feature `full` turns on all that needs every exported call.

#![cfg_attr(not(feature = "full"), allow(rustdoc::broken_intra_doc_links))]

#[cfg_attr(not(feature = "full"), allow(dead_code, unused_imports, unused_macros))]
mod border;
#[cfg(feature = "full")]
mod card;
mod error;
pub mod ffi;
mod geometry;
mod image;
pub mod raw;
#[cfg(feature = "full")]
mod reader;
#[cfg(feature = "full")]
mod table;
#[cfg(feature = "full")]
mod view;
#[cfg(feature = "visit")]
mod visit;
#[cfg(feature = "full")]
mod window;

#[cfg(feature = "full")]
pub use card::Card;
pub use error::Error;
pub use ffi::Entry;
pub use geometry::{Geometry, Place};
pub use image::{Image, List};
#[cfg(feature = "check")]
pub use raw::Fault;
#[cfg(feature = "find")]
pub use raw::Found;
#[cfg(feature = "full")]
pub use reader::FileReader;
#[cfg(feature = "full")]
pub use table::Table;
#[cfg(feature = "full")]
pub use view::View;
#[cfg(feature = "visit")]
pub use visit::{Visit, Visited};
#[cfg(feature = "full")]
pub use window::Window;

/// The largest file size, and the largest position.
pub const FILE_MAX: u32 = 2_147_483_647;

/// The head of an empty list.
pub const NULL: u32 = u32::MAX;

/// The largest file number.
pub const NUMBER_MAX: u32 = 65_535;

/// How many files a table holds at most.
pub const FILES: usize = 32;

/// No saved table is longer.
pub const SAVED_MAX: usize = 353;
