//! One call alone, for a tool that counts its instructions.

use crate::work::{bytes, sized, write, written};
use tidmaruls::View;

/// Makes the call exactly once, on all of a file of this length, and says how long the file was.
pub fn make(call: &str, block_size: u32, length: usize) -> Result<(), String> {
    let (geometry, length) = sized(block_size, length);
    let data = bytes(length);
    match call {
        "write" => {
            let (mut image, health) = (geometry.blank_image(), geometry.good_health());
            write(geometry, &mut image, &health, &data, length);
        }
        "read" => {
            let (image, table) = written(geometry, &data);
            let mut buffer = vec![0; length];
            let view = View::new(geometry, &image, &table).expect("a card");
            assert_eq!(view.read(1, 0, &mut buffer), Ok(length));
            assert!(buffer == data);
        }
        "check" => {
            let (image, table) = written(geometry, &data);
            let view = View::new(geometry, &image, &table).expect("a card");
            assert_eq!(view.check(1), Ok(None));
        }
        _ => return Err(format!("`{call}` is no call: take read, write or check.")),
    }
    let blocks = geometry.blocks(length as u32).expect("a card");
    println!("{length} bytes in {blocks} blocks");
    Ok(())
}
