//! The table's check over little-endian bytes, as the firmware asks for it
//! through a plain C function (document 01, "Into firmware and onto the bench").

use crate::table::{check_table, header_is_right, length};
use crate::words::from_bytes;

/// The check of a table's bytes: 0, or 2 to 5. Under four bytes is 2; a length
/// that isn't four times the right one is 3.
pub fn check_bytes(bytes: &[u8]) -> u32 {
    if bytes.len() < 4 {
        return 2;
    }
    let words = from_bytes(bytes);
    if !header_is_right(words[0]) {
        return 2;
    }
    if bytes.len() != 4 * length(words[0]) {
        return 3;
    }
    check_table(&words)
}
