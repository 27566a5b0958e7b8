//! Words and their fields: every word is 32 bits, bit 0 the lowest, and its
//! top four bits are its kind (document 01, "The table").

/// The largest number that bits 27–0 can hold: 268,435,455.
pub const CONTENT_MAX: u32 = 0x0FFF_FFFF;

/// A word of kind 15 whose other bits are zero: an empty message slot.
pub const EMPTY_SLOT: u32 = 0xF000_0000;

/// The bits from `high` down to `low`, both included, as a number.
pub fn bits(word: u32, high: u32, low: u32) -> u32 {
    let width = high - low + 1;
    let mask = (1u64 << width) - 1;
    ((u64::from(word) >> low) & mask) as u32
}

/// Bits 31–28.
pub fn kind(word: u32) -> u32 {
    bits(word, 31, 28)
}

/// Bits 27–0.
pub fn content(word: u32) -> u32 {
    bits(word, 27, 0)
}

/// The word of a kind whose bits 27–0 are `content`.
pub fn word(kind: u32, content: u32) -> u32 {
    (kind << 28) | content
}

/// Little-endian bytes as words. Bytes after the last whole word are left out.
pub fn from_bytes(bytes: &[u8]) -> Vec<u32> {
    bytes
        .chunks_exact(4)
        .map(|four| u32::from_le_bytes([four[0], four[1], four[2], four[3]]))
        .collect()
}

/// Words as little-endian bytes.
pub fn to_bytes(words: &[u32]) -> Vec<u8> {
    words.iter().flat_map(|word| word.to_le_bytes()).collect()
}

/// Words in hexadecimal, as document 01 writes them, for messages of tests.
pub fn hex(words: &[u32]) -> String {
    let each: Vec<String> = words.iter().map(|word| format!("{word:08X}")).collect();
    each.join(" ")
}
