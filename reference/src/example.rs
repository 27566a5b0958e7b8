//! Document 01's worked example: table T, list L, and what `linerun` prints, as
//! document 02 has altered it.

/// Table T: three domains, two endpoints, 34 words.
#[rustfmt::skip]
pub const TABLE_T: [u32; 34] = [
    0x10000302,
    0x20000000, 0x20000001, 0x20000000,
    0x20000001, 0x20000000, 0x20000007,
    0x20000000, 0x20000000, 0x20000000,
    0x30000011, 0x40000102, 0x50000000, 0x60000000,
    0xF0000000, 0xF0000000, 0xF0000000, 0xF0000000,
    0xF0000000, 0xF0000000, 0xF0000000, 0xF0000000,
    0x30000012, 0x40000201, 0x50000000, 0x60000000,
    0xF0000000, 0xF0000000, 0xF0000000, 0xF0000000,
    0xF0000000, 0xF0000000, 0xF0000000, 0xF0000000,
];

/// List L: twelve words, nine calls.
#[rustfmt::skip]
pub const LIST_L: [u32; 12] = [
    0x20000100, 0xF0000005, 0x60420001, 0x20000100, 0xF0000005, 0x20000100,
    0xF0000006, 0x30800100, 0x30800100, 0xF0000009, 0x50000000, 0x40800000,
];

/// What `linerun` prints for the word 34, table T and list L.
pub const PRINTED: &str = "\
calls 9 code 0
call 0 caller 0 kind 2 code 17 data 0 0
call 1 caller 1 kind 6 code 0 data 0 0
call 2 caller 0 kind 2 code 0 data 0 0
call 3 caller 0 kind 2 code 0 data 0 0
call 4 caller 2 kind 3 code 0 data 6 1
call 5 caller 2 kind 3 code 19 data 0 0
call 6 caller 0 kind 15 code 10 data 0 0
call 7 caller 0 kind 5 code 0 data 272 0
call 8 caller 2 kind 4 code 0 data 2 0
";
