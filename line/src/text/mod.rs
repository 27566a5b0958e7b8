//! A line's table and its list of calls: as the bytes that `linerun` reads, as text
//! that is typed in, words, calls or turns, and in plain words. And words that were read
//! back from one.

pub mod answers;
pub mod calls;
pub mod described;
pub mod differences;
pub mod dump;
pub mod explain;
pub mod given;
pub mod hex;
pub mod input;
pub mod mistakes;
pub mod names;
pub mod reasons;
pub mod sentences;
pub mod turns;
