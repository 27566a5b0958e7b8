//! What a kernel did, beside what it should have done: the comparison with the reference,
//! the counts of the queues, the exercise made from a table, the drills and the variants of
//! a line that are tried, the checklist, runs, table images and lists, pairs of lines and
//! components, turns, and what is wrong cut down and put in words.

pub mod chains;
pub mod checklist;
pub mod compare;
pub mod counts;
pub mod drills;
pub mod exercise;
pub mod groups;
pub mod holders;
pub mod images;
pub mod lists;
pub mod pairs;
pub mod panics;
pub mod report;
pub mod runs;
pub mod shift;
pub mod shrink;
pub mod tally;
pub mod trying;
pub mod turning;
pub mod variants;
