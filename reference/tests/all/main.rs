//! The tests of the separate implementation, in one binary.
//!
//! `example` is document 01's list L and its edges P1 to P12, `codes` each code
//! on both sides of its condition, `rows` what each call does, `queue` a receive
//! and a send on any twelve words, `influence` rows for sources, purge and view;
//! `isolation` and `groups` have rows for the two rules of document 02 and then the
//! rules themselves; `writer` has rows for what is written and then round trips;
//! `repair` has rows for what is broken and then worn tables; `holders` has rows for the
//! panel's words and for chains of rights, and then drawn ones; `potential` has rows for
//! what grants could ever give, and then both ways; `could_influence` has rows for who
//! could be in a source set, and then both ways; `totals` has rows for the sheet and
//! its codes, and then drawn inputs; `turns` has rows for their order and for handing in,
//! and `turn_words` for the words that they are kept in, each with drawn events behind
//! them. The others are property tests over seeded random tables and
//! lists; on failure they show the seed and the words.

mod codes;
mod could_influence;
mod counts;
mod example;
mod generator;
mod groups;
mod holders;
mod influence;
mod isolation;
mod linerun;
mod noninterference;
mod potential;
mod queue;
mod repair;
mod rows;
mod steps;
mod support;
mod totals;
mod turn_words;
mod turns;
mod writer;
