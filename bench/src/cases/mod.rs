//! What is drawn to be tried: random histories of turns, random inputs of the programs, and
//! the lists that the speed is measured on. Beside these, what is made to cost as much as
//! possible.

pub mod histories;
pub mod inputs;
pub mod mixes;
pub mod sheets;
pub mod workloads;
pub mod worst;
