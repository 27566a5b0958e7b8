//! What is drawn to be tried: random runs and table images, and plain tables.

pub mod random;
pub mod tables;

/// What is lent to one run.
#[derive(Debug, Clone, PartialEq, Eq)]
pub struct Case {
    pub table: Vec<u32>,
    pub list: Vec<u32>,
    /// The answer space, holding words that a run must leave beyond its answers.
    pub answers: Vec<u32>,
    /// The words for the holders, which a run sets whatever they held.
    pub holders: Vec<u32>,
}
