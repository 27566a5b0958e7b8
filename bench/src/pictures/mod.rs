//! Measured speeds as tables, over several runs too, and as a plot.

pub mod merged;
pub mod plot;
