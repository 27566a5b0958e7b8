//! The commands of the program, one file each: what is given on the line, what is done with
//! it, and the help. And what several of them have in common.

pub mod commission;
mod compared;
mod drawn;
pub mod fuzz;
pub mod histories;
pub mod instructions;
pub mod linerun;
pub mod queue;
pub mod speed;
pub mod step;
pub mod tables;
pub mod totals;
