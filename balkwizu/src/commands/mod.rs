//! The commands of the program, one file each: what is given on the line, what is done with
//! it, and the help.

pub mod check;
pub mod codes;
pub mod commission;
pub mod compare;
pub mod influence;
pub mod read;
pub mod repair;
pub mod run;
pub mod shift;
pub mod show;
pub mod turns;
pub mod write;
