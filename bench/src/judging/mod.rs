//! How the kernel and the programs are judged beyond the checklist: single calls, single
//! queues, functions of a table alone, histories of turns, what a program prints, and how
//! long it takes and how many instructions, at worst too.

pub mod growth;
pub mod histories;
pub mod influences;
pub mod instructions;
pub mod jobs;
pub mod lengths;
pub mod one_after_another;
pub mod potentials;
pub mod printed;
pub mod program_times;
pub mod queues;
pub mod repairs;
pub mod rows;
pub mod steps;
pub mod timing;
pub mod turn_times;
pub mod worst;
#[cfg(test)]
mod wrong_kernels;
