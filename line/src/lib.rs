//! What both programs have: a line's table and its list of calls as text and in words, the
//! proved archives behind the C boundary, the comparison with the reference, the checklist
//! and its report, and pictures.

pub mod args;
pub mod cases;
pub mod clock;
#[cfg(not(test))]
mod closed;
pub mod commission;
pub mod judging;
pub mod kernels;
pub mod output;
pub mod pictures;
pub mod program;
pub mod progress;
pub mod refused;
pub mod reports;
pub mod scratch;
pub mod text;
pub mod trial;
