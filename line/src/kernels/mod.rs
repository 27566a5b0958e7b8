//! What is tried, and how: the kernels across the C boundary and the layer of turns above
//! them, the words that they are lent, and the child process that they run in. For tests,
//! kernels with a fault each.

pub mod boundary;
pub mod child;
#[cfg(test)]
pub mod faulty;
pub mod layer;
pub mod lent;
pub mod process;
