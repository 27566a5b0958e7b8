//! What is tried beside the proved archives: the plain C kernel, kernels with a fault each,
//! the functions of archives for tests, and another program run on an input.

pub mod for_tests;
pub mod plain;
pub mod program;
