//! Every kernel of this program: the runs of the proved archive, the plain C kernel that they
//! are measured against, and kernels with a fault each.

use line::kernel;
use line::kernels::boundary::{named, Kernel, BY_LENGTH, PROVED, WORKING};

/// The plain C kernel as gcc -O3 makes it.
pub const PLAIN_GCC: Kernel = kernel!(
    "plain-gcc",
    "plain C, gcc -O3",
    plain_gcc_table_check,
    plain_gcc_run
);

/// The plain C kernel as clang -O3 makes it.
#[cfg(clang)]
pub const PLAIN_CLANG: Kernel = kernel!(
    "plain-clang",
    "plain C, clang -O3",
    plain_clang_table_check,
    plain_clang_run
);

/// Every kernel of this program, the proved ones first.
pub const KERNELS: &[Kernel] = &[
    PROVED,
    WORKING,
    BY_LENGTH,
    PLAIN_GCC,
    #[cfg(clang)]
    PLAIN_CLANG,
];

/// Kernels with a fault each, of bench/c/wrong: commissioning and fuzz must find it.
pub const WRONG: &[Kernel] = include!(concat!(env!("OUT_DIR"), "/wrong.rs"));

/// The kernel that has the name, a right one or a wrong one.
pub fn kernel(name: &str) -> Result<Kernel, String> {
    named(name, &[KERNELS, WRONG].concat())
}

#[cfg(test)]
mod tests {
    use super::*;
    use line::kernels::boundary::Outcome;
    use reference::example::{LIST_L, TABLE_T};

    /// Who has a right on each domain once L has run on T: a bit for each holder.
    const HOLDERS_AFTER_L: [u32; 3] = [0b010, 0b001, 0b011];

    #[test]
    fn every_kernel_runs_the_worked_example() {
        for kernel in KERNELS {
            let mut table = TABLE_T;
            let mut answers = [7; 28];
            let mut holders = [7; 3];
            let outcome = kernel.run(&mut table, &LIST_L, &mut answers, &mut holders);
            assert_eq!(outcome, Outcome { code: 0, calls: 9 }, "{}", kernel.name);
            assert_eq!(holders, HOLDERS_AFTER_L, "{}", kernel.name);
            assert_eq!(answers[12..15], [0x3080_0000, 6, 1], "{}", kernel.name);
            assert_eq!(answers[27], 7, "{}", kernel.name);
        }
    }

    #[test]
    fn every_kernel_checks_bytes() {
        for kernel in KERNELS {
            let bytes = reference::words::to_bytes(&TABLE_T);
            assert_eq!(kernel.table_check(&bytes), 0, "{}", kernel.name);
            assert_eq!(kernel.table_check(&bytes[1..]), 2, "{}", kernel.name);
            assert_eq!(kernel.table_check(&bytes[..135]), 3, "{}", kernel.name);
            assert_eq!(kernel.table_check(&[]), 2, "{}", kernel.name);
        }
    }

    #[test]
    fn a_kernel_is_found_by_its_name() {
        assert_eq!(kernel("plain-gcc").unwrap().title, "plain C, gcc -O3");
        let wrong = kernel("fast").err().unwrap();
        assert!(
            wrong.contains("balkwizu, balkwizu-working, balkwizu-by-length, plain-gcc"),
            "{wrong}"
        );
    }
}
