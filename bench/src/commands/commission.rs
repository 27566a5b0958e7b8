//! `bench commission`: the checklist of `balkwizu commission` on kernels that it must pass and
//! on kernels that it must fail.

use std::ffi::OsString;

use crate::kernels::plain::{KERNELS, WRONG};
use line::commission;

pub const HELP: &str = "\
bench commission FILE [--kernel NAME] [OPTION]..

Goes through the checklist of `balkwizu commission` with a kernel of the bench:
the plain C kernel must pass, and one with a fault must fail on the check that
its file names. The other options are those of `balkwizu commission`.

  --kernel NAME  balkwizu (default), balkwizu-working, balkwizu-by-length,
                 plain-gcc, plain-clang, or wrong-NAME, which has the fault of
                 bench/c/wrong/NAME.edit

Exit status: 0 no check failed; 1 a check failed, or the input is refused; 2 bad
usage, or a file that can't be read or written; 3 no check failed and none was
shown.
";

/// The command: whether no check failed.
pub fn command(options: &[OsString]) -> Result<bool, String> {
    commission::command(options, &[KERNELS, WRONG].concat())
}
