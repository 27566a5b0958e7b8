//! `bench step`: the proved kernel's public step beside the reference's, one
//! call at a time.

use std::ffi::OsString;

use crate::commands::drawn::Drawn;
use crate::judging::steps::{met, try_steps};
use crate::kernels::for_tests::PROVED_STEP;

pub const HELP: &str = "\
bench step [--cases N] [--seed S] [--from K] [--time T]

Feeds the calls of random lists one by one to the proved kernel's public step,
and to the reference, and compares the code, the answer words, every table word,
the holders' words and the words around them after each call. Tables are sound
or damaged, answer spaces large enough or not, the holders' words as many as
domains or not; some calls get a second word that no list gives them: a kind
that takes none gets one, or it is of another kind than 15.

  --cases N  tables and lists to try (default 20,000)
  --seed S   the seed that everything is drawn from (default 1)
  --from K   the number of the first one (default 0)
  --time T   the processor seconds that one list may take (default 10)

The first difference ends it, with the table before the call and the call's
words as `balkwizu write` takes them. The step runs in a child process: one that
faults, that takes longer or that ends the program is reported in the same way,
as STOPPED.

From 5,000 lists on, a code that no call met is a failure too, and so is a
second word of either sort that was never given.

The step is in the archive of the crate test_export (`firmware/make-archive
test_export`), which the program is built with where it is there.

Exit status: 0 nothing differs, and everything was met where that is asked; 1
otherwise; 2 bad usage, or a program built without the step.
";

pub const STEPS: Drawn = Drawn {
    all: "steps",
    one: "list",
    cases: 20_000,
    enough: 5_000,
    met,
};

/// The command: whether nothing differs.
pub fn command(line: &[OsString]) -> Result<bool, String> {
    let step = PROVED_STEP.ok_or(
        "this program was built without the step: `firmware/make-archive test_export`, \
         then build it again",
    )?;
    STEPS.command(line, |draws, met| try_steps(step, draws, met))
}
