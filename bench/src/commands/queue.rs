//! `bench queue`: the proved queue's send and receive beside the reference, on
//! any words in the place of an endpoint's twelve.

use std::ffi::OsString;

use crate::commands::drawn::Drawn;
use crate::judging::queues::{met, try_queues};
use crate::kernels::for_tests::PROVED_QUEUE;

pub const HELP: &str = "\
bench queue [--cases N] [--seed S] [--from K] [--time T]

Lends random words to the proved queue's send and to its receive, and compares
every word with what the reference leaves. The words are mostly twelve, with a
capacity and a waiting count near what an endpoint can have, and anything in the
slots, also after the waiting count.

  --cases N  words to try (default 100,000)
  --seed S   the seed that everything is drawn from (default 1)
  --from K   the number of the first ones (default 0)
  --time T   the processor seconds that one send or receive may take (default
             10)

The first difference ends it. The functions run in a child process: one that
faults, that takes longer or that ends the program is reported as STOPPED.

From 10,000 words on, a case that was never met is a failure too: each waiting
count with other slots than empty ones after it, a send with space, to a full
queue and with the lost count at its top, and words that each of the two leaves
as they are.

The functions are in the archive of the crate test_export
(`firmware/make-archive test_export`), which the program is built with where it
is there.

Exit status: 0 nothing differs, and everything was met where that is asked; 1
otherwise; 2 bad usage, or a program built without the queue's functions.
";

pub const QUEUES: Drawn = Drawn {
    all: "queues",
    one: "case",
    cases: 100_000,
    enough: 10_000,
    met,
};

/// The command: whether nothing differs.
pub fn command(line: &[OsString]) -> Result<bool, String> {
    let queue = PROVED_QUEUE.ok_or(
        "this program was built without the queue's functions: \
         `firmware/make-archive test_export`, then build it again",
    )?;
    QUEUES.command(line, |draws, met| try_queues(&queue, draws, met))
}
