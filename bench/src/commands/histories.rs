//! `bench histories`: random histories of turns, the proved layer beside the reference.

use std::ffi::OsString;

use crate::commands::drawn::Drawn;
use crate::judging::histories::{met, try_histories};
use line::kernels::layer::PROVED_LAYER;

pub const HELP: &str = "\
bench histories [--cases N] [--seed S] [--from K] [--time T]

Plays random histories of turns: domains hand in calls and turns serve them, on
the proved layer and on the reference, and compares the code and every word that
is lent, of the table, the state, the holders and the answer, after each event.
Some tables are damaged, some states are such as no history makes or have
another length, some calls are none or another's, and answers and holders now
and then get too few or too many words. `balkwizu turns` plays a history that is
written by hand.

While only handing in and turns alter the state, the oldest call of a domain may
wait no longer than as many turns as there are domains, n, and one that is
handed in after k others no longer than 1 + k times n, so 16 n at the most; and
the calls served must be answered as a run of them as one list answers them. The
last four lines show the longest waits that were seen for each number of domains
beside the bounds. In half of the histories each event is lent the holders that
the one before it left: they must be what the table says after every event.

  --cases N  histories to play (default 10,000)
  --seed S   the seed that everything is drawn from (default 1)
  --from K   the number of the first one (default 0)
  --time T   the processor seconds that one may take (default 10)

From 1,000 on every code, every kind of damage and, for each number of domains,
a wait of as many turns must be met.

Exit status: 0 nothing differs; 1 something differs, stops or was never met; 2
bad usage.
";

pub const HISTORIES: Drawn = Drawn {
    all: "histories",
    one: "case",
    cases: 10_000,
    enough: 1_000,
    met,
};

/// The command: whether nothing differs.
pub fn command(line: &[OsString]) -> Result<bool, String> {
    HISTORIES.command(line, |draws, met| try_histories(&PROVED_LAYER, draws, met))
}
