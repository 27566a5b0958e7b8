//! `bench tables`: functions of a table alone, on random words, beside the reference.

use std::ffi::OsString;

use crate::commands::drawn::Drawn;
use crate::judging::influences::{self, try_influences};
use crate::judging::potentials::{self, try_potentials};
use crate::judging::repairs::{self, try_repairs};
use line::kernels::boundary::{could_influence, potential, repair};

pub const HELP: &str = "\
bench tables [--cases N] [--seed S] [--from K] [--time T]

Tries the proved kernel's functions of a table alone on random tables, beside
the reference: repairs of worn tables, damaged by one bit, by runs of words as a
worn card gives them, or in many words. What is repaired must pass the table's
check, and the list of what was altered must put the old table back. And
potential rights: lists by the actors must give nobody more, and a list is built
for each table that gives them all. And who could influence a domain: lists by
the actors must have no other source, the domain must see the same without the
calls of others, and a list is built for each table that has all sources.

  --cases N  tables to try (default 20,000)
  --seed S   the seed that they are drawn from (default 1)
  --from K   the number of the first one (default 0)
  --time T   the processor seconds that one may take (default 10)

From 10,000 on everything that is tried for must be met.

Exit status: 0 nothing differs; 1 something differs, stops or was never met; 2
bad usage.
";

pub const TABLES: Drawn = Drawn {
    all: "tables",
    one: "table",
    cases: 20_000,
    enough: 10_000,
    met: || repairs::met().and(potentials::met()).and(influences::met()),
};

/// The command: whether nothing differs.
pub fn command(line: &[OsString]) -> Result<bool, String> {
    TABLES.command(line, |draws, met| {
        try_repairs(repair, draws, met)?;
        try_potentials(potential, draws, met)?;
        try_influences(could_influence, draws, met)
    })
}
