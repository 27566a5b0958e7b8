//! `balkwizu`: plans, checks, commissions and repairs a line's table, and plays its lists. Its
//! help says what each command is for.

mod commands;

use std::process::ExitCode;

use commands::{
    check, codes, commission, compare, influence, read, repair, run, shift, show, turns, write,
};
use line::program::{Command, Program};

const FOOT: &str = "\
FILE is an input of linerun, or a text that `write` takes; for `turns` it is a
text of its own. `-` is standard input, and after `--` are no options.
Exit status: 0 all is well; 1 something failed, was refused or differs; 2 bad
usage, a file that can't be read or written, or a closed pipe.
";

const PROGRAM: Program = Program {
    name: "balkwizu",
    purpose: "a line's table and its list of calls, planned, tried and commissioned",
    foot: FOOT,
    commands: &[
        Command {
            name: "show",
            given: "FILE",
            purpose: "an input in words and as a picture",
            help: show::HELP,
            act: show::command,
        },
        Command {
            name: "check",
            given: "FILE",
            purpose: "what is wrong with a line, before anything runs",
            help: check::HELP,
            act: check::command,
        },
        Command {
            name: "run",
            given: "FILE",
            purpose: "the list on the kernel, and what it leaves in files",
            help: run::HELP,
            act: run::command,
        },
        Command {
            name: "commission",
            given: "FILE",
            purpose: "the checklist on an input of linerun",
            help: commission::HELP,
            act: commission::command,
        },
        Command {
            name: "influence",
            given: "FILE",
            purpose: "whose calls count for whom, in this list and ever",
            help: influence::HELP,
            act: influence::command,
        },
        Command {
            name: "write",
            given: "FILE",
            purpose: "a text to an input: a line in words, or its words",
            help: write::HELP,
            act: write::command,
        },
        Command {
            name: "read",
            given: "FILE",
            purpose: "an input or a card back to a text",
            help: read::HELP,
            act: read::command,
        },
        Command {
            name: "repair",
            given: "IN [OUT]",
            purpose: "a damaged table made fit again",
            help: repair::HELP,
            act: repair::command,
        },
        Command {
            name: "compare",
            given: "CARD PLAN",
            purpose: "what differs between two tables, in words",
            help: compare::HELP,
            act: compare::command,
        },
        Command {
            name: "turns",
            given: "FILE",
            purpose: "calls handed in one by one, served by turns",
            help: turns::HELP,
            act: turns::command,
        },
        Command {
            name: "shift",
            given: "LINE ..",
            purpose: "lists one after another, and the sheet of the shift",
            help: shift::HELP,
            act: shift::command,
        },
        Command {
            name: "codes",
            given: "[CODE]..",
            purpose: "what the numbers of refusals mean",
            help: codes::HELP,
            act: codes::command,
        },
    ],
};

fn main() -> ExitCode {
    PROGRAM.main()
}
