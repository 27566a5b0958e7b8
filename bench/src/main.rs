//! `bench`: differential runs and benchmarks of the proved kernel and its programs. Its help
//! says what each command is for.

mod cases;
mod commands;
mod judging;
mod kernels;
mod pictures;

use std::process::ExitCode;

use commands::{
    commission, fuzz, histories, instructions, linerun, queue, speed, step, tables, totals,
};
use line::program::{Command, Program};

const FOOT: &str = "\
Exit status: 0 all is well; 1 something failed or differs; 2 bad usage, a file
that can't be read or written, or a closed pipe: nobody reads what is printed
any more.
";

const PROGRAM: Program = Program {
    name: "bench",
    purpose: "differential runs and benchmarks of the proved kernel",
    foot: FOOT,
    commands: &[
        Command {
            name: "fuzz",
            given: "",
            purpose: "random runs beside the reference",
            help: fuzz::HELP,
            act: fuzz::command,
        },
        Command {
            name: "step",
            given: "",
            purpose: "single calls beside the reference",
            help: step::HELP,
            act: step::command,
        },
        Command {
            name: "queue",
            given: "",
            purpose: "the queue's functions on any words",
            help: queue::HELP,
            act: queue::command,
        },
        Command {
            name: "tables",
            given: "",
            purpose: "functions of a table alone, on random words",
            help: tables::HELP,
            act: tables::command,
        },
        Command {
            name: "histories",
            given: "",
            purpose: "random turns beside the reference",
            help: histories::HELP,
            act: histories::command,
        },
        Command {
            name: "linerun",
            given: "PROGRAM",
            purpose: "the program linerun beside the reference",
            help: linerun::HELP,
            act: linerun::command,
        },
        Command {
            name: "totals",
            given: "PROGRAM",
            purpose: "the program linetotals beside the reference",
            help: totals::HELP,
            act: totals::command,
        },
        Command {
            name: "commission",
            given: "FILE",
            purpose: "the checklist on an input of linerun",
            help: commission::HELP,
            act: commission::command,
        },
        Command {
            name: "speed",
            given: "",
            purpose: "the proved kernel's speed beside plain C",
            help: speed::HELP,
            act: speed::command,
        },
        Command {
            name: "instructions",
            given: "",
            purpose: "the proved functions' instructions, held to figures",
            help: instructions::HELP,
            act: instructions::command,
        },
    ],
};

fn main() -> ExitCode {
    PROGRAM.main()
}
