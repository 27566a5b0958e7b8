#!/usr/bin/env python3
"""Shows that `bench fuzz`, `bench step`, `bench queue`, `bench tables`, `bench
histories` and `balkwizu influence` report a difference when there is one.

The faults are those of the reference implementation's own mutants, by edits as
reference/edits.py has them. The programs are built against a copy of the separate
implementation with the faults in it, and with each of them switched on the same
seeded fuzz must end with a reported difference between that and the kernel. What it
says to see it again must show it with the kernel's working run too, and the same seeded
steps must report the fault where it is one of a single call. A fault that shows only on
words that no check accepts must be reported by the same seeded queues, one of a repair,
of potential rights or of who could influence a domain by the same seeded tables, one of
turns by the same seeded histories, one of the writer by the fuzz's lists alone, and one
of a source set that leaves every view equal by `balkwizu influence` on an example. With none
switched on all must pass. A panic, a run that doesn't end and a code never met are no
reported difference, and none may be reported as one that is right when it is tried alone.

    python3 bench/planted_faults.py            all faults
    python3 bench/planted_faults.py NAME...    some of them

The copy and its build stand under build/planted. The kernel is the archive
crates/balkwizu/out/libbalkwizu.a, or the one that BALKWIZU_ARCHIVE names; its turns,
its step and its queue are those of the crates balkwizu_turns and test_export, or what
BALKWIZU_TURNS_ARCHIVE and BALKWIZU_TEST_ARCHIVE name.
"""

import os
import sys
from fnmatch import fnmatch
from pathlib import Path

sys.path.insert(0, str(Path(__file__).resolve().parent.parent / "reference"))
from edits import ROOT, Copy, Wrong, edit_files, run, try_all  # noqa: E402

ARCHIVES = {
    "BALKWIZU_ARCHIVE": "balkwizu",
    "BALKWIZU_TURNS_ARCHIVE": "balkwizu_turns",
    "BALKWIZU_TEST_ARCHIVE": "test_export",
}
FUZZ = "fuzz --seed 20 --cases 10000 --table-checks 10000 --lists 0".split()
WORKING = "fuzz --seed 20 --cases 500 --table-checks 0 --kernel balkwizu-working".split()
LISTS = "fuzz --seed 20 --cases 0 --table-checks 0 --lists 600".split()
TABLES = "tables --seed 20 --cases 10000".split()
STEP = ["step", "--seed", "20", "--cases", "5000"]
QUEUE = ["queue", "--seed", "20", "--cases", "10000"]
HISTORIES = ["histories", "--seed", "20", "--cases", "1000"]
INFLUENCE = ["influence", str(ROOT / "balkwizu" / "examples" / "influence.txt")]
LEAST = 20
AGAIN = "To see it again: bench "

# What a report of a fault may not say: that it comes only after what was tried before,
# since neither side keeps anything, or that the reference panics.
BEHIND = "Only after those before it"
PANICS = "the reference panics"

# Faults that no comparison with the kernel can show, by name, each with why. They
# are caught by the tests of the reference implementation itself.
UNSEEN = {
    "agree_*": "the second table of a pair of lines is drawn so that it agrees",
    "group_keeps_*": "a stray and a call of nobody alter nothing",
    "linerun_*": "linerun's reading: the fuzz runs the library",
    "potential_list_*": "lists that are longer than they need be",
    "totals_*": "sheets, which a program of its own prints",
    "view_*": "the same view is taken of both runs",
    "send_past_the_slots_fills_the_last": "words that can't be served, where the "
    "papers leave the answer free",
}

# Faults that another command than the fuzz of runs shows. On an accepted table the slots
# from the waiting count on are empty, so queues of any words show what becomes of others.
# A reader that tests the caller shows in no run, since a caller above the largest table's
# is refused with 12 there. What a step does to the holders' words isn't what a run does.
# A set that is another one but leaves every view equal shows where influence is shown, which
# is found without the reference: of a call that is refused or that gives up its
# caller's own right, and where everything is kept.
BY_ANOTHER = {
    "columns_*": LISTS,
    "could_influence_*": TABLES,
    "influence_list_*": TABLES,
    "holders_of_the_caller_alone": STEP,
    "potential_*": TABLES,
    "purge_keeps_everything": INFLUENCE,
    "receive_clears_the_slots_from_the_free_one_on": QUEUE,
    "receive_moves_all_eight": QUEUE,
    "receive_up_to_the_capacity": QUEUE,
    "read_tests_the_caller": LISTS,
    "repair_*": TABLES,
    "sources_by_the_table_after_the_call": INFLUENCE,
    "sources_without_refused_calls": INFLUENCE,
    "turns_*": HISTORIES,
    "writer_*": LISTS,
}

# Faults that steps don't show, which run one call and check the table before it.
UNSEEN_BY_STEPS = {
    "bytes_*": "the check of bytes",
    "cut_*": "the cutting of a list",
    "entry_*": "the entry of a run",
    "group_*": "what hangs together",
    "holders_cleared_when_refused": "the entry of a run",
    "holders_more_than_n_pass": "the entry of a run",
    "holders_stay_where_no_call_is_done": "the entry of a run",
    "members_*": "pairs of lines",
    "purge_*": "the striking rule",
    "reach_*": "questions about the holders",
    "read_*": "calls as values",
    "shortcut_influence_from_last_table": "the striking rule",
    "shortcut_refused_send_gives_up_second_word": "the cutting of a list",
    "sources_*": "the striking rule",
}

PROFILE = """
[profile.release]
opt-level = 1
debug = false
codegen-units = 16

[profile.release.package.balkwizu]
opt-level = 0

[profile.release.package.balkwizu-bench]
opt-level = 0
"""


def prepare():
    """A copy of all packages."""
    return Copy(ROOT / "build" / "planted", ["reference", "line", "balkwizu", "bench"], PROFILE)


def make(copy):
    """Both programs, built against the copy: the path of the bench."""
    return copy.build(["build", "--release", "-p", "balkwizu", "-p", "balkwizu-bench"], "bench")


def ran_by(bench, command, fault):
    """A command run by the program that has it, with a fault switched on."""
    program = Path(bench).with_name("balkwizu") if command == INFLUENCE else bench
    return run([program, *command], fault)


def check_unedited(bench):
    """Against the reference implementation as it stands all must pass."""
    for command in FUZZ, WORKING, LISTS, STEP, QUEUE, TABLES, HISTORIES, INFLUENCE:
        ran = ran_by(bench, command, 0)
        if ran.returncode != 0:
            raise Wrong(f"{command[0]} fails:\n{ran.stdout}{ran.stderr}")


def reports(bench, command, fault):
    """The lines that a command prints with the fault switched on, from the difference
    on."""
    ran = ran_by(bench, command, fault)
    lines = ran.stdout.splitlines()
    found = [i for i, line in enumerate(lines) if line.startswith("DIFFERENCE")]
    if ran.returncode != 1 or not found:
        status = f"exit status {ran.returncode}"
        raise Wrong(f"{' '.join(command)} reports no difference ({status})")
    if any(line.startswith(BEHIND) for line in lines):
        raise Wrong(f"{' '.join(command)} says that it is right alone")
    if PANICS in lines[found[0] + 1]:
        raise Wrong(f"{' '.join(command)} reports a panic, and no difference")
    return lines[found[0] :]


def difference(bench, command, fault):
    """What a command reports with the fault switched on."""
    return reports(bench, command, fault)[1].strip()


def difference_by_both(bench, fault):
    """What the fuzz reports with the kernel's own run; the same must be seen again with
    its working run."""
    lines = reports(bench, FUZZ, fault)
    again = [line for line in lines if line.startswith(AGAIN)]
    if not again:
        raise Wrong("the fuzz doesn't say how to see it again")
    command = again[0].removeprefix(AGAIN).split()
    difference(bench, ["balkwizu-working" if word == "balkwizu" else word for word in command], fault)
    return lines[1].strip()


def reported(bench, fault, name, edit):
    """What another command reports, or the fuzz, and the steps where the fault is one
    of a call."""
    for pattern, command in BY_ANOTHER.items():
        if fnmatch(name, pattern):
            return f"by {command[0]}: {difference(bench, command, fault)}"
    found = difference_by_both(bench, fault)
    if not any(fnmatch(name, pattern) for pattern in UNSEEN_BY_STEPS):
        found += f"; by steps: {difference(bench, STEP, fault)}"
    return found


def unseen(path):
    """Whether the fault is one that no comparison with the kernel can show."""
    return any(fnmatch(path.stem, pattern) for pattern in UNSEEN)


def main():
    wanted = sys.argv[1:]
    paths = [path for path in edit_files(wanted) if wanted or not unseen(path)]
    if not wanted and len(paths) < LEAST:
        sys.exit(f"only {len(paths)} faults: there must be {LEAST}")
    for name, crate in ARCHIVES.items():
        archive = ROOT / "crates" / crate / "out" / f"lib{crate}.a"
        named = os.environ.get(name, archive)
        os.environ[name] = str(Path(named).absolute())
    try_all(paths, prepare(), make, check_unedited, reported)


if __name__ == "__main__":
    main()
