"""Edits of the reference implementation, tried in copies of it: what mutants.py
and bench/planted_faults.py share.

An edit puts one fault in. It is a file mutants/NAME.edit:

    what: one line that says what the fault is
    file: src/machine.rs
    caught-by: noninterference
    --- old
        whole lines of the file, exactly as they stand
    --- new
        the lines that take their place, or none

The old lines must occur exactly once in the file. `caught-by` names the test
that must fail: `noninterference` is the property test of the striking rule by
itself, which must show two views that differ; `isolation` is that of the rule
between two lines, which must show two views or two sets that differ; `groups` is
that of the walls, which must show two views that differ or a wall that is open;
`any` is any test at all.

An edit alters the bodies of functions and nothing else. So one copy of the
package is built with all faults in it, each behind a switch: a function that a
fault alters has the altered body too, and runs that where the environment's
REFERENCE_FAULT is the fault's number. With no fault switched on the copy must do
what it should. As many faults are tried at a time as there are processors. One
line is printed for each, in the order of their names, and at the end `N passed,
M failed`; the exit status is 0 only if M is 0.
"""

import json
import os
import re
import shutil
import subprocess
import sys
import time
from concurrent.futures import ThreadPoolExecutor
from pathlib import Path

ROOT = Path(__file__).resolve().parent.parent
REFERENCE = ROOT / "reference"
EDITS = REFERENCE / "mutants"
PROPERTY = "noninterference"
PROPERTIES = (PROPERTY, "isolation", "groups")
SECONDS = 600


class Wrong(Exception):
    """A fault that didn't show as it must, or an edit file that isn't one."""


def read_edit(path):
    """The fields of an edit file: what, file, caught-by, old and new."""
    head, divided, body = path.read_text().partition("--- old\n")
    old, divided_again, new = body.partition("--- new\n")
    if not divided or not divided_again:
        raise Wrong("needs a line `--- old` and a line `--- new`")
    edit = {"old": old, "new": new}
    for line in head.splitlines():
        key, _, value = line.partition(": ")
        edit[key] = value
    if set(edit) != {"what", "file", "caught-by", "old", "new"}:
        raise Wrong("needs just what, file and caught-by before `--- old`")
    if edit["caught-by"] not in (*PROPERTIES, "any"):
        raise Wrong(f"caught-by is {', '.join(PROPERTIES)} or any")
    return edit


def edited(edit, text):
    """The text of the edit's file once the edit is made."""
    found = text.count(edit["old"]) if edit["old"] else 0
    if found != 1:
        raise Wrong(f"the old lines occur {found} times in {edit['file']}")
    if edit["old"] == edit["new"]:
        raise Wrong("the edit changes nothing")
    return text.replace(edit["old"], edit["new"])


FUNCTION = re.compile(r"( *)(pub(\(\w+\))? )?fn \w+")


def pieces(text):
    """A file cut at the bodies of its functions: what stands outside of them and a
    body, in turn. It is as rustfmt lays it out."""
    cut, piece, indent, close = [], [], None, None
    for line in text.splitlines(keepends=True):
        if close is not None and line != close:
            piece.append(line)
            continue
        if close is not None:
            cut.append("".join(piece))
            piece, close = [], None
        found = FUNCTION.match(line)
        indent = found[1] if found else indent
        piece.append(line)
        if indent is not None and line.endswith("{\n"):
            cut.append("".join(piece))
            piece, close, indent = [], f"{indent}}}\n", None
    return cut + ["".join(piece)]


def switched(text, faults):
    """A file with faults behind switches: `faults` are their numbers and edits."""
    cut = pieces(text)
    switches = [""] * len(cut)
    for number, edit in faults:
        other = pieces(edited(edit, text))
        if len(other) != len(cut) or other[::2] != cut[::2]:
            raise Wrong(f"alters more than bodies of functions: {edit['what']}")
        for place in range(1, len(cut), 2):
            if other[place] != cut[place]:
                body = f"return {{\n{other[place]}}};\n"
                switches[place] += f"if crate::fault::is({number}) {{\n{body}}}\n"
    return "".join(switch + piece for switch, piece in zip(switches, cut))


SWITCH = """//! Which fault is switched on.

pub fn is(number: u32) -> bool {
    static ON: std::sync::OnceLock<u32> = std::sync::OnceLock::new();
    let read = || std::env::var("REFERENCE_FAULT").map_or(0, |on| on.parse().unwrap());
    *ON.get_or_init(read) == number
}
"""


class Copy:
    """A fresh copy of some packages, in a workspace and a build of its own."""

    def __init__(self, folder, packages, profile):
        self.folder = folder
        for package in packages:
            shutil.rmtree(folder / package, ignore_errors=True)
            # new times, so that nothing built from another copy passes for current
            shutil.copytree(
                ROOT / package,
                folder / package,
                ignore=shutil.ignore_patterns("mutants", "*.py", "__pycache__"),
                copy_function=shutil.copy,
            )
        members = f'[workspace]\nmembers = {json.dumps(packages)}\nresolver = "2"\n'
        release = (ROOT / "VERSION").read_text().strip()
        members += f'\n[workspace.package]\nversion = "{release}"\n'
        (folder / "Cargo.toml").write_text(members + profile)

    def put_in(self, faults):
        """Puts faults in, given by their numbers and edits, each behind its switch."""
        package = self.folder / "reference"
        for file in {edit["file"] for _, edit in faults}:
            text = (REFERENCE / file).read_text()
            own = [fault for fault in faults if fault[1]["file"] == file]
            (package / file).write_text(switched(text, own))
        (package / "src" / "fault.rs").write_text(SWITCH)
        with (package / "src" / "lib.rs").open("a") as root:
            root.write("\nmod fault;\n")

    def build(self, words, target):
        """The program that a cargo command makes of a target."""
        command = ["cargo", *words, "--offline", "--quiet"]
        command += ["--target-dir", self.folder / "target"]
        command += ["--message-format", "json-render-diagnostics"]
        built = subprocess.run(
            command, cwd=self.folder, capture_output=True, text=True
        )
        if built.returncode != 0:
            raise Wrong(f"doesn't compile:\n{built.stderr}")
        for line in built.stdout.splitlines():
            message = json.loads(line) if line.startswith("{") else {}
            if message.get("executable") and message["target"]["name"] == target:
                return message["executable"]
        raise Wrong(f"cargo makes no {target}")


def run(command, fault):
    """A command run to its end with a fault switched on, or none where that is 0: its
    status and what it printed."""
    try:
        return subprocess.run(
            command,
            env=dict(os.environ, RUST_BACKTRACE="0", REFERENCE_FAULT=str(fault)),
            capture_output=True,
            text=True,
            timeout=SECONDS,
        )
    except subprocess.TimeoutExpired:
        raise Wrong(f"doesn't end within {SECONDS} s") from None


def in_order(workers, function, items):
    """function(item) for each item, in order, as many at a time as workers."""
    pool = ThreadPoolExecutor(workers)
    try:
        yield from pool.map(function, items)
    finally:
        pool.shutdown(cancel_futures=True)


def tried(judge, program, fault):
    """Whether a fault shows as it must, and the line that says so."""
    number, name, edit = fault
    start = time.monotonic()
    try:
        reported = judge(program, number, name, edit)
    except Wrong as wrong:
        return False, f"FAILED  {name}: {wrong}"
    seconds = time.monotonic() - start
    return True, f"ok      {name} ({seconds:.1f} s): {reported}"


def edit_files(wanted):
    """The files of the edits that are wanted by name, or of all of them."""
    paths = sorted(EDITS.glob("*.edit"))
    if wanted:
        paths = [EDITS / f"{name}.edit" for name in wanted]
    missing = [path.stem for path in paths if not path.is_file()]
    if missing or not paths:
        sys.exit(f"no such edit: {' '.join(missing)}")
    return paths


def try_all(paths, copy, make, check_unedited, judge):
    """Tries every edit and ends the program.

    make(copy) gives the program of the copy once the faults are in it,
    check_unedited(program) raises Wrong where it doesn't do what it should with no
    fault switched on, and judge(program, number, name, edit) gives what to report of a
    fault that is switched on by its number, or raises Wrong where it doesn't show.
    """
    try:
        faults = [(at, path.stem, read_edit(path)) for at, path in enumerate(paths, 1)]
        copy.put_in([(number, edit) for number, _, edit in faults])
        program = make(copy)
        check_unedited(program)
    except Wrong as wrong:
        sys.exit(f"without a fault: {wrong}")
    passed = 0
    workers = min(os.cpu_count() or 1, len(paths))
    for shown, line in in_order(workers, lambda fault: tried(judge, program, fault), faults):
        print(line, flush=True)
        passed += shown
    print(f"{passed} passed, {len(paths) - passed} failed")
    sys.exit(0 if passed == len(paths) else 1)
