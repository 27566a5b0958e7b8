#!/usr/bin/env python3
"""Shows that the tests of the reference implementation catch its mutants.

A mutant is the package with one fault put in, by an edit as edits.py has them.
The tests must pass with no fault switched on, and fail with each. The copy and its
build stand under build/mutants.

    python3 reference/mutants.py            all mutants
    python3 reference/mutants.py NAME...    some of them
"""

import shutil
import sys

from edits import PROPERTIES, ROOT, Copy, Wrong, edit_files, run, try_all

TESTS = "all"
SHOWN = {
    "noninterference": ("the views of domain",),
    "isolation": ("the views of domain", "the sets of domain"),
    "groups": ("the views of domain", "a wall is open"),
}

# The tests of the fault's own part are tried first, then those that draw little, which
# take no time and catch most of the rest, then those of the other parts, then all.
LITTLE = ["codes", "example", "rows", "queue", "influence", "linerun"]
PARTS = ["writer", "repair", "holders", "potential", "could_influence", "totals", "turns"]
PARTS += ["turn_words"]


def of(modules):
    return [f"{module}::" for module in modules]


DRAWN = [word for module in of(LITTLE + PARTS) for word in ("--skip", module)]

PROFILE = """
[profile.dev]
opt-level = 1
debug = false
lto = "off"
"""


def prepare():
    """A copy of the package without its programs, which none of these tests runs."""
    copy = Copy(ROOT / "build" / "mutants", ["reference"], PROFILE)
    package = copy.folder / "reference"
    shutil.rmtree(package / "src" / "bin")
    manifest = package / "Cargo.toml"
    manifest.write_text(manifest.read_text().partition("[[bin]]")[0])
    return copy


def make(copy):
    """The tests of the copy."""
    return copy.build(["test", "--no-run", "--test", TESTS], TESTS)


def run_tests(tests, fault, only):
    """Whether some tests pass, the names of those that fail, and all that they
    print."""
    ran = run([tests, "--test-threads=1", *only], fault)
    ends = " ... FAILED"
    lines = [line for line in ran.stdout.splitlines() if line.endswith(ends)]
    names = [line[len("test ") : -len(ends)] for line in lines]
    return ran.returncode == 0, names, ran.stdout + ran.stderr


def check_unedited(tests):
    """With no fault switched on all tests must pass."""
    passed, names, _ = run_tests(tests, 0, [])
    if not passed:
        raise Wrong(f"the tests fail: {', '.join(names)}")


def order(edit):
    """The tests that may catch a fault, in parts, each tried where those before it don't."""
    own = [part for part in PARTS if edit["file"] == f"src/{part}.rs"]
    others = [part for part in PARTS if part not in own]
    return [of(part) for part in (own, LITTLE, others) if part] + [DRAWN]


def catch(tests, fault, name, edit):
    """The tests that catch the mutant."""
    catcher = edit["caught-by"]
    by_property = catcher in PROPERTIES
    for only in [of([catcher])] if by_property else order(edit):
        passed, names, printed = run_tests(tests, fault, only)
        if not passed:
            break
    if passed or not names:
        raise Wrong("isn't caught")
    if by_property and not any(words in printed for words in SHOWN[catcher]):
        raise Wrong("nothing is shown that differs or is open")
    more = f" and {len(names) - 1} more" if len(names) > 1 else ""
    return f"caught by {names[0]}{more} ({catcher})"


if __name__ == "__main__":
    try_all(edit_files(sys.argv[1:]), prepare(), make, check_unedited, catch)
