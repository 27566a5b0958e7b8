"""What the scripts ask of the kit: where it lies, what a crate is checked and built over, and checks of copies.

A crate is checked over its libraries, crates/NAME/out/rlib/NAME.rlib. `rt ci` leaves them as it proved them, and the scripts of the
gate take them so. Where one isn't there, is older than its sources, or is what other commands of rt keep (these leave a stamp beside
it), `rt check` brings all of them up to date first."""
import functools
import os
import pathlib
import shutil
import subprocess
import tempfile

import gate

PARTS = ("src", "specs", "proofs")
JOBS = os.cpu_count() or 1


class Bad(Exception):
    """An edit that can't be applied."""


@functools.lru_cache(maxsize=None)
def place():
    """The kit's folder, in which lies the page that `rt doc` names."""
    said = subprocess.run(["rt", "doc"], capture_output=True, text=True, check=True).stdout
    return pathlib.Path(said.strip()).resolve().parent


def below(root, crate):
    """The libraries of the repository that a crate stands on, and those of the kit, each with all that they stand on."""
    listed = gate.cited((root / "crates.txt").read_text(encoding="utf-8"))
    own, of_kit, left = [], [], list(listed[crate])
    while left:
        name = left.pop(0)
        if name not in own + of_kit:
            (own if name in listed else of_kit).append(name)
            left += listed.get(name, [])
    return own, of_kit


def rlib(root, crate):
    return root / "crates" / crate / "out/rlib" / f"{crate}.rlib"


def newest(folder):
    """When a file of a crate's sources was last written."""
    return max((path.stat().st_mtime for part in PARTS for path in (folder / part).rglob("*") if path.is_file()), default=0)


def is_left_by_rt_ci(root, crate):
    """Whether a library is there as `rt ci` left it, and was made after its sources."""
    made = rlib(root, crate)
    return made.is_dir() and not (made.parent / "stamp").exists() and newest(made.parents[2]) <= made.stat().st_mtime


def prepare(root, crate):
    """Sees to it that the libraries below a crate are there, and returns what was said where that fails."""
    if all(is_left_by_rt_ci(root, name) for name in below(root, crate)[0]):
        return ""
    ran = subprocess.run(["rt", "check"], cwd=root / "crates" / crate, capture_output=True, text=True, stdin=subprocess.DEVNULL)
    return ran.stdout + ran.stderr if ran.returncode else ""


def words(root, crate, jobs=1):
    """The words of a check or a build of a crate, in its folder or a copy of that."""
    listed = gate.cited((root / "crates.txt").read_text(encoding="utf-8"))
    own, _ = below(root, crate)
    is_program = (root / "crates" / crate / "src/main.rt").exists()
    found = ["--crate-name", crate, f"src/{'main' if is_program else 'lib'}.rt"]
    for name in ["std", *(name for name in listed[crate] if name not in listed)]:
        found += ["--extern", f"{name}={place()}/rlibs/{name}.rlib"]
    found += ["-L", f"dependency={place()}/rlibs"]
    for name in listed[crate]:
        found += ["--extern", f"{name}={rlib(root, name)}"] if name in listed else []
    for name in own:
        found += ["-L", f"dependency={rlib(root, name).parent}"]
    found += ["--antt-project", f"{place()}/rattle/logic/antt-project.json", "--logic-built", f"{place()}/logic_built"]
    found += ["--links", f"{crate}=", "--jobs", str(jobs)]
    return found + ["--crate-type", "staticlib"] * (crate in gate.static(root))


def rattle(command, folder):
    """Runs a command of the prover in a folder, once more where a signal ended it, most likely for memory; its status and what it said."""
    how = {"cwd": folder, "capture_output": True, "text": True, "errors": "replace", "stdin": subprocess.DEVNULL}
    for _ in range(2):
        ran = subprocess.run([place() / "bin/rattle", *command], **how)
        if ran.returncode >= 0:
            break
    return ran.returncode, ran.stdout + ran.stderr


def copied(crate, folder):
    """Copies the sources of a crate into a folder."""
    for part in PARTS:
        if (crate / part).is_dir():
            shutil.copytree(crate / part, folder / part)


def applied(edit, folder):
    """Applies an edit to a copy of its crate."""
    replacements = [each for fault in gate.faults_of("", edit) for each in fault.replacements]
    if not replacements:
        raise Bad("it replaces nothing")
    for file, old, new in replacements:
        path = folder / file
        text = path.read_text(encoding="utf-8") if path.is_file() else ""
        if not old or text.count(old) != 1:
            raise Bad(f"its old text is in {file} {text.count(old) if old else 0} times: {old}")
        path.write_text(text.replace(old, new), encoding="utf-8")


def check_edited(root, crate, edit, kept=None):
    """Checks a copy of a crate with an edit, outside the repository, over what `kept` holds where it is given; status and what was
    said, with the places of the copy."""
    with tempfile.TemporaryDirectory() as scratch:
        folder = pathlib.Path(scratch)
        copied(root / "crates" / crate, folder)
        applied(edit, folder)
        return rattle(["check", *words(root, crate), *(["--incremental", str(kept)] if kept else [])], folder)


class Seed:
    """What a check of a crate as it stands proved, so that a check of an edit looks only at what the edit alters. It begins with what
    `rt check` kept, where that is there."""

    def __init__(self, root, crate):
        self.root, self.crate = root, crate
        self.room = tempfile.TemporaryDirectory()

    def __enter__(self):
        base, kept = pathlib.Path(self.room.name, "base"), self.root / "crates" / self.crate / "out/incremental"
        if kept.is_dir():
            shutil.copytree(kept, base, copy_function=linked)
        else:
            base.mkdir()
        command = ["check", *words(self.root, self.crate, jobs=2), "--incremental", str(base)]
        self.status, self.said = rattle(command, self.root / "crates" / self.crate)
        return self

    def __exit__(self, *_):
        self.room.cleanup()

    def check(self, edit):
        """Checks a copy of the crate with an edit over a copy of what was proved."""
        with tempfile.TemporaryDirectory(dir=self.room.name) as over:
            shutil.copytree(pathlib.Path(self.room.name, "base"), pathlib.Path(over, "kept"), copy_function=linked)
            return check_edited(self.root, self.crate, edit, pathlib.Path(over, "kept"))


def linked(one, other):
    """Gives what was proved a second name: a check replaces such a file, and writes into none."""
    try:
        if str(one).endswith(".oantt"):
            os.link(one, other)
            return
    except OSError:
        pass # they lie on two disks
    shutil.copy2(one, other)
