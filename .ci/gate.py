"""What the gate's scripts share: the files of the repository as texts, the list of crates, the form of a must-fail edit, and the judging
of a script's own tests.

A must-fail edit is crates/CRATE/must-fail/LABEL.edit, in the form that rt reads: a line `file:` holds for the `old:` and `new:`
lines after it, and each `old:` text stands in that file just once. Lines that rt passes over have a meaning here:

    fault: NAME in FUNCTION, FUNCTION      begins one of several faults, which stands in the bodies of these functions
    refused by: NAME                       names the row or theorem that must refuse an edit of a definition"""
import collections
import pathlib
import re
import sys

LISTED = re.compile(r"^(\w+)((?: staticlib)?):(.*)$", re.M)
FAULT = re.compile(r"fault: (\S+) in (\S+(?:, \S+)*)")
REFUSED_BY = "refused by: "
USE = re.compile(r"^(?:pub )?use ((?:\w+::)*)(\w+|\{[^{}]*\})(?: as (\w+))?;", re.M)


def texts(*kinds):
    """The texts of the repository's files of these kinds, by path."""
    paths = [path for kind in kinds for path in sorted(pathlib.Path(".").glob(kind))]
    return {str(path): path.read_text(encoding="utf-8") for path in paths}


def cited(listed):
    """The crates of crates.txt in their order, each with those that it cites."""
    lines = "\n".join(line.split("#")[0].rstrip() for line in listed.splitlines())
    return {name: crates.split() for name, _, crates in LISTED.findall(lines)}


def static(root):
    """The crates that archives for C are made of."""
    return [name for name, kind, _ in LISTED.findall((root / "crates.txt").read_text(encoding="utf-8")) if kind]


def uses(code):
    """What the `use` lines of a source bring in, as (path, the name that it has there); one line may name several in braces."""
    for parents, names, alias in USE.findall(code):
        for name in filter(None, map(str.strip, names.strip("{}").split(","))):
            first, _, other = name.partition(" as ")
            yield parents + first, other or alias or first.split("::")[-1]


def reasons(path):
    """The lines `name: reason` of a file of exceptions, by name; comments and lines without a reason are none."""
    file = pathlib.Path(path)
    return dict(re.findall(r"^([\w:/.-]+?): (\S.*)$", file.read_text(encoding="utf-8") if file.exists() else "", re.M))


class Fault:
    """What it is called, the functions that it names (None where its edit is a file of one fault), its replacements as (file,
    old, new), and what must refuse it, where the edit says so."""

    def __init__(self, name, named):
        self.name = name
        self.named = named
        self.replacements = []
        self.refused_by = None


def faults_of(label, edit):
    """The faults of an edit in their order; one without a line `fault:` is one fault, which has the file's name."""
    faults, file, old, refused_by = [], "", "", None
    for line in edit.splitlines():
        if line.startswith("fault:"):
            head = FAULT.fullmatch(line)
            faults.append(Fault(head[1], head[2].split(", ")) if head else Fault(line, []))
        elif line.startswith(REFUSED_BY):
            refused_by = line.removeprefix(REFUSED_BY)
        elif line.startswith("file: "):
            file = line.removeprefix("file: ")
        elif line.startswith("old: "):
            old = line.removeprefix("old: ")
        elif line.startswith("new:"):
            if not faults:
                faults.append(Fault(label, None))
            faults[-1].replacements.append((file, old, line.removeprefix("new:").removeprefix(" ")))
            faults[-1].refused_by, old = refused_by, ""
    return faults


def judged(tried, judge, exact=False):
    """How many of the tried texts, each with the lines that must be reported or words of them, aren't judged so; these are printed."""
    missed = 0
    for *given, wanted in tried:
        reported = list(judge(*given))
        alike = len(reported) == len(wanted) and all(words in line for words, line in zip(wanted, reported))
        if not alike or exact and reported != wanted:
            print(f"WRONG: {reported}, not {wanted}, of", *given, sep="\n")
            missed += 1
    return missed


def ended(script, self_test):
    """Ends a script: by its own tests where --self-test is given, else by what it returns, 0 where nothing is wrong."""
    if sys.argv[1:] == ["--self-test"]:
        sys.exit(1 if self_test() else 0)
    sys.exit(script(sys.argv[1:]))


def repeated(names):
    """The names that stand there more than once."""
    return sorted(name for name, count in collections.Counter(names).items() if count > 1)
