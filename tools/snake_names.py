#!/usr/bin/env python3
"""Turns this repository's own names in specs/, proofs/, clauses and edits to snake case.

    python3 tools/snake_names.py [--list]

A name that begins with a small letter and has a capital inside is turned part by part, where parts are
joined by dashes: `setRights-endpoint` is `set_rights-endpoint`. Types, facts and modules begin with a
capital and stay. With --list it prints, for each file, the new names that already stand in it.
"""

import re
import sys
from pathlib import Path

ROOT = Path(__file__).resolve().parent.parent
WORD = re.compile(r"(?<![\w'\-])[a-z][\w'\-]*[A-Z][\w'\-]*|(?<![\w'\-])[\w\-]*-[a-z]\w*[A-Z][\w'\-]*")
ANY = re.compile(r"[\w'\-]+")
# Lemmas whose name would fall together with that of the definition that they are about, each with the files it stands in.
LEMMAS = {
    "look_up": ["machine/proofs/AnswerClaims", "promises/proofs/hold/Proof"],
    "answer_word": ["machine/proofs/WordClaims", "promises/proofs/hold/Proof"],
    "joined_by": ["machine/proofs/Purge", "influence_theory/proofs/Asks"],
    "same_at": ["isolation_theory/proofs/LineExamples"],
    "from_list": ["linetotals_input/proofs/ListLaws", "linetotals_theory/proofs/InputRead", "linetotals_theory/proofs/MostLists"],
    "too_long": ["writer/proofs/Outcomes", "writer/proofs/rows/write_rows/Proof", "writer/proofs/write/Proof"],
    "all_past": ["writer_theory/proofs/Reading"],
    "no_call": ["writer_theory/proofs/Rows"],
}
# What stands before a name of the code's own, as in c.too_long.ensures.
OF_CODE = ("c", "before", "reported")


def part(text):
    """Returns one part of a name in snake case, unless it begins with a capital."""
    if not re.match(r"_*[a-z]", text):
        return text
    text = re.sub(r"([a-z0-9])([A-Z])", r"\1_\2", text)
    text = re.sub(r"([A-Z])([A-Z][a-z])", r"\1_\2", text)
    return text.lower()


def turned(name):
    """Returns a whole name in snake case."""
    return "-".join(part(p) for p in name.split("-"))


def lemmas_apart(path, text):
    """Returns the text with _lem behind the lemmas that would have a definition's name."""
    place = str(path.relative_to(ROOT / "crates").with_suffix(""))
    for name, places in LEMMAS.items():
        if place in places:
            text = re.sub(rf"((?:\b(\w+)\.)?)(?<![\w'\-]){name}(?![\w'\-])", lambda m: m.group(0) if m.group(2) in OF_CODE else m.group(0) + "_lem", text)
    return text


def files():
    """Returns the files that the names stand in."""
    crates = ROOT / "crates"
    found = []
    for pattern in ("*/specs/**/*.antt", "*/proofs/**/*.antt", "*/src/**/*.rt", "*/must-fail/*.edit", "*/controls/*.edit"):
        found += sorted(crates.glob(pattern))
    return found


def main():
    listing = "--list" in sys.argv[1:]
    for path in files():
        text = path.read_text()
        if listing:
            words = set(ANY.findall(text))
            for name in sorted(words):
                new = turned(name)
                if new != name and new in words:
                    print(f"{path.relative_to(ROOT)}: {name} {new}")
            continue
        new = WORD.sub(lambda m: turned(m.group(0)), lemmas_apart(path, text))
        if new != text:
            path.write_text(new)


if __name__ == "__main__":
    main()
