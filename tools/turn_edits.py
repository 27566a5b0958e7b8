#!/usr/bin/env python3
"""Turns the texts of must-fail edits as the sources were turned: paths, projections, operators and the library's names."""

import re
from pathlib import Path

ROOT = Path(__file__).resolve().parent.parent


def turned(text):
    """Returns one text of an edit in today's spelling."""
    text = re.sub(r"Rattle·(\w+)·(specs|proofs)\.\2\.", r"Rattle.\1.\2.", text)
    text = re.sub(r"Rattle·(\w+)\.", r"Rattle.\1.", text)
    text = re.sub(r"\bget_d\b", "get_or", text)
    text = re.sub(r"\((\w[\w.']*) \.(\w+)\)", r"\1.\2", text)
    text = re.sub(r"\((\w[\w.']*) \.(\w+)\)", r"\1.\2", text)
    text = re.sub(r"([\w')]) \.(\w)", r"\1.\2", text)
    text = re.sub(r"(?<=[\s{,])_([^\w\s{},]+)_(?=[,}])", "◌\\1◌", text)
    return text.replace("′", "'")


for path in sorted([*(ROOT / "crates").glob("*/must-fail/*.edit"), *(ROOT / "crates").glob("*/controls/*.edit")]):
    lines = path.read_text().split("\n")
    new = [turned(l) if l.startswith(("old:", "new:")) and not re.search(r"file: src/", path.read_text()) else l for l in lines]
    if new != lines:
        path.write_text("\n".join(new))
