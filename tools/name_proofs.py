#!/usr/bin/env python3
"""Gives the proof of each function the name by which the check finds it: the function's, then _spec."""

import re
from pathlib import Path

ROOT = Path(__file__).resolve().parent.parent

for path in sorted((ROOT / "crates").glob("*/proofs/**/Proof.antt")):
    text = path.read_text()
    name = path.parent.name.lstrip("+")
    found = re.findall(r"^pub ([\w'\-]+)-spec\b", text, re.M)
    if len(found) != 1:
        print(f"{path.relative_to(ROOT)}: {found}")
        continue
    path.write_text(re.sub(rf"(?<![\w'\-.]){re.escape(found[0])}-spec(?![\w'\-])", f"{name}_spec", text))
