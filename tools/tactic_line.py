#!/usr/bin/env python3
"""Writes the line by which the check tries its tactics into the root file of each crate that lacks it, below the comment at its head."""

from pathlib import Path

ROOT = Path(__file__).resolve().parent.parent
LINE = "#![tactic(auto)]"

for root in sorted([*(ROOT / "crates").glob("*/src/lib.rt"), *(ROOT / "crates").glob("*/src/main.rt")]):
    lines = root.read_text().split("\n")
    if LINE in lines:
        continue
    at = 0
    while at < len(lines) and lines[at].startswith("//"):
        at += 1
    lines[at:at] = [LINE, ""] if at < len(lines) and lines[at].strip() else [LINE]
    root.write_text("\n".join(lines))
