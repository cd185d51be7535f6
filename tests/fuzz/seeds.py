#!/usr/bin/env python3
"""Writes the first inputs of the targets: each text of the worked rows, for some encodings.

usage: tests/fuzz/seeds.py OUT"""
import re
import sys
from pathlib import Path

top = Path(__file__).resolve().parent.parent.parent
out = Path(sys.argv[1])
texts = {text.encode() for path in sorted(top.glob("crates/*/proofs/vectors/**/*.antt"))
         for text in re.findall(r'codes "([^"\\]+)"', path.read_text())}
for target, begins in {
        "convert": [bytes([by, 200, 0]) for by in (4, 12, 32, 38)],
        "pieces": [bytes([by, 3, 1, 2, 3]) for by in (4, 12, 32, 38)],
        "specification": [bytes([0, flags, 0]) for flags in (2, 28, 64 + 5, 128 + 5)] + [b"\1"]}.items():
    (out / target).mkdir(parents=True, exist_ok=True)
    for index, text in enumerate(begin + text for begin in begins for text in sorted(texts)):
        (out / target / f"{index:04}").write_bytes(text)
