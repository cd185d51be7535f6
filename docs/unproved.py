#!/usr/bin/env python3
"""Counts the lines of the code that no proof covers: the packages for Python, Rust and JavaScript.

usage: docs/unproved.py           prints the numbers, as a page may have them
       docs/unproved.py --check   prints what is wrong in the pages; status 1 if something is

README.md, SECURITY.md and docs/PROVED.md may say `N lines of Rust`, or `N of Rust` in a list that begins so, and
the same of the other languages. A number there is at most a twentieth from the lines. docs/PROVED.md has
each.
"""
import re
import sys
from pathlib import Path

TOP = Path(__file__).resolve().parent.parent

# The Python package has a file in C, and its lines are those of the package.
SOURCES = {
    "Python": ["bindings/python/src/data_encoding/*.py", "bindings/python/src/data_encoding/*.c"],
    "Rust": ["bindings/rust/src/**/*.rs"],
    "JavaScript": ["bindings/javascript/src/*.js"],
}
SAID = re.compile(rf"\b(\d[\d,]*)(?: lines)? of ({'|'.join(SOURCES)})\b")
PAGES = ["README.md", "SECURITY.md", "docs/PROVED.md"]
TOLERANCE = 0.05


def lines_of(patterns):
    return sum(len(path.read_text().splitlines()) for it in patterns for path in TOP.glob(it))


def main():
    counts = {language: lines_of(patterns) for language, patterns in SOURCES.items()}
    if "--check" not in sys.argv[1:]:
        print(", ".join(f"{count:,} of {language}" for language, count in counts.items()))
        return 0
    wrong, said = [], {}
    for page in filter(Path.exists, map(TOP.joinpath, PAGES)):
        place = str(page.relative_to(TOP))
        for number, language in SAID.findall(" ".join(page.read_text().split())):
            said.setdefault(place, set()).add(language)
            count = counts[language]
            if abs(int(number.replace(",", "")) - count) > count * TOLERANCE:
                wrong.append(f"{place}: {number} lines of {language} are {count:,}")
    wrong += [f"docs/PROVED.md does not have the lines of {it}"
              for it in SOURCES if it not in said.get("docs/PROVED.md", ())]
    print("".join(f"{line}\n" for line in wrong), end="")
    return 1 if wrong else 0


if __name__ == "__main__":
    sys.exit(main())
