#!/usr/bin/env python3
"""Makes docs/DEFINITIONS.md, the index of the definitions that the public contracts reach.

usage: docs/definitions.py           writes the page
       docs/definitions.py --check   writes nothing; status 1 if the page isn't what would be written,
                                     or a definition has no comment, or no worked row

A contract reaches a definition if one of its clauses names it, or a definition that it reaches does. A
worked row of a definition is an entry of proofs/**/vectors/ or proofs/Vectors.antt that names it.
The text above the first heading of a crate is written by hand.
"""
import re
import sys

sys.dont_write_bytecode = True  # The folder of the pages gets no cache of the other scripts.

from calls import IMPORTS, KNOWN, all_calls
from sources import HEAD, TOP, names_in, parts_of

PAGE = TOP / "docs/DEFINITIONS.md"

# Definitions without a worked row, and the reason.
EXCUSED = {
    ("data_encoding", "Encoder", "Finalizes"): "the prover can't evaluate the end of a borrow",
    ("data_encoding", "Encoder", "string_type"): "only `Finalizes` uses it",
}

# At most this many rows are listed for a definition.
MOST_ROWS = 2

ENTRY = re.compile(r"^((?:abbrev |unfoldable |pub |record |data )*)([\w-]+)\b")


class Row:
    """An entry of a file of worked rows: a row, or a helper of rows."""

    def __init__(self, path, line, lines):
        text = "\n".join(lines)
        self.path, self.line, self.lines = path, line, lines
        self.is_helper, self.name = ENTRY.match(lines[0]).groups()
        self.statement, _, body = text.partition(f"\n{self.name} ")
        self.is_computed = set(names_in(body)) <= {"refl"}
        # The keys of the definitions in it and in its statement.
        self.keys, self.stated = set(), set()

    def rank(self, key):
        """How well it shows a definition: the least is the best."""
        return (self.path.relative_to(TOP).parts[1] != key[0], not self.is_computed,
                key not in self.stated, len(self.keys), self.line)

    def link(self):
        return f"[`{self.name}`](../{self.path.relative_to(TOP)}#L{self.line})"


def rows_of(path):
    """The entries of a file of worked rows."""
    text = path.read_text()
    imported = IMPORTS.of(text)
    for line, lines in parts_of(text):
        while lines and lines[0].startswith("--"):
            lines, line = lines[1:], line + 1
        if lines and ENTRY.match(lines[0]) and not re.match(r"(pub )?(use|mod) ", lines[0]):
            row = Row(path, line, lines)
            row.keys = {imported[it] for it in names_in("\n".join(lines)) if it in imported}
            row.stated = {imported[it] for it in names_in(row.statement) if it in imported}
            yield row


def rows_by_key():
    """The worked rows that name each definition, the best first."""
    paths = [*TOP.glob("crates/*/proofs/**/vectors/*.antt"), *TOP.glob("crates/*/proofs/Vectors.antt")]
    entries = [row for path in sorted(paths) for row in rows_of(path)]
    helpers = {row.name: row for row in entries if row.is_helper}

    def all_keys(row, above=()):
        found = set(row.keys)
        for name in names_in("\n".join(row.lines)):
            if name in helpers and name not in above and name != row.name:
                found |= all_keys(helpers[name], (*above, name))
        return found

    found = {}
    for row in entries:
        if not row.is_helper:
            for key in all_keys(row):
                found.setdefault(key, []).append(row)
    return {key: sorted(rows, key=lambda row: row.rank(key)) for key, rows in found.items()}


def reached():
    """The keys of the definitions that the public contracts reach."""
    return IMPORTS.reach({key for calls in all_calls().values() for call in calls for key in call.keys()})


def sentence(comment):
    """The comment of a definition: its first sentence, or all of it if it is short."""
    text = " ".join(line.lstrip("-").strip() for line in comment)
    first = re.split(r"(?<=[.;:]) ", text)[0]
    return (text if len(text.split()) <= 30 else first.rstrip(";:")).replace("|", "\\|")


def module_comment(path):
    """The comment at the head of a file."""
    lines = path.read_text().split("\n")
    end = next(at for at, line in enumerate(lines) if not line.startswith("--"))
    return "" if HEAD.match(lines[end]) else sentence(lines[:end])


def line_of(one, rows, wrong):
    """The line of a definition in the table of its module."""
    found = " ".join(row.link() for row in rows.get(one.key, ())[:MOST_ROWS])
    if not one.comment:
        wrong.append(f"{one.path.relative_to(TOP)}: {one.name} has no comment")
    if found and one.key in EXCUSED:
        wrong.append(f"docs/definitions.py: {one.name} has a worked row")
    if not found and one.key not in EXCUSED:
        wrong.append(f"{one.path.relative_to(TOP)}: {one.name} has no worked row")
    found = found or f"none: {EXCUSED.get(one.key, '')}"
    return f"| [`{one.name}`]({one.file}#L{one.line}) | {sentence(one.comment)} | {found} |"


def page(head, wrong):
    """The page anew."""
    rows, keys, lines, last = rows_by_key(), reached(), [head.rstrip("\n"), ""], (None, None)
    for one in (one for key, one in KNOWN.items() if key in keys):
        if one.crate != last[0]:
            lines += ["", f"## `{one.crate}`"]
        if one.key[:2] != last:
            lines += ["", f"### {one.crate}: {one.module}", "", module_comment(one.path), "",
                      "| Definition | Meaning | Worked rows |", "|---|---|---|"]
        lines.append(line_of(one, rows, wrong))
        last = one.key[:2]
    return re.sub(r"\n{3,}", "\n\n", "\n".join(lines)) + "\n"


def main():
    wrong, old = [], PAGE.read_text()
    new = page(old.partition("\n## ")[0], wrong)
    if "--check" not in sys.argv[1:]:
        PAGE.write_text(new)
    elif new != old:
        wrong.append("docs/DEFINITIONS.md is stale: docs/definitions.py writes it anew")
    print("".join(f"{line}\n" for line in wrong), end="")
    return 1 if wrong else 0


if __name__ == "__main__":
    sys.exit(main())
