#!/usr/bin/env python3
"""Writes the definitions and contracts that docs/PROVED.md shows, from the sources.

usage: docs/proved.py           writes the page
       docs/proved.py --check   writes nothing; status 1 if the page isn't what would be written

The page says in a comment that is not shown what comes below it:

    <!-- shows MODULE: NAME, NAME ; `CALL`: LABEL, LABEL -->
    the block, which this script writes
    <!-- end -->

MODULE is a file of specs/, with its crate and a slash before it unless that is data_encoding_meaning,
and NAME a definition there. CALL is a public call, and LABEL one of its clauses. All other text is
written by hand. Below a definition that the core definitions reach is an example of its worked rows
(docs/rows.py). The page shows all of these. `<!-- shows size -->` has the number of lines of the
specification below it, and `<!-- shows paths -->` those of the parts in which the page is read.
"""
import re
import sys
import textwrap

sys.dont_write_bytecode = True  # The folder of the pages gets no cache of the other scripts.

from calls import IMPORTS, KNOWN, all_calls, clauses
from contracts import COLUMNS
from definitions import reached, rows_by_key
from rows import examples_of
from sources import TOP, names_in

PAGE = TOP / "docs/PROVED.md"
SHOWN = re.compile(r"(<!-- shows ([^\n]*?: [^\n]*?) -->\n)(.*?)(<!-- end -->)", re.DOTALL)
SIZE = re.compile(r"(<!-- shows size -->\n)(.*?)(<!-- end -->)", re.DOTALL)
PATHS = re.compile(r"(<!-- shows paths -->\n)(.*?)(<!-- end -->)", re.DOTALL)

# The definitions on which all others of the page rest.
CORE = [("data_encoding_meaning", *it) for it in (
    ("Text", "text_of"), ("Grammar", "Means"), ("Fault", "fault_of"), ("Fields", "base_of"),
    ("Canonical", "IsCanonical"))]

# The parts in which these are read: how the page links each, and how many of `CORE` come with it.
PARTS = (("[The text of data, and the data of a text](#the-fifteen-minutes)", 2),
         ("[The fault of a text](#the-fault-of-a-text)", 3),
         ("[Specifications](#specifications), and [`IsCanonical`](#iscanonical)", 5))
LINES_A_MINUTE = 10

# The examples of a definition that are not the best of its rows, by their beginnings.
CHOSEN = {
    "Base": ["BASE64_MIME: base.width"],
    "Wrapping": ["BASE64_MIME: base.wrapping"],
    "bits_of": ["bits_of MostSignificantFirst", "bits_of LeastSignificantFirst"],
    "text_of": ["BASE32: text_of", "BASE64_MIME: text_of"],
    "Positioned": ["positioned_from 4 (codes \"lo\")"],
    "positioned_from": ["positioned (codes"],
    "Means": ["BASE64: Means", "HEXLOWER: (bytes : List ℕ) → Means"],
    "greatest_valid_count": ["map (greatest_valid_count 6)"],
    "is_valid_length": ["BASE64: map (is_valid_length", "BASE64_NOPAD: map (is_valid_length"],
    "faulty_at": ["located (positioned_from 4 (codes \"A!\")"],
    "fault_after": ["BASE64: fault_after false", "BASE64: fault_after true"],
    "fault_of": ["HEXLOWER: fault_of"],
    "Fields": ["judgements 1"],
    "Judgement": ["symbol_judgements 4"],
    "base_of": ["base_of (unpadded_fields (codes \"00\"))"],
    "IsCanonical": ["HEXLOWER: IsCanonical", "BASE64: IsCanonical"],
}

# The page shows at least this many blocks, or the comments were not read.
LEAST_SHOWN = 12


def clause_lines(header):
    """The lines of a call up to its clauses, and those of each clause by its label."""
    starts = [at for at, line in enumerate(header) if re.match(r"\s*(requires|ensures)\b", line)]
    found = {}
    for at, end in zip(starts, starts[1:] + [len(header)]):
        label = re.match(r"\s*(requires|ensures)\*? ?(\w*)", header[at])
        lines = [line for line in header[at:end] if line and not line.lstrip().startswith("//")]
        found.setdefault(label[2] or label[1], []).extend(lines)
    return header[:starts[0]], found


class Shown:
    """What the page shows: the definitions, those that its clauses name, and what is unknown."""

    def __init__(self):
        self.calls = {call.title: call for calls in all_calls().values() for call in calls}
        self.keys, self.blocks, self.wrong = set(), 0, []
        self.core, self.rows = IMPORTS.reach(CORE), rows_by_key()
        self.known_rows = list({id(row): row for rows in self.rows.values() for row in rows
                                if row.path.relative_to(TOP).parts[1] == CORE[0][0]}.values())
        self.shown = set()

    def of_call(self, title, labels):
        """The lines of a call with some of its clauses."""
        call = self.calls.get(title)
        if not call:
            self.wrong.append(f"docs/PROVED.md: there is no call {title}")
            return []
        lines, known = clause_lines(call.header)
        for label in labels:
            if label not in known:
                self.wrong.append(f"docs/PROVED.md: {title} has no clause {label}")
            lines = lines + known.get(label, [])
        named = names_in(" ".join(clauses(lines).values()))
        self.keys |= {key for name, key in call.imported.items() if name in named}
        return lines

    def of_module(self, module, names):
        """The lines of definitions with their comments."""
        crate, _, module = f"data_encoding_meaning/{module}".rpartition("/")
        lines = []
        for name in names:
            one = KNOWN.get((crate.rpartition("/")[2], module, name))
            if one:
                self.keys.add(one.key)
                self.shown.add(one.key)
                lines += ["", *one.comment, *one.lines, *self.examples(one)]
            else:
                self.wrong.append(f"docs/PROVED.md: {module} has no definition {name}")
        return lines[1:]

    def examples(self, one):
        """The lines of the examples of a definition, if the core definitions reach it."""
        if one.key not in self.core:
            return []
        found = []
        for start in CHOSEN.get(one.name, [""]):
            rows = self.known_rows if start else self.rows.get(one.key, ())
            word = re.findall(r"[\w.]+", start.partition(": ")[2] or start or one.name)[0]
            found += [it for it in examples_of(word, rows) if it.startswith(start)][:1] or [""]
        if "" in found:
            self.wrong.append(f"docs/PROVED.md: {one.name} has no example")
        return [line for text in found for line in example_lines(text)]

    def block(self, mark):
        """The block below a comment."""
        lines, self.blocks = [], self.blocks + 1
        for row in mark[2].split(" ; "):
            head, _, listed = row.rpartition(": ")
            one = self.of_call if head.startswith("`") else self.of_module
            lines += [""] + one(head, listed.split(", "))
        kind = "rust" if mark[2].startswith("`") else "antt"
        return "\n".join([f"{mark[1]}```{kind}", *lines[1:], "```", mark[4]])

    def sizes(self, mark):
        """The sentences on the size of the specification."""
        core, page, public = map(size_of, (IMPORTS.reach(CORE), IMPORTS.reach(self.keys), reached()))
        names = [f"`{it[-1]}`" for it in CORE]
        text = (f"The core definitions, {', '.join(names[:-1])} and {names[-1]}, reach {core} with comments. "
                f"The eight theorems reach {page}. All public contracts reach {public}.")
        return f"{mark[1]}{textwrap.fill(text, COLUMNS)}\n{mark[3]}"

    def paths(self, mark):
        """The table of the parts in which the definitions are read."""
        lines, before = ["| Part | Definitions | Lines | Minutes |", "|---|---|---|---|"], set()
        for words, count in PARTS:
            keys = IMPORTS.reach(CORE[:count]) - before
            before |= keys
            number = sum(map(lines_of, keys))
            lines.append(f"| {words} | {len(keys)} | {number} | {round(number / LINES_A_MINUTE)} |")
        return "\n".join([f"{mark[1]}{lines[0]}", *lines[1:], mark[3]])


def example_lines(text):
    """An example as comments. A long one is cut before its sign of equality."""
    left, sign, right = text.partition(" ≡ ")
    parts = [text] if len(text) <= COLUMNS - 5 else [left, f"≡ {right}"] if sign else [left]
    return [line for at, part in enumerate(parts) for line in textwrap.wrap(
        part, COLUMNS, initial_indent="--       " if at else "--   ", subsequent_indent="--       ",
        break_long_words=False, break_on_hyphens=False)]


def lines_of(key):
    """The number of lines of a definition with its comment."""
    return len(KNOWN[key].comment) + len(KNOWN[key].lines)


def size_of(keys):
    """How many definitions these are, and in how many lines."""
    return f"{len(keys)} definitions, in {sum(map(lines_of, keys)):,} lines"


def main():
    old, shown = PAGE.read_text(), Shown()
    new = PATHS.sub(shown.paths, SIZE.sub(shown.sizes, SHOWN.sub(shown.block, old)))
    shown.wrong += [f"docs/PROVED.md does not show {key[2]}"
                    for key in KNOWN if key in shown.core - shown.shown]
    if shown.blocks < LEAST_SHOWN:
        shown.wrong.append(f"docs/PROVED.md shows {shown.blocks} blocks")
    if "--check" not in sys.argv[1:]:
        PAGE.write_text(new)
    elif new != old:
        shown.wrong.append("docs/PROVED.md is stale: docs/proved.py writes it anew")
    print("".join(f"{line}\n" for line in shown.wrong), end="")
    return 1 if shown.wrong else 0


if __name__ == "__main__":
    sys.exit(main())
