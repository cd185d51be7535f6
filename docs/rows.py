"""Worked rows as docs/PROVED.md prints them beside definitions: the parts of a row of proofs/vectors/ as
short equations.

These forms of a statement are examples for the base of some fields:

    by (λ base. E) FIELDS ≡ Some V      E ≡ V
    Has FIELDS (λ base. E)              E
    Hold F ((A, V) ∷ .. ∷ [])           F A ≡ V, for each pair

Only notation changes: a bound variable becomes its value, a helper of the rows its definition, and an
imported name the one that it stands for.
"""
import re

from sources import TOP

# Fields of the rows that are not those of a predefined encoding.
NAMES = {
    "single_fields": "BASE64 without concatenation",
    "lines_of_8_fields": "BASE64 in lines of 8 that end with a space",
}

# Other names for imports, and helpers of the rows with their parameters.
ALIAS = re.compile(r"\b(\w+) as (\w+)")
HELPER = re.compile(r"^abbrev (?:pub )?(\w+) : [^\n]+\n\1((?: \w+)*) = (.+)$", re.MULTILINE)
USED = re.compile(r"^use .*$", re.MULTILINE)
LONGEST_HELPER = 90

# Brackets with at most four more inside, and those around such brackets alone.
NESTED = r"\([^()]*\)"
for _ in range(4):
    NESTED = rf"\((?:[^()]|{NESTED})*\)"
DOUBLED = re.compile(rf"\(({NESTED})\)")

# The file with the helpers of all rows.
SHARED = TOP / "crates/data_encoding_meaning/proofs/vectors/Examples.antt"


def pieces(text, separator):
    """The parts of a text between separators that are in no brackets."""
    found, depth, start = [], 0, 0
    for at, letter in enumerate(text):
        depth += (letter in "([{") - (letter in ")]}")
        if depth == 0 and at >= start and text.startswith(separator, at):
            found.append(text[start:at].strip())
            start = at + len(separator)
    return found + [text[start:].strip()]


def is_bracketed(text):
    """Returns `True` if the text is one pair of brackets, and not a pair of values."""
    return (text.startswith("(") and text.endswith(")") and len(pieces(text, " ")) == 1
            and len(pieces(text[1:-1], ",")) == 1)


def bare(text):
    """The text without brackets around all of it."""
    text = text.strip()
    while is_bracketed(text):
        text = text[1:-1].strip()
    return text


def argument(text):
    """The text as an argument: in brackets, unless it is one word."""
    text = bare(text)
    return text if len(pieces(text, " ")) == 1 else f"({text})"


def pair(text):
    """The parts of a pair, or only the text."""
    text = bare(text)
    return [it for it in pieces(text[1:-1], ",") if it] if text.startswith("(") else [text]


def applied(function, given):
    """A function of one argument, as a text, at a value."""
    function = bare(function)
    bound = re.match(r"λ \(?(\w+)(?: : [^.]*)?\)?\. ?", function)
    if not bound:
        return f"{function} {argument(given)}"
    body = function[bound.end():]
    for at, part in enumerate(pair(given)):
        body = re.sub(rf"\b{bound[1]}\.{at}\b", lambda _, part=part: argument(part), body)
    return re.sub(rf"(?<![\w.]){bound[1]}(?![\w.])", lambda _: argument(given), body)


def equations(left, right):
    """The examples of an equation, for the base of some fields if it is one of `by`."""
    words = [it for it in pieces(bare(left), " ") if not it.startswith("{")]
    if words[0] != "by" or len(words) != 3:
        return [("", f"{bare(left)} ≡ {bare(right)}")]
    some = pieces(bare(right), " ")
    if some[0] != "Some" or len(some) != 2:
        return []
    sides = zip(pair(applied(words[1], "base")), pair(some[1]))
    return [(words[2], f"{bare(one)} ≡ {bare(other)}") for one, other in sides]


def examples(statement):
    """The examples of a statement, each as its fields, or "", and what holds of their base."""
    statement = bare(statement)
    parts, words, sides = (pieces(statement, it) for it in (" × ", " ", " ≡ "))
    if len(parts) > 1:
        return [one for part in parts for one in examples(part)]
    if words[0] == "Hold" and len(words) == 3:
        rows = [pair(it) for it in pieces(bare(words[2]), "∷")[:-1]]
        return [one for row in rows if len(row) == 2 for one in equations(applied(words[1], row[0]), row[1])]
    if words[0] == "Has" and len(words) == 3:
        return [(words[1], bare(it)) for it in pieces(applied(words[2], "base"), " × ")]
    return equations(*sides) if len(sides) == 2 and "→" not in statement else []


def helpers_of(file):
    """The helpers of a file of rows by their names: their parameters and values. Of several that have one
    name the file's own counts."""
    found = {name: (words.split(), it) for text in (SHARED.read_text(), file)
             for name, words, it in HELPER.findall(text) if len(it) <= LONGEST_HELPER}
    others = {other: ([], name) for line in USED.findall(file) for name, other in ALIAS.findall(line)}
    return found | others


def expanded(text, helpers, heads=False):
    """The text with the values of helpers in their place; of all, or of those of `by` alone."""
    for name, (words, it) in helpers.items():
        if it.startswith("by ") != heads or name in ("by", "Hold", "Has", "built"):
            continue
        used = re.compile(rf"(?<![\w.]){name}(?!\w)" + rf" (\w+|{NESTED})" * len(words))

        def instead(found, words=words, it=it):
            given = dict(zip(words, found.groups()))
            if words:  # The field of a record may have the name of a parameter.
                it = re.sub(rf"(?<![\w.])({'|'.join(words)})(?!\w| = )", lambda word: given[word[1]], it)
            return it if heads else argument(it)

        outside = re.split(r'("[^"]*")', text) if not words else [text]
        text = "".join(part if part.startswith('"') else used.sub(instead, part) for part in outside)
    return text if heads else bare(DOUBLED.sub(r"\1", text))


def of_built(fields, text):
    """An example and the name of its encoding, also if it is of the base of fields, `built`."""
    built = set(re.findall(r"\(built (\w+_fields)\)", text))
    if not fields and len(built) == 1:
        fields = built.pop()
        text = text.replace(f"(built {fields})", "base")
    return text, label(fields)


def label(fields):
    """How the page names the encoding of fields, or None if it has no name."""
    if not fields:
        return ""
    return NAMES.get(fields) or (fields[:-len("_fields")].upper()
                                 if re.fullmatch(r"(hex|base)\w+_fields", fields) else None)


def rank(name, fields, text):
    """How well an example shows a definition: the least is the best."""
    left, _, right = text.partition(" ≡ ")
    head = re.match(rf"(map \(?)?{name}(?!\w)", left)
    is_trivial = right in ("None", "[]") or right.startswith("Err") or " " in right and right in left
    return not head, is_trivial, bool(re.search(r"\b(None|false)\b", text)), fields == "", len(text)


def examples_of(name, rows):
    """The examples in rows that name a definition, the best first: lines."""
    found, sought = set(), re.compile(rf"(?<![\w.]){re.escape(name)}(?!\w)")
    for row in rows:
        helpers = helpers_of(row.path.read_text())
        statement = " ".join(row.statement.partition(":")[2].split())
        for fields, text in examples(expanded(statement, helpers, heads=True)):
            text = " ≡ ".join(expanded(it, helpers) for it in pieces(text, " ≡ "))
            text, named = of_built(fields, text)
            if named is not None and sought.search(text):
                found.add((rank(name, fields, text), f"{named}: {text}" if named else text))
    return [line for _, line in sorted(found)]
