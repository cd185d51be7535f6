#!/usr/bin/env python3
"""Lists what the pages that are written by hand name and the sources do not have.

usage: docs/names.py   prints a line for each; status 1 if there is one, or if the pages were not read

- A path in backticks must be the end of the path of a file or folder, or must be named by a source,
  which makes the file. `hello.py`: at the end of a line is a file that the reader makes.
- Each word of an identifier in backticks, such as `a::b`, `a.b` or `a()`, must be a word of a source. So
  must each word with `_` of any other code in backticks. `FOREIGN` has exceptions.
- The number of runs or turns of a median or range must be that of the measurement whose command is the
  nearest in the page (`measured`). TURNS=N in the same paragraph is the number of `bench/run`.
"""
import os
import re
import sys
from pathlib import Path

TOP = Path(__file__).resolve().parent.parent

# Each name there is taken from the sources by a script.
GENERATED = re.compile(r"docs/(CONTRACTS\w*|DEFINITIONS)\.md")

# Folders without sources, and files that are not text.
SKIPPED = {".git", "out", "target", "node_modules", "__pycache__"}
BINARY = {".png"}

ENDING = r"\.(rt|antt|edit|sh|py|c|h|js|mjs|ts|rs|md|bash|toml|json|html|txt)"
PATH = re.compile(rf"[\w.-]*(/[\w.-]+)+/?|[\w.-]+/|[\w-]+{ENDING}")
IDENTIFIER = re.compile(r"[A-Za-z_]\w*((::|\.)[A-Za-z_]\w*)*(\(\))?")
WORD = re.compile(r"[A-Za-z_]\w*")
VERSION = re.compile(r"\d+\.\d+\.\d+")  # In the name of a file of a release.
COUNTED = re.compile(r"\b(?:medians?|range) of (?:the )?(\w+) (?:runs|turns)\b", re.IGNORECASE)
COMMAND = re.compile(r"`(?:\w+=\S+ )?(comparisons/tables|bench/run)\b")
NUMBERS = dict(zip("two three four five six seven eight nine ten".split(), range(2, 11)))

# Words of other projects, and placeholders.
FOREIGN = {
    "chunks_mut", "NonNull", "as_ref",                    # Rust
    "inverse",                                            # a library of Rattle
    "EVP_EncodeBlock", "EVP_DecodeBlock",                 # OpenSSL
    "InternalEncoding",                                   # the original crate
    "SIGILL",                                             # signals
    "decodebytes", "upload_file",                         # Python's base64, Dask
    "fold", "pshufb", "simd128", "libos_c",               # tools, instructions, the toolchain
    "name_fields", "name_ref", "DE_NAME", "de_numbered_call", "de_custom_call",  # names to choose
}
FOREIGN_PATHS = {"/usr/local", "/usr/bin", "src/main.rs"}

# The pages have at least this many names, or they were not read.
LEAST_NAMES = 600


def pages_and_sources():
    """The pages that are written by hand, and all other files."""
    pages, others = [], []
    for folder, folders, files in os.walk(TOP):
        folders[:] = sorted(it for it in folders if it not in SKIPPED)
        for name in sorted(files):
            path = Path(folder, name)
            place = path.relative_to(TOP)
            if place.suffix == ".md" and place.parts[0] in ("docs", name):
                if not GENERATED.fullmatch(str(place)):
                    pages.append(path)
            elif path.suffix not in BINARY and path != Path(__file__).resolve():
                others.append(path)
    return pages, others


class Sources:
    """The words of the sources, the ends of their paths, and their texts."""

    def __init__(self, paths):
        self.words, self.ends, self.texts = set(), set(), []
        for path in paths:
            self.texts.append(path.read_text(errors="replace"))
            self.words |= set(WORD.findall(self.texts[-1]))
            parts = path.relative_to(TOP).parts
            self.words |= set(WORD.findall(" ".join(parts)))
            self.ends |= {"/".join(parts[start:end])
                          for end in range(1, len(parts) + 1) for start in range(end)}

    def has_path(self, path):
        """Whether there is such a path, or a source names it. Words of capitals are placeholders."""
        if path.strip("/") in self.ends or path in FOREIGN_PATHS or re.search(r"\b[A-Z]{2,}\b", path):
            return True
        named = re.compile(rf"(?<![\w.-]){re.escape(path)}(?!\w)")
        return any(named.search(text) for text in self.texts)

    def lacking(self, span):
        """The words of a span that no source has."""
        words = [] if VERSION.search(span) else WORD.findall(span)
        if not IDENTIFIER.fullmatch(span):
            words = [it for it in words if "_" in it.strip("_")]
        return [it for it in words if it not in self.words and it not in FOREIGN]


def measured(command, paragraph):
    """How many times a command measures."""
    text = (TOP / command).read_text()
    if command == "bench/run":
        return int((re.search(r"TURNS=(\d+)", paragraph) or re.search(r"TURNS-(\d+)", text))[1])
    return int(re.search(r"^RUNS = (\d+)$", text, re.MULTILINE)[1])


def wrong_counts(text):
    """The numbers of runs in a page that are not those of the command."""
    commands = list(COMMAND.finditer(text))
    for one in COUNTED.finditer(re.sub(r"\n(?!\n)", " ", text)):
        paragraph = text[text.rfind("\n\n", 0, one.start()) + 1:text.find("\n\n", one.end())]
        if one[1].isdigit() or one[1] in NUMBERS:
            nearest = min(commands, key=lambda it: abs(it.start() - one.start()), default=None)
            wanted = nearest and measured(nearest[1], paragraph)
            if wanted != NUMBERS.get(one[1], one[1]) and str(wanted) != one[1]:
                yield f"{one[0]}: {nearest[1] if nearest else 'no command'} makes {wanted}"


def main():
    pages, others = pages_and_sources()
    sources, names, wrong = Sources(others), 0, []
    for page in pages:
        place = page.relative_to(TOP)
        text = re.sub(r"^```.*?^```", "", page.read_text(), flags=re.MULTILINE | re.DOTALL)
        made = set(re.findall(r"`([^`\n]+)`:$", text, re.MULTILINE))
        for span in dict.fromkeys(re.findall(r"`([^`\n]+)`", text)):
            names += 1
            if PATH.fullmatch(span):
                if span not in made and not sources.has_path(span):
                    wrong.append(f"{place}: no source has the path {span}")
            else:
                wrong += [f"{place}: no source has {it}, of {span}" for it in sources.lacking(span)]
        wrong += [f"{place}: {it}" for it in wrong_counts(text)]
    if names < LEAST_NAMES:
        wrong.append(f"the pages have {names} names")
    print("".join(f"{line}\n" for line in wrong), end="")
    return 1 if wrong else 0


if __name__ == "__main__":
    sys.exit(main())
