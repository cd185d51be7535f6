"""The definitions of crates/*/specs/, as docs/contracts.py, docs/definitions.py and docs/proved.py read
them: where each is, the comment above it, and the definitions that its text names.

A key is the crate, the module and the name of a definition. Module names are unique within a crate.
"""
import re
from pathlib import Path

TOP = Path(__file__).resolve().parent.parent

# The first line of a definition.
HEAD = re.compile(r"^(?:abbrev |unfoldable |pub |record |data )+(\w+)\b(?! *=)")
USE = re.compile(r"^ *(?:ghost )?use Rattle\.(\w+)\.specs\.(?:\w+\.)*?(\w+)\.\{(.*?)\}", re.MULTILINE | re.DOTALL)
PASSED_ON = re.compile(r"^pub use Rattle\.(\w+)\.specs\.(?:\w+\.)*(\w+)$", re.MULTILINE)
NAME = re.compile(r"(?<![\w.])[A-Za-z_]\w*")


class Definition:
    """A definition: its file, its line there, the comment above it and its own lines."""

    def __init__(self, path, line, comment, lines):
        self.path, self.line, self.comment, self.lines = path, line, comment, lines
        self.module = path.stem
        self.crate = path.relative_to(TOP).parts[1]
        self.name = HEAD.match(lines[0])[1]
        self.key = self.crate, self.module, self.name

    @property
    def file(self):
        """The path of its file from the folder of the pages."""
        return f"../{self.path.relative_to(TOP)}"


def names_in(text):
    """The names in a text of Rattle, each once and without those in comments."""
    return list(dict.fromkeys(NAME.findall(re.sub(r"(--|//).*", "", text))))


def parts_of(text):
    """The parts of a file between empty lines, each with the number of its first line."""
    at = 1
    for part in text.split("\n\n"):
        lines = part.split("\n")
        empty = len(lines) - len("\n".join(lines).lstrip("\n").split("\n"))
        yield at + empty, part.strip("\n").split("\n")
        at += len(lines) + 1


def definitions():
    """Every definition of specs/ by its key, in the order of the files."""
    found = {}
    for path in sorted(TOP.glob("crates/*/specs/**/*.antt")):
        for line, lines in parts_of(path.read_text()):
            comment = [it for it in lines if it.startswith("--")]
            rest = [it for it in lines if not it.startswith("--")]
            if rest and HEAD.match(rest[0]) and not re.match(r"(pub )?(mod|use)\b", rest[0]):
                one = Definition(path, line + lines.index(rest[0]), comment, rest)
                found[one.key] = one
    return found


class Imports:
    """The definitions that the names of a file stand for."""

    def __init__(self, known):
        self.known, self.homes, self.direct = known, {}, {}
        for path in TOP.glob("crates/*/specs/**/*.antt"):
            crate = path.relative_to(TOP).parts[1]
            for other, module in PASSED_ON.findall(path.read_text()):
                self.homes[crate, module] = other, module

    def of(self, text, own=()):
        """The keys by the names that a text imports; `own` is the crate and module of the text."""
        found = {key[2]: key for key in self.known if key[:2] == own}
        for crate, module, listed in USE.findall(text):
            home = self.homes.get((crate, module), (crate, module))
            for name in re.findall(r"[^\s,][^,]*", listed):
                one, _, other = name.strip().partition(" as ")
                if (*home, one) in self.known:
                    found[other or one] = *home, one
        return found

    def below(self, key):
        """The keys that a definition names, in the order of the files."""
        if key not in self.direct:
            one = self.known[key]
            names = names_in("\n".join(one.lines))
            found = self.of(one.path.read_text(), key[:2])
            self.direct[key] = [it for name, it in found.items() if name in names and it != key]
        return self.direct[key]

    def reach(self, roots):
        """The keys that some keys reach: these, those that they name, and so on."""
        reached, left = set(), list(roots)
        while left:
            key = left.pop()
            if key not in reached:
                reached.add(key)
                left += self.below(key)
        return reached
