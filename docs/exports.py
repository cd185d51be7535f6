#!/usr/bin/env python3
"""Writes the contracts of the exports of data_encoding_c for Frama-C from their sources in Rattle, and
compares what C declares with these sources.

usage: docs/exports.py           writes crates/data_encoding_c/contracts/exports.h
       docs/exports.py --check   writes nothing; status 1 if that file isn't what would be written, or if
                                 a function, a struct or DE_TABLES in C differs from its source
"""
import functools
import re
import sys
import textwrap

sys.dont_write_bytecode = True  # The folder of the pages gets no cache of the other scripts.

from sources import TOP

CRATE = TOP / "crates/data_encoding_c"
OUTPUT = CRATE / "contracts/exports.h"
COLUMNS = 100

# The names in C of the structs. The fields of a PlainEncoding are private: in C it is DE_TABLES bytes.
STRUCTS = {"Form": "struct form", "TextLengths": "struct text_lengths", "Made": "struct made",
           "Decoded": "de_decoded", "PlainKept": "de_decoder", "KeptData": "de_encoder"}
SCALARS = {"u8": "byte", "bool": "bool", "usize": "size_t", "u32": "uint32_t"}
# Types with the same representation have one name, to compare them.
ALIASES = {"de_status": "uint32_t", "de_number": "uint32_t", "unsigned char": "byte"}
# A contract has these structs as values that are made of their fields.
VALUES = {"Form": "form", "TextLengths": "lengths"}

HEAD = """\
/* What the proved exports require and ensure: written by docs/exports.py from src/, do not edit.
 * Assumed here, proved there.
 *
 * The relations have no definitions here. `RByNumber` is `ByNumber .. (λ base. R base ..)`, and
 * `EachR` is an R of every base. */
"""


@functools.cache
def sources():
    """The texts of all sources."""
    return [path.read_text() for path in sorted(TOP.glob("crates/*/src/**/*.rt"))]


@functools.cache
class Struct:
    """A struct of the sources with repr(C): the types and names of its fields, without ghosts."""

    def __init__(self, name):
        head = r"#\[repr\(C\)\]\n(?:#\[[^\n]*\]\n)*pub struct %s \{(.*?)\n\}" % name
        found = [it[1] for text in sources() if (it := re.search(head, text, re.DOTALL))]
        if len(found) != 1:
            raise SystemExit(f"{name} is the name of {len(found)} structs with repr(C)")
        self.fields = re.findall(r"^    (?:pub(?:\(crate\))? )?(\w+): (.*),$", found[0], re.MULTILINE)

    def in_c(self):
        return [f"{c_type(kind)} {name}{c_length(kind)}" for name, kind in self.fields]

    def size(self):
        """Its size, if all its fields are bytes, between which nothing is left."""
        return sum(size_of(kind) for _, kind in self.fields)

    def bools(self):
        return [name for name, kind in self.fields if kind == "bool"]


def array(kind):
    """The type and the length of an array, or None."""
    found = re.fullmatch(r"\[(\w+); (\d+)\]", kind)
    return found and (found[1], int(found[2]))


def c_type(kind):
    kind = array(kind)[0] if array(kind) else kind
    return "byte" if kind == "PlainEncoding" else {**SCALARS, **STRUCTS}[kind]


def c_length(kind):
    return "[DE_TABLES]" if kind == "PlainEncoding" else f"[{array(kind)[1]}]" if array(kind) else ""


def size_of(kind):
    if kind in ("u8", "bool"):
        return 1
    return array(kind)[1] * size_of(array(kind)[0]) if array(kind) else Struct(kind).size()


class Parameter:
    """A parameter of an export, and its words in a contract."""

    def __init__(self, text):
        self.name, kind = text.strip().split(": ")
        self.is_pointer, self.is_mut = kind.startswith("&"), kind.startswith("&mut ")
        self.kind = re.sub(r"^&(mut )?", "", kind)
        self.is_slice, self.is_held = self.kind == "[u8]", self.kind == "PlainEncoding"
        self.len = f"{self.name}_len" if self.is_slice else "DE_TABLES" if self.is_held else None

    def in_c(self):
        const = "const " if self.is_pointer and not self.is_mut else ""
        kind = "byte" if self.is_slice else "de_number" if self.kind == "u32" else c_type(self.kind)
        return [f"{const}{kind} {'*' if self.is_pointer else ''}{self.name}"] + (
            [f"size_t {self.len}"] if self.is_slice else [])

    def memory(self):
        """What the pointer points to, as locations."""
        return f"{self.name}[0 .. {self.len} - 1]" if self.len else f"*{self.name}"

    def span(self):
        """The pointer, as a set of pointers."""
        return f"SPAN({self.name}, {self.len})" if self.len else self.name

    def bools(self):
        """That each bool behind the pointer is one."""
        fields = [f"*{self.name}"] if self.kind == "bool" else (
            [f"{self.name}->{it}" for it in Struct(self.kind).bools()] if self.kind in VALUES else [])
        return [f"\\initialized(&{it}) && is_bool({it})" for it in fields]

    def requires(self):
        valid = "slice" if self.len else "\\valid" if self.is_mut else "\\valid_read"
        valid += "_mut" if self.is_slice and self.is_mut else ""
        yield f"{valid}({', '.join(filter(None, [self.name, self.len]))})"
        if self.is_held:
            yield f"KeepsRules(BYTES({self.name}, {self.len}))"
        yield from self.bools()

    def value(self, time):
        """Its value in a contract, and the type of that."""
        if not self.is_pointer:
            return self.name, "integer"
        if self.len:
            value, kind = f"BYTES({self.name}, {self.len})", "byte_list"
        elif self.kind in VALUES:
            value, kind = f"{VALUES[self.kind].upper()}({self.name})", f"{VALUES[self.kind]}_value"
        else:
            value, kind = f"*{self.name}", STRUCTS.get(self.kind, "integer")
        return value if time == "new" else f"\\old({value})", kind


class Export:
    """An export: its signature and its clause."""

    def __init__(self, name, given, result, clause):
        self.name, self.result, self.clause = name, result, clause
        self.parameters = [Parameter(it) for it in given.split(",") if it.strip()]

    def in_c(self):
        result = {"": "void", "u32": "de_status", "Made": "struct made"}[self.result]
        return result, [it for one in self.parameters for it in one.in_c()]

    def value(self, word):
        """The value of a word of the clause, and its type."""
        if word == "result":
            made = "made_of(\\result.status, \\result.detail, held)"
            return (made, "made_value") if self.result == "Made" else ("\\result", "integer")
        name, _, time = word.partition(".")
        return next(it for it in self.parameters if it.name == name).value(time)

    def relation(self, words):
        """The clause in ACSL; its words are added to those that are declared."""
        text = " ".join(self.clause.split())
        by_number = re.fullmatch(r"ByNumber number result \((.*)\) \(λ base\. (\w+) base (.*)\)", text)
        each = re.fullmatch(r"\(base : Base\) → IsSpecified base → (\w+) base ([^\[]*)( \[\])+", text)
        if by_number:
            # What is unchanged is named after the rest, if the relation does not name it.
            rest = by_number[3].split()
            rest += [it for it in re.findall(r"[\w.]+", by_number[1]) if it not in rest]
            text = f"{by_number[2]}ByNumber number {' '.join(rest)}"
        elif each:
            text = f"Each{each[1]} {each[2]}"
        tokens = re.findall(r"[()]|[\w.]+", text)
        value, _ = self.application(tokens, words, "predicate")
        if tokens:
            raise SystemExit(f"{self.name}: a clause that is not understood: {text}")
        return value

    def application(self, tokens, words, kind):
        """A name and its arguments, from the front of the tokens."""
        name, arguments = tokens.pop(0), []
        while tokens and tokens[0] != ")":
            token = tokens.pop(0)
            if token == "(":
                arguments.append(self.application(tokens, words, "logic value"))
                tokens.pop(0)
            else:
                arguments.append(self.value(token))
        types = ", ".join(f"{it} {'abcdefghijkl'[at]}" for at, (_, it) in enumerate(arguments))
        words.setdefault(name, f"{kind} {name}({types});")
        return f"{name}({', '.join(it for it, _ in arguments)})", "value"

    def contract(self, words, name=None, requires=()):
        """Its lines, under that name."""
        pointers = [it for it in self.parameters if it.is_pointer]
        muts = [it for it in pointers if it.is_mut]
        requires = [*requires, *(line for it in pointers for line in it.requires())]
        for sets in [[it] + muts for it in pointers if not it.is_mut] or [muts]:
            if len(sets) > 1 and muts:
                requires.append(f"\\separated({', '.join(it.span() for it in sets)})")
        sources = [it.memory() if it.is_pointer else it.name for it in self.parameters]
        sources += [it.len for it in self.parameters if it.is_slice]
        targets = [it.memory() for it in muts] + (["\\result"] if self.result else [])
        ensures = self.relation(words)
        if self.result == "Made":
            ensures = ("\\exists byte_list held; ARE_BYTES(\\result.held, DE_TABLES, held) && "
                       f"KeepsRules(held) && {ensures}")
        lines = [f"requires {it};" for it in requires] + ["terminates \\true; exits \\false;"]
        lines.append(f"assigns {', '.join(targets)} \\from {', '.join(sources)};")
        lines += [f"ensures {it};" for one in muts for it in one.bools()] + [f"ensures {ensures};"]
        result, parameters = self.in_c()
        first, *rest = (part for it in lines for part in wrapped(f"  @ {it}", "  @   "))
        return [*wrapped(f"/* {' '.join(self.clause.split())} */", " * "), first.replace("  @", "/*@"), *rest,
                "  @*/", *wrapped(f"{result} {name or self.name}({', '.join(parameters)});", "    "), ""]


def exports():
    """The exports by their names."""
    pattern = r'pub extern "C" fn (\w+)\(([^)]*)\)(?: -> (\w+))?\s+ensures \{(.*?)\}\n\{'
    found = [Export(*it) for path in sorted(CRATE.glob("src/*.rt"))
             for it in re.findall(pattern, path.read_text(), re.DOTALL)]
    return {it.name: it for it in found}


def without_comments(path):
    return re.sub(r"/\*.*?\*/", "", path.read_text(), flags=re.DOTALL)


def declared():
    """The declarations of the exports in C by their names, and the names of those that have two builds."""
    pattern = r"^(de_status|void|struct made) (\w+)\(([^)]*)\);"
    glue = without_comments(CRATE / "glue/data_encoding.c")
    both = re.sub(r"CALL\((\w+)\)", r"de_\1", without_comments(CRATE / "glue/bytes.h"))
    found = {name: (result, [" ".join(it.split()) for it in given.split(",")])
             for result, name, given in re.findall(pattern, glue + both, re.MULTILINE)}
    return found, [name for _, name, _ in re.findall(pattern, both, re.MULTILINE)]


def wrapped(text, indent, end=""):
    """The text in lines of the file, each but the last with that end. A line ends after a comma, a
    semicolon or `&&`, or, in a comment, after any word."""
    if not text.startswith("/* "):
        text = re.sub("(?<![,;&]) ", "\xa0", text)
    lines = textwrap.wrap(text.replace(" */", "\xa0*/"), COLUMNS - len(end), subsequent_indent=indent,
                          break_long_words=False, break_on_hyphens=False)
    lines = [line.replace("\xa0", " ") for line in lines]
    return [line.ljust(COLUMNS - len(end)) + end if end else line for line in lines[:-1]] + lines[-1:]


def normal(line):
    """A field of a struct in C, with one name for each type."""
    return " ".join(ALIASES.get(it, it) for it in re.split(r"(unsigned char)|\s", line) if it)


def boundary(found, in_c):
    """Where what C declares is not what the sources have."""
    wrong = [f"{name}: {found[name].in_c() if name in found else 'no export'}, in C {in_c.get(name)}"
             for name in sorted({*found, *in_c}) if name not in found or found[name].in_c() != in_c.get(name)]
    text = "".join(without_comments(CRATE / it) for it in ("glue/data_encoding.c", "include/data_encoding.h"))
    for name, c_name in STRUCTS.items():
        body = re.search(r"struct %s \{(.*?)\n\}" % c_name.removeprefix("struct "), text, re.DOTALL)[1]
        given = [normal(it) for it in re.findall(r"^    (.*);$", body, re.MULTILINE)]
        if given != Struct(name).in_c():
            wrong.append(f"{name}: {Struct(name).in_c()}, in C {given}")
    tables = int(re.search(r"#define DE_TABLES (\d+)", text)[1])
    if tables != Struct("PlainEncoding").size():
        wrong.append(f"PlainEncoding has {Struct('PlainEncoding').size()} bytes, and DE_TABLES is {tables}")
    return wrong


def written(found, both):
    """The text of the file of contracts."""
    words, contracts = {}, []
    for export in found.values():
        contracts += export.contract(words)
    contracts.append("#ifdef DE_WIDE")
    for name in both:
        contracts += found[name].contract(words, name.replace("de_", "de_wide_"), ["has_v3(0)"])
    fields = {name: Struct(name).fields for name in VALUES}
    lines = [HEAD, "/*@ axiomatic Relations {", "  @   type value;"]
    for name, value in VALUES.items():
        types = ", ".join(f"integer {field}" for field, _ in fields[name])
        lines.append(f"  @   type {value}_value;")
        lines += wrapped(f"  @   logic {value}_value {value}_of({types});", "  @     ")
    lines += ["  @   type made_value;",
              "  @   logic made_value made_of(integer status, integer detail, byte_list held);"]
    lines += [part for it in words.values() for part in wrapped(f"  @   {it}", "  @     ")]
    lines += ["  @ }", "  @*/", ""]
    for name, value in VALUES.items():
        values = ", ".join(f"(p)->{field}" for field, _ in fields[name])
        lines += wrapped(f"#define {value.upper()}(p) {value}_of({values})", "    ", "\\")
    return "\n".join([*lines, "", *contracts, "#endif", ""])


def main():
    check, found = "--check" in sys.argv[1:], exports()
    in_c, both = declared()
    wrong = boundary(found, in_c)
    text = written(found, both)
    if not check:
        OUTPUT.write_text(text)
    elif not OUTPUT.exists() or OUTPUT.read_text() != text:
        wrong.append(f"{OUTPUT.relative_to(TOP)} is stale: docs/exports.py writes it anew")
    print("".join(f"{line}\n" for line in wrong), end="")
    return 1 if wrong else 0


if __name__ == "__main__":
    sys.exit(main())
