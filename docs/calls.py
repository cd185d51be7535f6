"""The public calls of the crates with their clauses, as docs/contracts.py, docs/definitions.py and
docs/proved.py read them from the sources."""
import re
import textwrap

from sources import TOP, Imports, definitions, names_in

KNOWN = definitions()
IMPORTS = Imports(KNOWN)

# What a crate passes on of the crates below it is listed with its own calls, and these crates have no
# section of their own.
PASSED_ON = {"data_encoding": ("data_encoding_meaning", "data_encoding_kernel")}

# Callers whose contracts are read with their code, and functions that only tests call.
UNLISTED = {"conformance", "conformance_support"}

# Only exports call the functions of this crate, and have its definitions in their clauses.
BELOW_EXPORTS = {"data_encoding_calls"}

# The functions of these modules have one entry, except those of the modules of APART.
TOGETHER = {("specification", "predefined"): "The predefined encodings"}
APART = {("specification", "predefined", "named")}

# Each field of these records is a clause.
RECORDS = TOP / "crates/data_encoding/specs/Calls.antt"
RECORD_NAMES = re.findall(r"^pub record (\w+)", RECORDS.read_text(), re.MULTILINE)

# Items of an `impl` that promise nothing to a caller.
SILENT = {"laws", "is_infallible"}


class Call:
    """A public call, or several with one entry."""

    def __init__(self, title, summary, block, imported=None):
        self.title, self.summary, self.block = title, summary, block
        self.header = list(block)
        # The keys of the definitions that its file imports, by their names there.
        self.imported = imported or {}

    @property
    def group(self):
        """Its type, `laws`, or "" for a function of no type."""
        if " for " in self.title:
            return re.sub(r"&|<.*>", "", self.title.split("`")[3])
        return self.title.strip("`").rpartition("::")[0]

    @property
    def name(self):
        """Its name within the group."""
        return self.title.split("`")[1].rpartition("::")[2] if "`" in self.title else self.title

    @property
    def anchor(self):
        return anchor(self.title)

    @property
    def place(self):
        """Where it comes on a page: the types by their names, then functions, then laws."""
        rank = 2 if self.group.startswith("laws") else 0 if self.group else 1
        return rank, self.group.lower(), " for " in self.title, self.name.lower()

    def keys(self):
        """The keys of the definitions that its clauses name, in the order in which they do."""
        names = names_in(" ".join(clauses(self.header).values()))
        return [self.imported[name] for name in names if name in self.imported]


def anchor(title):
    """The anchor of a heading."""
    return re.sub(r"[^a-z0-9_-]", "", title.lower().replace(" ", "-"))


def indent_of(line):
    return len(line) - len(line.lstrip())


def is_end(line, indent, in_contract):
    """Whether the header of a function ends with this line; that of a trait's ends with a semicolon."""
    if in_contract and not line.endswith(";"):
        return line in (" " * indent + "{", " " * indent + "{}")
    return line.endswith(("{", "{}", ";"))


def header(lines, start):
    """The lines of a function up to its body."""
    indent = indent_of(lines[start])
    in_contract = False
    for at in range(start, len(lines)):
        in_contract = in_contract or bool(re.match(r"\s*(requires|ensures)\b", lines[at]))
        if is_end(lines[at], indent, in_contract):
            end = at if lines[at].strip() in ("{", "{}") else at + 1
            return [re.sub(r" \{\}?$", "", line) for line in lines[start:end]]
    raise ValueError(f"no body: {lines[start]}")


def item(lines, start):
    """The lines of a `ghost NAME = { .. };`."""
    end = start
    while not lines[end].endswith("};"):
        end += 1
    return lines[start:end + 1]


def summary(lines, start):
    """The first paragraph of the documentation above a line."""
    at = start
    while at and re.match(r"\s*(///|#\[)", lines[at - 1]):
        at -= 1
    texts = [line.strip()[3:].strip() for line in lines[at:start] if line.strip().startswith("///")]
    return " ".join(texts[:texts.index("")] if "" in texts else texts)


def dedented(lines):
    return textwrap.dedent("\n".join(lines)).split("\n")


def clauses(block):
    """The clauses of a block by their labels, each as one line; those of one label together.

    In an `impl` of several methods, the method's name comes before the label."""
    found, method = {}, ""
    text = "\n".join(line for line in block if not line.lstrip().startswith(("//", "--")))
    several = text.startswith("impl") and len(re.findall(r"^ +fn ", text, re.MULTILINE)) > 1
    heads = r"^\s*(?:(requires|ensures)\*? ?(\w*)|ghost (\w+) =) \{|^ +fn (\w+)"
    for head in re.finditer(heads, text, re.MULTILINE):
        if head[4]:
            method = f"{head[4]} " if several else ""
            continue
        depth, end = 1, head.end()
        while depth:
            depth += {"{": 1, "}": -1}.get(text[end], 0)
            end += 1
        label = method + (head[2] or head[3] or head[1])
        one = " ".join(text[head.end():end - 1].split())
        found[label] = f"{found[label]} ; {one}" if label in found else one
    name = found.get("ensures", "").split(" ")[0]
    record = name in RECORD_NAMES and re.search(rf"^pub record {name} (?:.+\n?)*", text, re.MULTILINE)
    if record:
        del found["ensures"]
        for field in re.finditer(r"^  pub (\w+) : (.+(?:\n   .+)*)", record[0], re.MULTILINE):
            found[field[1]] = " ".join(field[2].split())
    return found


def public_names(root):
    """What the root file of a crate exports: names, and modules."""
    text = re.sub(r"//.*", "", root.read_text())
    names = set()
    for used in re.findall(r"^pub use (.*?);", text, re.MULTILINE | re.DOTALL):
        names.update(re.findall(r"\w+", used.rpartition("::")[2]))
    return names, public_modules(root.parent, text, "")


def public_modules(folder, text, prefix):
    """The modules that a file exports, by their paths, and those within them."""
    found = set()
    for name in re.findall(r"^pub mod (\w+);", text, re.MULTILINE):
        found.add(prefix + name)
        inner = (folder / f"{name}.rt").read_text()
        found |= public_modules(folder / name, inner, f"{prefix}{name}::")
    return found


def of_impl(lines, at, names):
    """The calls of an `impl`: methods one by one, and those of a trait together."""
    head = re.match(r"impl(?:<.*?>)? (?:([\w:<>]+) for )?(&?(\w+))", lines[at])
    end = lines.index("}", at) if not lines[at].endswith("{}") else at
    if not head or head[3] not in names or head[1] == "Model":
        return []
    inside = range(at + 1, end)
    if not head[1]:
        return [Call(f"`{head[2]}::{name_of(lines[it])}`", summary(lines, it),
                     dedented(header(lines, it)))
                for it in inside if lines[it].startswith("    pub fn ")]
    block = []
    for it in inside:
        ghost = re.match(r"    ghost (\w+) =", lines[it])
        if ghost and ghost[1] not in SILENT:
            block += item(lines, it)
        elif lines[it].startswith("    fn ") and clauses(header(lines, it)):
            block += header(lines, it)
    return [Call(f"`{head[1]}` for `{head[2]}`", "", [lines[at]] + block + ["}"])] if block else []


def of_trait(lines, at, names):
    """The functions of a trait, each within it, with the ghost items that clauses name."""
    name = re.match(r"pub trait (\w+)", lines[at])[1]
    if name not in names:
        return []
    inside = range(at + 1, lines.index("}", at))
    ghosts = [lines[it] for it in inside if lines[it].startswith("    ghost ")]
    return [Call(f"`{name}::{name_of(lines[it])}`", summary(lines, it),
                 [lines[at]] + ghosts + [""] + header(lines, it) + ["}"])
            for it in inside if lines[it].startswith("    fn ")]


def name_of(line):
    return re.search(r"fn (\w+)", line)[1]


def of_file(path, module, names, modules):
    """The public calls of a file, which is that module."""
    text = path.read_text()
    lines = text.split("\n")
    calls = []
    for at, line in enumerate(lines):
        if line.startswith("impl"):
            calls += of_impl(lines, at, names)
        elif line.startswith("pub trait "):
            calls += of_trait(lines, at, names)
        elif line.startswith('pub extern "C" fn '):
            calls.append(Call(f"`{name_of(line)}`", summary(lines, at), header(lines, at)))
        elif line.startswith("pub fn ") and (module in modules or name_of(line) in names):
            prefix = f"{module}::" if module in modules else ""
            calls.append(Call(f"`{prefix}{name_of(line)}`", summary(lines, at), header(lines, at)))
    imported = IMPORTS.of(text)
    for call in calls:
        call.imported = imported
    return calls


def together(calls, title):
    """Several calls as one, each with its documentation above it. A call `NAME_ref` with the clauses of
    `NAME` is left out."""
    block, imported = [], {}
    known = {call.title: clauses(call.block) for call in calls}
    for call in calls:
        if known.get(call.title.replace("_ref`", "`")) != clauses(call.block) or "_ref`" not in call.title:
            block += [f"// {line}" for line in textwrap.wrap(call.summary, 96)] + call.block + [""]
            imported |= call.imported
    return [Call(title, "", block[:-1], imported)] if calls else []


def of_crate(crate):
    """The public calls of a crate, in the order of its files, and those that it passes on."""
    root = next(path for path in (crate / "src/lib.rt", crate / "src/main.rt") if path.exists())
    names, modules = public_names(root)
    names |= {name for module in modules
              for name in types_of(crate / f"src/{module.replace('::', '/')}.rt")}
    calls = []
    for below in PASSED_ON.get(crate.name, ()):
        below = crate.parent / below
        passed = {module for module in public_names(below / "src/lib.rt")[1]
                  if module.split("::")[0] in names}
        calls += of_sources(below / "src", names, passed)
    return calls + of_sources(crate / "src", names, modules)


def of_sources(folder, names, modules):
    """The calls of these names and modules in a folder of sources."""
    calls = []
    gathered = {module: [] for module in TOGETHER}
    for path in sorted(folder.rglob("*.rt")):
        parts = path.relative_to(folder).with_suffix("").parts
        if "tests" in parts:
            continue
        target = calls if parts in APART else gathered.get(parts[:2], calls)
        target += of_file(path, "::".join(parts), names, modules)
    for module, title in TOGETHER.items():
        calls += together(gathered[module], title)
    return calls


def types_of(path):
    return re.findall(r"^pub (?:struct|enum|trait) (\w+)", path.read_text(), re.MULTILINE)


def all_calls():
    """The public calls of each crate that has some, by its name, in the order of crates.txt."""
    lines = (TOP / "crates.txt").read_text().split("\n")
    crates = [line.split(":")[0].split(" ")[0].strip() for line in lines]
    left_out = UNLISTED.union(BELOW_EXPORTS, *PASSED_ON.values())
    found = {crate: of_crate(TOP / "crates" / crate)
             for crate in crates if crate and not crate.startswith("#") and crate not in left_out}
    return {crate: calls for crate, calls in found.items() if calls}
