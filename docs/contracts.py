#!/usr/bin/env python3
"""Makes the pages of contracts from the sources: each public call with its clauses.

usage: docs/contracts.py           writes the pages
       docs/contracts.py --check   writes nothing; status 1 if a page isn't what would be written, or
                                   twins (`TWINS`) have different clauses

The pages are docs/CONTRACTS.md and docs/CONTRACTS_CALLS.md. The text above the contents of a page and
above the first call of a crate is written there by hand. So are words on clauses that say more than the
clause, in lines that begin with `- *LABEL*:`. They are kept as long as the clause, and the definitions
that are shown with it, stay the same, and are dropped otherwise.
"""
import re
import sys
import textwrap

sys.dont_write_bytecode = True  # The folder of the pages gets no cache of the other scripts.

from calls import IMPORTS, KNOWN, RECORD_NAMES, all_calls, clauses
from sources import HEAD, TOP, names_in

COLUMNS = 110

# The definitions of these crates are shown with the first call whose clauses name them.
SHOWN = {"encoding_stream", "basecode", "data_encoding_calls"}

# A call with the first in its title has the clauses of the call with the second instead, and a line
# that refers to it.
TWINS = (("`EncodingRef::", "`Encoding::"), ("_by_ref`", "`"))


def page_of(crate):
    """The name of the page that has a call."""
    return "CONTRACTS_CALLS.md" if crate == "data_encoding_c" else "CONTRACTS.md"


def complete(call, shown_at):
    """Adds to the block the definitions that are whole clauses, the records of clauses, and those of
    the crates in `SHOWN` that a clause names, unless another block has them. Returns the call that
    shows the record of its clauses, if another one does."""
    texts = clauses(call.block).values()
    elsewhere = None
    for key in call.keys():
        if key[2] in RECORD_NAMES and key in shown_at:
            elsewhere = shown_at[key]
        elif key not in shown_at and (key[2] in (*RECORD_NAMES, *texts) or key[0] in SHOWN):
            comment = KNOWN[key].comment if key[0] in SHOWN or len(texts) > 1 else []
            call.block += ["", *comment, *KNOWN[key].lines]
            shown_at[key] = call
    return elsewhere


def claims(block):
    """The clauses of a block, each with the definitions of the block that it names."""
    shown = {}
    for part in "\n".join(block).split("\n\n"):
        lines = [line for line in part.split("\n") if not line.startswith("--")]
        head = HEAD.match(lines[0]) if lines else None
        if head:
            shown[head[1]] = " ".join(" ".join(lines).split())
    return {label: " ; ".join([text] + [shown[it] for it in sorted(names_in(text)) if it in shown])
            for label, text in clauses(block).items()}


class Page:
    """A page as it is: the text above its contents and above the calls of a crate, and its words."""

    def __init__(self, text):
        self.text, self.words, self.intros = text, {}, {}
        self.head, *sections = re.split(r"^## ", text, flags=re.MULTILINE)
        for section in sections:
            intro, *entries = re.split(r"^### ", section, flags=re.MULTILINE)
            crate, _, intro = intro.partition("\n")
            self.intros[crate.strip("`")] = intro.strip("\n")
            for entry in entries:
                self.read(crate.strip("`"), entry)

    def read(self, crate, entry):
        """Reads the words of the entry of a call."""
        block, _, rest = entry.partition("```rust\n")[2].partition("\n```\n")
        claimed = claims(block.split("\n"))
        for label, words in re.findall(r"^- \*([\w ]+)\*: ((?:.|\n  )*)", rest, re.MULTILINE):
            self.words[crate, entry.split("\n")[0], label] = claimed.get(label), " ".join(words.split())


def wrapped(text, indent=""):
    return textwrap.wrap(text, COLUMNS, subsequent_indent=indent, break_long_words=False,
                         break_on_hyphens=False)


def links_of(call):
    """The line with the definitions that the clauses name, or their record or a definition of the crates
    in `SHOWN` does, and that the block does not show."""
    keys = call.keys()
    keys = keys + [it for key in keys if key[2] in RECORD_NAMES or key[0] in SHOWN
                   for it in IMPORTS.below(key)]
    shown = {it[1] for it in map(HEAD.match, call.block) if it} | set(RECORD_NAMES)
    links = [f"[`{key[2]}`]({KNOWN[key].file})" for key in dict.fromkeys(keys) if key[2] not in shown]
    return wrapped(f"Definitions: {', '.join(links)}.") + [""] if links else []


def entry(crate, call, page, shown_at):
    """The entry of a call, and the words that were kept."""
    lines, kept = [f"### {call.title}", ""], {}
    if call.summary:
        # The comments of its definitions have the rest of what a law with several clauses states.
        is_short = call.group == "laws" and len(clauses(call.block)) > 1
        lines += wrapped(call.summary.partition(". ")[0] + "." if is_short and ". " in call.summary
                         else call.summary) + [""]
    elsewhere = complete(call, shown_at)
    lines += ["```rust"] + call.block + ["```", ""]
    if elsewhere:
        lines += [f"The clauses are those of {linked_title(elsewhere)}.", ""]
    for label, claim in claims(call.block).items():
        was, words = page.words.get((crate, call.title, label), (None, None))
        if was == claim:
            kept[crate, call.title, label] = words
            lines += wrapped(f"- *{label}*: {words}", "  ")
    return lines + [""] + links_of(call), kept


def linked_title(call):
    return f"[{call.title}](#{call.anchor})"


def twin_of(call, calls):
    """The call that has the same clauses by the rule of `TWINS`."""
    titles = {call.title.replace(*pair) for pair in TWINS} - {call.title}
    return next((it for it in calls if it.title in titles), None)


def contents(crates):
    """The list of calls: for each crate its types, its functions and its laws."""
    lines = ["## Contents", ""]
    for crate, calls in crates.items():
        lines += [f"- [`{crate}`](#{crate})"]
        for group in dict.fromkeys(call.group for call in calls):
            links = [f"[`{call.name}`](#{call.anchor})" if "`" in call.title else linked_title(call)
                     for call in calls if call.group == group]
            title = f"`{group}`" if group else "Functions"
            lines += wrapped(f"  - {title}: {', '.join(links)}", "    ")
    return lines + [""]


def page(name, crates, old, wrong):
    """A page anew, and the words that it kept."""
    lines, shown_at, kept = [old.head.strip("\n"), "", *contents(crates)], {}, {}
    for crate, calls in crates.items():
        lines += [f"## `{crate}`", "", old.intros.get(crate, ""), ""]
        for call in calls:
            twin = twin_of(call, calls)
            if twin and clauses(twin.header) == clauses(call.header):
                lines += [f"### {call.title}", "", f"Like {linked_title(twin)}.", ""]
                continue
            if twin:
                wrong.append(f"{crate}: {call.title} has not the clauses of {twin.title}")
            one, more = entry(crate, call, old, shown_at)
            lines += one
            kept |= more
    wrong += [f"docs/{name}: words dropped at {crate}: {title}, {label}"
              for crate, title, label in sorted(set(old.words) - set(kept))]
    return re.sub(r"\n{3,}", "\n\n", "\n".join(lines)).rstrip("\n") + "\n"


def linked(text, homes):
    """The text with rustdoc's links to calls as links to their headings, and without its other links."""
    def link(it):
        target = re.sub(r"^crate::|[^a-z0-9_:]", "", (it[2] or it[1]).lower()).replace(":", "")
        if (it[2] or "").startswith("http"):
            return it[0]
        return f"[{it[1]}](#{target})" if target in homes else it[1]

    return re.sub(r"\[(`[^`]+`)\](?:\(([^)]+)\))?", link, text)


def resolved(text, name, homes):
    """The text of a page, in which links to calls lead to the pages that have them."""
    return re.sub(r"\]\(#([\w-]+)\)", lambda it: it[0] if homes.get(it[1], name) == name
                  else f"]({homes[it[1]]}#{it[1]})", text)


def by_page():
    """The calls of each page, by their crates, and the page of each anchor."""
    pages, homes = {}, {}
    for crate, calls in all_calls().items():
        for call in sorted(calls, key=lambda it: it.place):
            name = page_of(crate)
            pages.setdefault(name, {}).setdefault(crate, []).append(call)
            homes[call.anchor] = name
    for call in (call for crates in pages.values() for calls in crates.values() for call in calls):
        call.summary = linked(call.summary, homes)
    return pages, homes


def main():
    check, wrong = "--check" in sys.argv[1:], []
    pages, homes = by_page()
    for name, crates in pages.items():
        path = TOP / "docs" / name
        text = path.read_text() if path.exists() else ""
        new = resolved(page(name, crates, Page(text), wrong), name, homes)
        if not check:
            path.write_text(new)
        elif new != text:
            wrong.append(f"docs/{name} is stale: docs/contracts.py writes it anew")
    print("".join(f"{line}\n" for line in wrong), end="")
    return 1 if wrong and check else 0


if __name__ == "__main__":
    sys.exit(main())
