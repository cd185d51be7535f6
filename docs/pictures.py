#!/usr/bin/env python3
"""Draws docs/crates.svg: each crate above those that it uses.

usage: docs/pictures.py           draws the picture
       docs/pictures.py --check   draws nothing; status 1 if the picture isn't what would be drawn

The crates are those of crates.txt, each with its modules.
"""
import sys
import textwrap
from xml.sax.saxutils import escape

sys.dont_write_bytecode = True  # The folder of the pages gets no cache of the other scripts.

from sources import TOP

# A package and what it is built over, which crates.txt does not have.
PACKAGES = {
    "bindings/rust": "data_encoding_c",
    "bindings/python": "data_encoding_c",
    "bindings/javascript": "data_encoding_c",
    "web": "bindings/javascript",
}

# Dark ink on light paper, or the reverse, as the reader's system asks.
STYLE = """
  .paper { fill: #ffffff } .ink { fill: #1f2328 } .dim { fill: #59636e }
  .box { fill: #f0f4f8; stroke: #59636e }
  .line { stroke: #59636e; fill: none }
  .name { font: bold 14px monospace } .text { font: 12px monospace }
  @media (prefers-color-scheme: dark) {
    .paper { fill: #0d1117 } .ink { fill: #e6edf3 } .dim { fill: #a3adb8 }
    .box { fill: #1c2733; stroke: #a3adb8 } .line { stroke: #a3adb8 }
  }
"""


class Picture:
    """Shapes, and the size of the paper."""

    def __init__(self, title, width):
        self.title, self.width, self.height, self.shapes = title, width, 0, []

    def text(self, x, y, words, kind):
        self.shapes.append(f'<text x="{x:.0f}" y="{y:.0f}" text-anchor="middle" class="{kind}">'
                           f"{escape(words)}</text>")

    def box(self, x, y, width, height):
        self.shapes.append(f'<rect x="{x:.0f}" y="{y:.0f}" width="{width:.0f}" height="{height:.0f}" '
                           'rx="6" class="box"/>')
        self.height = max(self.height, y + height + 12)

    def labelled(self, x, y, width, height, name, lines):
        """A box around its middle, with a name and lines below it."""
        self.box(x - width / 2, y, width, height)
        self.text(x, y + 18, name, "name ink")
        for number, line in enumerate(lines):
            self.text(x, y + 35 + 15 * number, line, "text dim")

    def arrow(self, x, y, to_x, to_y):
        self.shapes.append(f'<path d="M{x:.0f} {y:.0f} L{to_x:.0f} {to_y:.0f}" class="line" '
                           'marker-end="url(#head)"/>')

    def svg(self):
        size = f"{self.width:.0f} {self.height:.0f}"
        return "\n".join([
            f'<svg xmlns="http://www.w3.org/2000/svg" viewBox="0 0 {size}" role="img">',
            f"<title>{escape(self.title)}</title>", f"<style>{STYLE}</style>",
            '<defs><marker id="head" viewBox="0 0 8 8" refX="7" refY="4" markerWidth="8" '
            'markerHeight="8" orient="auto"><path d="M0 1 L7 4 L0 7" class="line"/></marker></defs>',
            '<rect width="100%" height="100%" class="paper"/>', *self.shapes, "</svg>", ""])


def uses():
    """What each crate and each package uses of the others."""
    rows = [line.partition(":") for line in (TOP / "crates.txt").read_text().split("\n")
            if line and not line.startswith("#")]
    names = {head.split()[0]: used.split() for head, _, used in rows}
    found = {name: {it for it in used if it in names} for name, used in names.items()}
    return found | {name: {below} for name, below in PACKAGES.items()}


def ranks(used):
    """How many crates are below each, one upon the other."""
    found = {}

    def rank(name):
        if name not in found:
            found[name] = 1 + max((rank(below) for below in used[name]), default=-1)
        return found[name]

    for name in used:
        rank(name)
    return found


def below_all(used, name):
    """All that a crate is over, at any distance."""
    return used[name].union(*(below_all(used, it) for it in used[name]))


def modules(name):
    """The modules at the top of a crate, but for the root."""
    files = (TOP / "crates" / name / "src").glob("*.rt")
    return sorted(it.stem for it in files if it.stem not in ("lib", "main", "tests"))


def placed(row, below, width, paper):
    """The middle of each box of a row, in the order of what they are over."""
    mean = {name: sum(below[it] for it in used) / len(used) if used else paper / 2
            for name, used in row.items()}
    order = sorted(row, key=lambda name: mean[name])
    whole = len(order) * (width + 12)
    middle = mean[order[0]] if len(order) == 1 else paper / 2
    start = min(max(middle - whole / 2, 0), paper - whole) + 6
    return {name: start + at * (width + 12) + width / 2 for at, name in enumerate(order)}


def direct(used):
    """What each uses, without what another of these is over."""
    return {name: {it for it in below if not any(it in below_all(used, other) for other in below)}
            for name, below in used.items()}


def rows_of_crates(below, paper):
    """The rows from below: the middles of the boxes, and the width, height and lines of a row."""
    rank_of, middle, rows = ranks(below), {}, []
    for rank in range(max(rank_of.values()) + 1):
        row = {name: below[name] for name in below if rank_of[name] == rank}
        width = min(420, paper / len(row) - 12)
        middle |= placed(row, middle, width, paper)
        lines = {it: textwrap.wrap(", ".join(modules(it)), int(width / 7.6)) for it in row}
        rows.append((width, 28 + 15 * max(map(len, lines.values())), lines))
    return middle, rows


def crates():
    picture, below = Picture("The crates, each over those that it uses", 1000), direct(uses())
    middle, rows = rows_of_crates(below, picture.width)
    top, places = 12, {}
    for width, height, lines in reversed(rows):
        for name, words in lines.items():
            places[name] = top, top + height
            picture.labelled(middle[name], top, width, height, name, words)
        top += height + 34
    for name, it in sorted((name, it) for name in below for it in below[name]):
        picture.arrow(middle[name], places[name][1], middle[it], places[it][0])
    return picture.svg()


def main():
    path, svg = TOP / "docs/crates.svg", crates()
    if "--check" not in sys.argv[1:]:
        path.write_text(svg)
    elif not path.exists() or path.read_text() != svg:
        print("docs/crates.svg is stale: docs/pictures.py draws it anew")
        return 1
    return 0


if __name__ == "__main__":
    sys.exit(main())
