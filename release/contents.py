"""Prints what went into a release, and under which licences, as an SPDX document.

usage: contents.py VERSION DIR PART..: the files of DIR are those of the parts.
"""

import hashlib
import json
import os
import pathlib
import subprocess
import sys
import time
from typing import Any, Dict, List

AUTHORS = "The Bamsturk authors"

# What is linked into the files besides this repository: an identifier, a name, a licence, of which
# parts it is, and what it is.
LINKED = [
    ("toolchain", "The runtime of Rattle's toolchain", "NOASSERTION",
     "program c rust python javascript",
     "Its standard library, whose functions are compiled in. The toolchain states no licence of "
     "these."),
    ("arrayvec", "arrayvec", "MIT OR Apache-2.0", "program c rust python javascript",
     "The port of the Rust crate that the toolchain has."),
    ("libgcc", "libgcc and the start files of GCC", "GPL-3.0-or-later WITH GCC-exception-3.1",
     "program c python", "What a compiler links into each program and shared library."),
    ("glibc", "The start files of the GNU C library", "LGPL-2.1-or-later", "program c python",
     "What a compiler links into each program and shared library; its licence lets these be "
     "linked freely. The library itself is the machine's."),
]

# What made the files, besides the toolchain.
TOOLS = [
    ["cc", "--version"],
    ["aarch64-linux-gnu-gcc", "--version"],
    ["ld", "--version"],
    ["dpkg-deb", "--version"],
    ["cargo", "--version"],
    ["/usr/bin/python3", "-c",
     "import setuptools, wheel; print('setuptools', setuptools.__version__, 'wheel', "
     "wheel.__version__)"],
    ["npm", "--version"],
    ["wasm-opt", "--version"],
]


def said(words: List[str]) -> str:
    """The first line that a command prints, or nothing where it fails."""
    try:
        ran = subprocess.run(words, capture_output=True, text=True, check=False)
    except FileNotFoundError:
        return ""
    return ran.stdout.partition("\n")[0] if ran.returncode == 0 else ""


def tools() -> List[str]:
    """A line for each tool: its name, and its version or `none`."""
    # `rt doc` prints the path of a page at the top of the toolchain's folder.
    folder = pathlib.Path(said(["rt", "doc"])).parent / "toolchain/bin"
    kit = [["rt", "version"]]
    kit += [[str(folder / name), "--version"] for name in ("clang", "ld.lld")]
    return [f"{pathlib.Path(it[0]).name}: {said(it) or 'none'}" for it in kit + TOOLS]


def commit() -> str:
    name = said(["git", "rev-parse", "HEAD"])
    if not name:
        return "no commit"
    changed = said(["git", "status", "--porcelain"])
    return f"commit {name}{', with changes' if changed else ''}"


def package(key: str, name: str, licence: str, version: str, comment: str) -> Dict[str, Any]:
    return {
        "SPDXID": f"SPDXRef-{key}",
        "name": name,
        **({"versionInfo": version} if version else {}),
        "downloadLocation": "NOASSERTION",
        "filesAnalyzed": False,
        "licenseConcluded": licence,
        "licenseDeclared": licence,
        "copyrightText": "NOASSERTION",
        "comment": comment,
    }


def file(key: str, path: pathlib.Path) -> Dict[str, Any]:
    digest = hashlib.sha256(path.read_bytes()).hexdigest()
    return {
        "SPDXID": key,
        "fileName": f"./{path.name}",
        "checksums": [{"algorithm": "SHA256", "checksumValue": digest}],
        "licenseConcluded": "NOASSERTION",
        "copyrightText": f"Copyright (c) 2026 {AUTHORS}",
    }


def relation(one: str, kind: str, other: str) -> Dict[str, str]:
    return {"spdxElementId": one, "relationshipType": kind, "relatedSpdxElement": other}


def document(version: str, folder: pathlib.Path, parts: List[str]) -> Dict[str, Any]:
    source = commit()
    kit = said(["rt", "version"])
    made = time.strftime("%Y-%m-%dT00:00:00Z", time.gmtime(int(os.environ["SOURCE_DATE_EPOCH"])))
    packages = [package("bamsturk", "Bamsturk", "MIT", version, f"This repository: {source}.")]
    relations = [relation("SPDXRef-DOCUMENT", "DESCRIBES", "SPDXRef-bamsturk")]
    for key, name, licence, where, comment in LINKED:
        linked = [part for part in parts if part in where.split()]
        if linked:
            comment = f"{comment} It is in: {', '.join(linked)}."
            found = kit if key in ("toolchain", "arrayvec") else ""
            packages.append(package(key, name, licence, found, comment))
            relations.append(relation("SPDXRef-bamsturk", "STATIC_LINK", f"SPDXRef-{key}"))
    files = []
    for index, path in enumerate(sorted(folder.iterdir()), 1):
        files.append(file(f"SPDXRef-file-{index}", path))
        relations.append(relation("SPDXRef-bamsturk", "GENERATES", f"SPDXRef-file-{index}"))
    return {
        "spdxVersion": "SPDX-2.3",
        "dataLicense": "CC0-1.0",
        "SPDXID": "SPDXRef-DOCUMENT",
        "name": f"bamsturk-{version}",
        "documentNamespace": f"urn:bamsturk:{version}:{source.replace(' ', '-').replace(',', '')}",
        "creationInfo": {
            "created": made,
            "creators": [f"Organization: {AUTHORS}", "Tool: release/build"],
            "comment": "\n".join(tools()),
        },
        "packages": packages,
        "files": files,
        "relationships": relations,
    }


def main() -> None:
    version, folder, *parts = sys.argv[1:]
    print(json.dumps(document(version, pathlib.Path(folder), parts), indent=2))


main()
