"""Compares the list of what went into a release with its files: names and sums, the licence and
what is linked in each, and the versions of tools that files name.

usage: contents.py LIST LICENSE: the list is in the folder of the files.
"""

import hashlib
import io
import json
import pathlib
import re
import subprocess
import sys
import tarfile
import tempfile
import zipfile
from typing import Any, Dict, List, Set

LIST = pathlib.Path(sys.argv[1])
LICENCE = pathlib.Path(sys.argv[2]).read_bytes()
# The part without a licence, in each of the files that name one.
UNLICENSED = b"LicenseRef-Rattle-Runtime"

# A name of a file, and the part of a release that it is of.
PARTS = {
    r"basecode[-_].*\.(tar\.gz|deb)": "program",
    r"(data-encoding-c-.*\.tar\.gz|libdata-encoding.*\.deb)": "c",
    r"(.*\.crate|data-encoding-rust-.*\.tar\.gz)": "rust",
    r"data_encoding-.*\.(whl|tar\.gz)": "python",
    r"(.*\.tgz|basecode\.html)": "javascript",
}


def part_of(name: str) -> str:
    found = [part for form, part in PARTS.items() if re.fullmatch(form, name)]
    assert len(found) == 1, f"{name} is of the parts {found}"
    return found[0]


def members(path: pathlib.Path) -> Dict[str, bytes]:
    """What a file holds, by the paths in it; of a page, nothing."""
    data = path.read_bytes()
    if path.suffix == ".whl":
        with zipfile.ZipFile(path) as wheel:
            return {name: wheel.read(name) for name in wheel.namelist()}
    if path.suffix == ".deb":
        data = subprocess.run(["dpkg-deb", "--fsys-tarfile", str(path)], check=True,
                              capture_output=True).stdout
    if path.suffix == ".html":
        return {}
    with tarfile.open(fileobj=io.BytesIO(data)) as archive:
        found = {it.name: archive.extractfile(it) for it in archive if it.isfile()}
        return {name: it.read() for name, it in found.items() if it}


def is_linked(data: bytes) -> bool:
    """Whether it is a program or a shared library."""
    return data[:4] == b"\x7fELF" and data[16] in (2, 3)


def made_by(data: bytes) -> List[str]:
    """What a program or a shared library names as that by which it was made."""
    with tempfile.NamedTemporaryFile() as file:
        file.write(data)
        file.flush()
        ran = subprocess.run(["readelf", "-p", ".comment", file.name], check=True,
                             capture_output=True, text=True)
    return re.findall(r"^  \[ *[0-9a-f]+\]  (.*)$", ran.stdout, re.MULTILINE)


def check_relations(listed: Dict[str, Any]) -> None:
    """The list describes this repository, which gives each file and links each other package."""
    packages = [it["SPDXID"] for it in listed["packages"]]
    files = [it["SPDXID"] for it in listed["files"]]
    assert packages[0] == "SPDXRef-bamsturk" and len(set(packages + files)) == len(packages + files)
    wanted = [("SPDXRef-DOCUMENT", "DESCRIBES", packages[0])]
    wanted += [(packages[0], "STATIC_LINK", it) for it in packages[1:]]
    wanted += [(packages[0], "GENERATES", it) for it in files]
    assert wanted == [(it["spdxElementId"], it["relationshipType"], it["relatedSpdxElement"])
                      for it in listed["relationships"]], listed["relationships"]


def check_sums(listed: Dict[str, Any], files: List[pathlib.Path]) -> None:
    sums = {it["fileName"]: [(sum["algorithm"], sum["checksumValue"]) for sum in it["checksums"]]
            for it in listed["files"]}
    assert sums == {f"./{it.name}": [("SHA256", hashlib.sha256(it.read_bytes()).hexdigest())]
                    for it in files}, sums


def check_linked(listed: Dict[str, Any], parts: Set[str], linked: Set[str]) -> None:
    """The toolchain's code is in each part, and what a compiler links where something is linked."""
    where = {"toolchain": parts, "arrayvec": parts, "libgcc": linked, "glibc": linked}
    for it in listed["packages"][1:]:
        assert it["licenseConcluded"] == it["licenseDeclared"], it
        wanted = where.pop(it["SPDXID"].replace("SPDXRef-", ""))
        given = it["comment"].rpartition(" It is in: ")[2].rstrip(".").split(", ")
        assert sorted(given) == sorted(wanted), (it["name"], given, wanted)
    assert not any(where.values()), f"the list has no {list(where)}"


def check_licence(name: str, held: Dict[str, bytes]) -> None:
    """Each file that holds others has the licence of this repository."""
    form = r"(^|/)(LICENSE|usr/share/doc/.*/copyright)$"
    licences = [path for path in held if re.search(form, path)]
    assert licences, f"{name} has no licence"
    for path in licences:
        assert held[path] == LICENCE, f"{name}: another licence: {path}"
    # LICENSE tells what this names. `cargo package` keeps a file as it was, as Cargo.toml.orig.
    form = r"(^|/)(METADATA|PKG-INFO|Cargo\.toml(\.orig)?|package\.json|pyproject\.toml)$"
    for path in filter(re.compile(form).search, held):
        named = re.search(rb"licen[cs]e[^a-z-].*", held[path], re.IGNORECASE)
        assert named and UNLICENSED in named[0], f"{name}: the licence of the runtime: {path}"


def check_toolchain(name: str, data: bytes, tools: Dict[str, str]) -> None:
    """Programs and libraries name the toolchain of the list, as the object files in them do."""
    wanted = tools["rt"].rpartition(" logic ")[2].encode()
    logics = re.findall(rb"rattle logic=([0-9a-f]+)", data)
    assert wanted and logics and all(it.startswith(wanted) for it in logics), (name, logics, wanted)


def check_tools(name: str, held: Dict[str, bytes], tools: Dict[str, str]) -> None:
    """The versions that the file names are those of the list."""
    for path, data in held.items():
        if path.endswith(".dist-info/WHEEL"):
            wheel = re.search(r"^Generator: bdist_wheel \((.*)\)$", data.decode(), re.MULTILINE)
            assert wheel and tools["python3"].endswith(f" wheel {wheel[1]}"), (name, data)
        if is_linked(data) or data.startswith(b"!<arch>\n"):
            check_toolchain(name, data, tools)
        if not is_linked(data):
            continue
        made = made_by(data)
        if name.startswith("basecode"):
            linker = next(it for it in made if it.startswith("Linker: "))
            assert tools["ld.lld"].startswith(linker.replace("Linker: ", "") + " "), (name, made)
        else:
            compiler = "aarch64-linux-gnu-gcc" if data[18] == 183 else "cc"
            version = tools[compiler].partition(" ")[2]
            assert f"GCC: {version}" in made, (name, path, made, version)


def main() -> None:
    listed = json.loads(LIST.read_text())
    assert (listed["spdxVersion"], listed["dataLicense"]) == ("SPDX-2.3", "CC0-1.0")
    own = listed["packages"][0]
    assert f"bamsturk-{own['versionInfo']}.spdx.json" == LIST.name, own
    assert own["licenseConcluded"] == "MIT" and LICENCE.startswith(b"MIT License\n"), own
    assert UNLICENSED in LICENCE, "LICENSE does not name the runtime"
    tools = dict(it.split(": ", 1) for it in listed["creationInfo"]["comment"].split("\n"))
    files = sorted(it for it in LIST.parent.iterdir() if it.name not in (LIST.name, "SHA256SUMS"))
    check_relations(listed)
    check_sums(listed, files)
    parts: Set[str] = set()
    linked: Set[str] = set()
    for path in files:
        held = members(path)
        parts.add(part_of(path.name))
        if any(is_linked(data) for data in held.values()):
            linked.add(part_of(path.name))
        if held:
            check_licence(path.name, held)
        check_tools(path.name, held, tools)
    check_linked(listed, parts, linked)


main()
