"""Writes the page: index.html with the style, and the modules as one script.

usage: bundle.py WEB PACKAGE: the folder of the page, and the package for JavaScript, with the
module in it, whose files take the place of those in bindings/javascript.

A module becomes a function that is called once, and gives what it exports. The modules are written
in one way: an import names what it takes, or all as one name; an export comes before a declaration,
or names what it passes on of another module.
"""

import base64
import hashlib
import json
import pathlib
import re
import sys

BINDING = "../../bindings/javascript/"
IMPORT = re.compile(r'^import (\{[^}]*\}|\* as \w+) from "([^"]+)";\n', re.M)
PASSED_ON = re.compile(r'^export (\{[^}]*\}|\*) from "([^"]+)";\n', re.M)
DECLARED = re.compile(r"^export ((?:const|let|class|(?:async )?function) (\w+))", re.M)
COMMENT = re.compile(r"^ *(//[^\n]*|/\*\*.*?\*/)\n", re.M | re.S)


class Bundle:
    """The modules so far, each after those that it imports."""

    def __init__(self, package: pathlib.Path) -> None:
        self.package = package
        self.names: dict[pathlib.Path, str] = {}
        self.functions: list[str] = []

    def found(self, importer: pathlib.Path, path: str) -> pathlib.Path:
        if path.startswith(BINDING):
            return self.package / path.removeprefix(BINDING)
        return (importer.parent / path).resolve()

    def name(self, path: pathlib.Path) -> str:
        """The name of what the module exports."""
        if path not in self.names:
            function = self.function(path)
            self.names[path] = f"{path.stem}Module{len(self.names)}"
            self.functions.append(f"const {self.names[path]} = {function};\n")
        return self.names[path]

    def function(self, path: pathlib.Path) -> str:
        text = path.read_text(encoding="utf-8")
        given = [name for _, name in DECLARED.findall(text)]

        def imported(match: re.Match[str]) -> str:
            name = self.name(self.found(path, match[2]))
            taken = match[1].removeprefix("* as ").replace(" as ", ": ")
            return f"const {taken} = {name};\n"

        def passed_on(match: re.Match[str]) -> str:
            name = self.name(self.found(path, match[2]))
            if match[1] == "*":
                given.append(f"...{name}")
                return ""
            for words in match[1].strip("{} \n").split(","):
                before, _, after = words.strip().partition(" as ")
                if before:
                    given.append(f"{after or before}: {name}.{before}")
            return ""

        text = PASSED_ON.sub(passed_on, IMPORT.sub(imported, text))
        text = DECLARED.sub(r"\1", COMMENT.sub("", text))
        if re.search(r"^(import|export)\b", text, re.M):
            sys.exit(f"{path}: an import or an export of another form")
        return f"(() => {{\n{text}return {{ {', '.join(given)} }};\n}})()"


def script(web: pathlib.Path, package: pathlib.Path) -> str:
    bundle = Bundle(package)
    bundle.name(web / "src/main.js")
    # The page has a message that it does not work, unless this script hides it.
    return f"""
const broken = document.querySelector("#broken");
try {{
{"".join(bundle.functions)}  broken.hidden = true;
}} catch (error) {{
  broken.append(` The reason: ${{error.message}}.`);
  document.querySelector("#sides").inert = true;
  throw error;
}}
"""


def source_of(text: str) -> str:
    """How a policy names a script or a style."""
    digest = hashlib.sha256(text.encode("utf-8")).digest()
    return f"'sha256-{base64.b64encode(digest).decode()}'"


def page(web: pathlib.Path, package: pathlib.Path) -> str:
    style = COMMENT.sub("", (web / "style.css").read_text(encoding="utf-8"))
    code = script(web, package)
    if "</script" in code or "<!--" in code:
        sys.exit("the script has what ends one")
    version = json.loads((package / "package.json").read_text(encoding="utf-8"))["version"]
    policy = "; ".join([
        "default-src 'none'",
        f"script-src {source_of(code)} 'wasm-unsafe-eval'",
        f"style-src {source_of(style)}",
        "base-uri 'none'",
        "form-action 'none'",
    ])
    text = (web / "index.html").read_text(encoding="utf-8")
    parts = {"POLICY": policy, "STYLE": style, "SCRIPT": code, "VERSION": version}
    return re.sub(r"@([A-Z]+)@", lambda match: parts[match[1]], text)


def main() -> None:
    web, package = (pathlib.Path(word).resolve() for word in sys.argv[1:])
    sys.stdout.buffer.write(page(web, package).encode("utf-8"))


main()
