"""Drives the page in Firefox, by its own protocol for that, and compares what it shows with the
program: each encoding, faults, and an encoding of one's own. tests/web/page.py has what is the same
in each browser.

usage: firefox.py PAGE PROGRAM
"""

import json
import pathlib
import shutil
import socket
import subprocess
import sys
import tempfile
import time
import unittest
from typing import Any, Tuple

PAGE = pathlib.Path(sys.argv[1]).resolve()
PROGRAM = sys.argv[2]
ELEMENT = "element-6066-11e4-a52e-4f735466cecf"


def program(*words: str, given: bytes) -> Tuple[bytes, str]:
    """What the program writes of this input, and what it says."""
    ran = subprocess.run([PROGRAM, *words], input=given, capture_output=True, check=False)
    return ran.stdout, ran.stderr.decode().strip().removeprefix("basecode: ")


def free_port() -> int:
    with socket.socket() as one:
        one.bind(("127.0.0.1", 0))
        return int(one.getsockname()[1])


class Firefox:
    """A message is the length of its JSON, a colon and the JSON: a kind, a number, and the rest."""

    def __init__(self) -> None:
        self.room = pathlib.Path(tempfile.mkdtemp())
        port = free_port()
        (self.room / "user.js").write_text(f'user_pref("marionette.port", {port});\n')
        self.process = subprocess.Popen(
            ["firefox-esr", "--headless", "--no-remote", "--marionette", "--profile",
             str(self.room), "about:blank"],
            stdout=subprocess.DEVNULL, stderr=subprocess.DEVNULL)
        self.stream = self.connected(port).makefile("rwb")
        self.count = 0
        self.message()
        self.call("WebDriver:NewSession")

    @staticmethod
    def connected(port: int) -> socket.socket:
        end = time.monotonic() + 120
        while True:
            try:
                return socket.create_connection(("127.0.0.1", port), 120)
            except OSError:
                if time.monotonic() > end:
                    raise
                time.sleep(0.2)

    def message(self) -> Any:
        size = b""
        while not size.endswith(b":"):
            more = self.stream.read(1)
            if not more:
                raise EOFError("Firefox has ended")
            size += more
        return json.loads(self.stream.read(int(size[:-1])))

    def call(self, name: str, **parameters: Any) -> Any:
        self.count += 1
        text = json.dumps([0, self.count, name, parameters]).encode()
        self.stream.write(b"%d:%s" % (len(text), text))
        self.stream.flush()
        _, _, error, result = self.message()
        if error:
            raise RuntimeError(f"{name}: {error['message']}")
        return result

    def run(self, script: str, *given: Any) -> Any:
        return self.call("WebDriver:ExecuteScript", script=script, args=list(given))["value"]

    def type(self, selector: str, text: str) -> None:
        found = self.call("WebDriver:FindElement", using="css selector", value=selector)
        self.call("WebDriver:ElementSendKeys", id=found["value"][ELEMENT], text=text)

    def close(self) -> None:
        try:
            self.call("Marionette:Quit", flags=["eForceQuit"])
        finally:
            self.process.wait(60)
            shutil.rmtree(self.room, ignore_errors=True)


class Page(unittest.TestCase):
    firefox: Firefox

    @classmethod
    def setUpClass(cls) -> None:
        cls.firefox = Firefox()

    @classmethod
    def tearDownClass(cls) -> None:
        cls.firefox.close()

    def setUp(self) -> None:
        self.firefox.call("WebDriver:Navigate", url="about:blank")
        self.firefox.call("WebDriver:Navigate", url=PAGE.as_uri())
        self.assertTrue(self.firefox.run("return document.querySelector('#broken').hidden"))

    def choose(self, name: str) -> None:
        self.firefox.run("""
            const choice = document.querySelector('#encoding');
            const wanted = [...choice.options].find((it) => it.text === arguments[0]);
            choice.value = wanted.value;
            choice.dispatchEvent(new Event('change', { bubbles: true }));""", name)

    def clear(self, side: str) -> None:
        self.firefox.run("document.querySelector(arguments[0]).click()", f"#{side} .clear")

    def shown(self, side: str) -> str:
        """What the field shows; a carriage return is an arrow there."""
        value = self.firefox.run("return document.querySelector(arguments[0]).value",
                                 f"#{side} textarea")
        return str(value).replace("\u21b5", "\r")

    def text_of(self, selector: str) -> str:
        return str(self.firefox.run("return document.querySelector(arguments[0]).innerText",
                                    selector))

    def test_eighteen(self) -> None:
        given = "Ünïted \u20ac 0123456789 " * 5
        names = program("list", given=b"")[0].decode().split()
        self.assertEqual(len(names), 18)
        self.firefox.type("#data textarea", given)
        for name in names:
            self.choose(name)
            text = self.shown("text")
            self.assertEqual(text.encode(), program("encode", name, given=given.encode())[0], name)

    def test_both_sides(self) -> None:
        self.choose("BASE64")
        self.firefox.type("#text textarea", "SGVsbG8=")
        self.assertEqual(self.shown("data"), "Hello")
        self.assertEqual(self.text_of("#data .size"), "5 bytes")

    def test_faults(self) -> None:
        for name, text in (
            ("BASE64", "Zm9vYmFyZm9vYmFyZ!9v"),
            ("BASE64", "Zm9vYm"),
            ("BASE64", "Zm9vYh=="),
            ("HEXLOWER", "4G"),
            ("BASE32_NOPAD", "MZXW1"),
        ):
            self.choose(name)
            self.clear("text")
            self.firefox.type("#text textarea", text)
            data, said = program("decode", name, given=text.encode())
            self.assertEqual(self.shown("data").encode(), data, text)
            self.assertIn(said.rpartition(" at ")[2], self.text_of("#text-fault"))

    def test_blanks_and_characters_of_two_units(self) -> None:
        for text, said in (
            ("\ufeffZm9v", "Byte order mark at 0: BASE64 ignores none"),
            ("SGVs\U0001f600G8=", "Not a symbol of BASE64, at 4: \U0001f600"),
        ):
            self.clear("text")
            self.firefox.type("#text textarea", text)
            self.assertEqual(self.text_of("#text-fault"), said)

    def test_data_that_is_not_text(self) -> None:
        self.firefox.type("#text textarea", "AP9I")
        self.assertEqual(self.shown("data"), "00 ff 48")
        self.assertEqual(self.text_of("#data-note"),
                         "These bytes are not UTF-8: they are shown in hex.")
        self.clear("text")
        self.firefox.type("#text textarea", "Zm9v")
        self.assertEqual(self.shown("data"), "foo")

    def test_a_long_text(self) -> None:
        """It is converted after a pause."""
        shown = self.firefox.run("""
            const area = document.querySelector("#data textarea");
            area.value = "x".repeat(100_000);
            area.dispatchEvent(new InputEvent("input"));
            return document.querySelector("#text textarea").value;""")
        self.assertEqual(shown, "")
        end = time.monotonic() + 60
        while self.shown("text") == "":
            self.assertLess(time.monotonic(), end)
            time.sleep(0.1)
        self.assertEqual(len(self.shown("text")), 133_336)

    def test_level(self) -> None:
        tops = [self.firefox.run(
            "return document.querySelector(arguments[0]).getBoundingClientRect().top",
            f"#{side} .field") for side in ("data", "text")]
        self.assertEqual(*tops)

    def test_an_encoding_of_ones_own(self) -> None:
        own = self.firefox.run(
            "return [...document.querySelector('#encoding').options].at(-1).text")
        self.choose(own)
        self.firefox.run("""
            for (const [id, value] of [['own-symbols', '01234567'], ['own-padding', '=']]) {
                const field = document.querySelector('#' + id);
                field.value = value;
                field.dispatchEvent(new Event('input', { bubbles: true }));
            }""")
        self.firefox.type("#data textarea", "Hi")
        self.assertEqual(self.shown("text"), "220644==")


if __name__ == "__main__":
    unittest.main(argv=sys.argv[:1])
