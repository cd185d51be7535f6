"""Drives the page as a person would, and compares what it shows with the program.

usage: page.py PAGE PROGRAM [PICTURE]: the file of the page, the program, and where a picture of the
page goes.
"""

import hashlib
import json
import os
import pathlib
import re
import shlex
import shutil
import subprocess
import sys
import tempfile
import time
import unittest
from typing import Any, Callable, List, Tuple

from selenium import webdriver
from selenium.webdriver.chrome.options import Options
from selenium.webdriver.chrome.service import Service
from selenium.webdriver.common.action_chains import ActionChains
from selenium.webdriver.common.by import By
from selenium.webdriver.common.keys import Keys
from selenium.webdriver.support.ui import Select

PAGE = pathlib.Path(sys.argv[1]).resolve()
PROGRAM = sys.argv[2]
PICTURE = sys.argv[3] if len(sys.argv) > 3 else None
ROOM = pathlib.Path(tempfile.mkdtemp())

# How the program names the kinds of faults, and the page.
WORDS = {
    "invalid length": "Not a length",
    "invalid symbol": "Not a symbol",
    "non-zero trailing bits": "Bits left over that are not zeros",
    "invalid padding length": "Not the right padding",
}


def program(*words: str, given: bytes) -> Tuple[bytes, str]:
    """What the program writes of this input, and what it says."""
    ran = subprocess.run([PROGRAM, *words], input=given, capture_output=True, check=False)
    return ran.stdout, ran.stderr.decode().strip().removeprefix("basecode: ")


def started() -> webdriver.Chrome:
    options = Options()
    for word in ("--headless=new", "--no-sandbox", "--disable-gpu", "--disable-dev-shm-usage",
                 "--force-device-scale-factor=1", f"--user-data-dir={ROOM}/profile"):
        options.add_argument(word)
    options.set_capability("goog:loggingPrefs", {"browser": "ALL", "performance": "ALL"})
    options.add_experimental_option("prefs", {
        "download.default_directory": str(ROOM / "downloads"),
        "download.prompt_for_download": False,
    })
    return webdriver.Chrome(service=Service("/usr/bin/chromedriver"), options=options)


def setUpModule() -> None:
    (ROOM / "downloads").mkdir()
    Page.driver = started()
    # What the browser itself begins with.
    Page.driver.get("about:blank")
    Page.driver.get_log("performance")


def tearDownModule() -> None:
    Page.driver.quit()
    shutil.rmtree(ROOM, ignore_errors=True)


class Page(unittest.TestCase):
    driver: webdriver.Chrome

    def setUp(self) -> None:
        self.shape(1280, 900)
        self.open()

    def tearDown(self) -> None:
        """Nothing is asked for but the page itself, and nothing goes wrong in it."""
        self.assertEqual(self.driver.get_log("browser"), [])
        for entry in self.driver.get_log("performance"):
            message = json.loads(entry["message"])["message"]
            if message["method"] == "Network.requestWillBeSent":
                url = message["params"]["request"]["url"]
                self.assertTrue(url.startswith(
                    (PAGE.as_uri(), ROOM.as_uri(), "blob:", "about:")), url)

    # What a person does.

    def open(self, address: str = "") -> None:
        self.driver.get("about:blank")
        self.driver.get(PAGE.as_uri() + address)

    def shape(self, width: int, height: int, scheme: str = "light") -> None:
        self.driver.execute_cdp_cmd("Emulation.setDeviceMetricsOverride", {
            "width": width, "height": height, "deviceScaleFactor": 1, "mobile": False})
        self.driver.execute_cdp_cmd("Emulation.setEmulatedMedia", {
            "features": [{"name": "prefers-color-scheme", "value": scheme}]})

    def find(self, selector: str) -> Any:
        return self.driver.find_element(By.CSS_SELECTOR, selector)

    def choose(self, name: str) -> None:
        Select(self.find("#encoding")).select_by_visible_text(name)

    def type(self, side: str, *keys: str) -> None:
        area = self.find(f"#{side} textarea")
        area.click()
        area.send_keys(*keys)

    def clear(self, side: str) -> None:
        self.find(f"#{side} .clear").click()

    def press(self, *keys: str) -> None:
        """Keys together, wherever the focus is."""
        actions = ActionChains(self.driver)
        for key in keys:
            actions.key_down(key)
        for key in reversed(keys):
            actions.key_up(key)
        actions.perform()

    def paste(self, side: str, text: str) -> None:
        """Sets the field as a paste does: keys for a long text take minutes."""
        self.driver.execute_script("""
            arguments[0].value = arguments[1];
            arguments[0].dispatchEvent(new InputEvent('input'));""",
            self.find(f"#{side} textarea"), text)

    def drop(self, side: str, *files: pathlib.Path) -> None:
        """A browser that is driven gets no file from a desktop: the event is made here."""
        self.driver.execute_script("""
            const input = document.createElement('input');
            input.type = 'file';
            input.id = 'dropped';
            input.multiple = true;
            document.body.append(input);""")
        self.find("#dropped").send_keys("\n".join(map(str, files)))
        self.driver.execute_script("""
            const input = document.querySelector('#dropped');
            const dataTransfer = new DataTransfer();
            for (const file of input.files) dataTransfer.items.add(file);
            input.remove();
            for (const kind of ['dragover', 'drop']) {
                const event = new DragEvent(kind, {dataTransfer, bubbles: true, cancelable: true});
                document.querySelector(arguments[0]).dispatchEvent(event);
            }""", f"#{side} textarea")

    def pick(self, side: str, file: pathlib.Path) -> None:
        self.find(f"#{side} .file").send_keys(str(file))

    def hex(self, on: bool) -> None:
        self.find(f"#data [name=view][value={'hex' if on else 'text'}]").click()

    # What a person sees.

    def shown(self, side: str) -> str:
        """What the field shows; a carriage return is an arrow there."""
        return self.find(f"#{side} textarea").get_property("value").replace("\u21b5", "\r")

    def fault(self, side: str = "text") -> str:
        return self.find(f"#{side}-fault").text

    def marked(self, side: str = "text") -> str:
        found = self.driver.find_elements(By.CSS_SELECTOR, f"#{side} .shades .faulty")
        return "".join(it.get_property("textContent") for it in found)

    def until(self, holds: Callable[[], bool], seconds: float = 60) -> None:
        end = time.monotonic() + seconds
        while not holds():
            self.assertLess(time.monotonic(), end)
            time.sleep(0.02)

    def saved(self, name: str) -> bytes:
        """A file that was downloaded."""
        file = ROOM / "downloads" / name
        self.until(file.exists)
        data = file.read_bytes()
        file.unlink()
        return data

    def is_too_wide(self) -> bool:
        return bool(self.driver.execute_script(
            "return document.documentElement.scrollWidth > innerWidth"))


class Sides(Page):
    def test_typed(self) -> None:
        self.type("data", "Hello")
        self.assertEqual(self.shown("text"), "SGVsbG8=")
        self.assertEqual(self.find("#data .size").text, "5 bytes")
        self.assertEqual(self.find("#text .size").text, "8 characters")
        self.type("data", ", world", Keys.ENTER)
        self.assertEqual(self.shown("text"), "SGVsbG8sIHdvcmxkCg==")
        self.type("text", Keys.BACKSPACE * 20, "Zm9v")
        self.assertEqual(self.shown("data"), "foo")
        self.clear("text")
        self.assertEqual((self.shown("data"), self.shown("text")), ("", ""))

    def test_eighteen(self) -> None:
        given = "Ünïted \u20ac 0123456789 " * 5
        names = program("list", given=b"")[0].decode().split()
        self.type("data", given)
        for name in names:
            self.choose(name)
            text = self.shown("text")
            self.assertEqual(text.encode(), program("encode", name, given=given.encode())[0], name)
            facts = self.find("#facts").text.split("\n")
            canonical = program("canonical", name, given=b"")[0].decode().strip()
            self.assertEqual(facts[facts.index("Canonical") + 1],
                             {"true": "yes", "false": "no"}[canonical])
            self.assertIn(f"basecode encode {name}", self.find("#lines").text)
            self.assertTrue(self.driver.current_url.endswith(f"#{name}"))
        self.assertEqual(names, [it.text for it in Select(self.find("#encoding")).options][:-1])

    def test_the_table_of_the_eighteen(self) -> None:
        """The facts are those of docs/FORMATS.md."""
        text = (pathlib.Path(__file__).parents[2] / "docs/FORMATS.md").read_text()
        lines = [line.strip()[1:-1].split("|") for line in text.splitlines()
                 if line.startswith(("| HEX", "| BASE"))]
        table = [[cell.strip().replace("`", "") for cell in line] for line in lines
                 if len(line) == 7]
        self.assertEqual(len(table), 18)
        for name, symbols, padding, reads, canonical, ordered, rfc in table:
            self.choose(name)
            facts = self.find("#facts").text.split("\n")
            said = dict(zip(facts[::2], facts[1::2]))
            self.assertEqual(said["Padding"], padding or "none")
            self.assertEqual(said["Canonical"], canonical)
            self.assertEqual(said.get("Ordered", ""), ordered)
            number, _, case = rfc.partition(", ")
            self.assertIn(f"RFC {number}" if rfc else "DNSCurve", said["Stated by"])
            if case == "lowercase":
                self.assertIn("in lower case", said["Stated by"])
            if name != "BASE32_DNSCURVE":
                self.assertEqual(said["Symbols"], symbols)
            self.assertEqual("Also reads" in said, " as " in reads)
            self.assertEqual("Ignored" in said, reads == "CR, LF (ignored)")

    def test_faults(self) -> None:
        for name, text in (
            ("BASE64", "Zm9vYmFyZm9vYmFyZ!9v"),
            ("BASE64", "Zm9vYm"),
            ("BASE64", "Zm9vYh=="),
            ("BASE64", "Zm9v!==="),
            ("HEXLOWER", "4G"),
            ("HEXLOWER", "48-65"),
            ("BASE32_NOPAD", "MZXW1"),
            ("BASE64_MIME", "Zm9v\nZm*v"),
        ):
            self.choose(name)
            self.clear("text")
            self.type("text", text)
            data, said = program("decode", name, given=text.encode())
            kind, _, position = said.rpartition(" at ")
            at = int(position)
            self.assertTrue(self.fault().startswith(WORDS[kind]), self.fault())
            self.assertIn(position, self.fault())
            self.assertEqual(self.shown("data").encode(), data)
            wanted = text[at:] if kind == "invalid length" else text[at]
            self.assertEqual(self.marked(), wanted)
            # One press of a key goes there.
            self.find("#encoding").click()
            self.press(Keys.ESCAPE)
            self.press(Keys.F8)
            focused = self.driver.switch_to.active_element
            self.assertEqual(focused, self.find("#text textarea"))
            self.assertEqual(focused.get_property("selectionStart"), at)
            self.assertEqual(focused.get_attribute("aria-invalid"), "true")

    def test_a_fault_in_words(self) -> None:
        self.type("text", "Zm9vYmFyZm9vYmFyZ!9v")
        self.assertEqual(self.fault(), "Not a symbol of BASE64, at 17: !")
        self.assertTrue(self.find("#text .go").is_displayed())
        self.type("text", Keys.BACKSPACE * 3, "m9v")
        self.assertEqual(self.fault(), "")
        self.assertFalse(self.find("#text .go").is_displayed())
        self.assertEqual(self.shown("data"), "foobar" * 2 + "foo")
        self.clear("text")
        self.type("text", "Zm9v\u20ac \u00e9\u00e9")
        self.assertEqual((self.fault(), self.marked()),
                         ("Not a symbol of BASE64, at 4: \u20ac", "\u20ac"))

    def test_blanks(self) -> None:
        """A blank is named where it is the fault, and where it may be why the length is."""
        for text, said, marked in (
            ("Zm9v m9v", "Space at 4: BASE64 ignores none", " "),
            (" Zm9v", "Space at 0: BASE64 ignores none", " "),
            ("Zm9vYmF\v", "Control character 11 at 7: BASE64 ignores none", "\v"),
            ("Zm9v\u00a0", "No-break space at 4: BASE64 ignores none", "\u00a0"),
            ("\ufeffZm9v", "Byte order mark at 0: BASE64 ignores none", "\ufeff"),
            ("\u200bZm9vYmFy", "Zero-width space at 0: BASE64 ignores none", "\u200b"),
            ("\u2003Zm9v", "Blank at 0: BASE64 ignores none", "\u2003"),
        ):
            self.clear("text")
            self.paste("text", text)
            self.assertEqual((self.fault(), self.marked()), (said, marked))
        file = ROOM / "marked.txt"
        file.write_bytes(b"\xef\xbb\xbfZm9v")
        self.pick("text", file)
        self.until(lambda: self.fault() == "Byte order mark at 0: BASE64 ignores none")

    def test_characters_of_two_units(self) -> None:
        """A position counts characters, as Python does, and what is marked is there."""
        grin = "\U0001f600"
        for text, said, marked, index in (
            (f"SGVs{grin}G8=", f"Not a symbol of BASE64, at 4: {grin}", grin, 4),
            (f"{grin}SGVsG8=", f"Not a symbol of BASE64, at 0: {grin}", grin, 0),
            (f"SGVsb{grin}{grin}!", f"Not a symbol of BASE64, at 5: {grin}", grin, 5),
            (f"SGVs{grin}", "Not a length of BASE64: the text is cut short, or too long; "
             "4 of 5 characters are whole", grin, 4),
            (f"SGVs{grin} Z", "Space at 5: BASE64 ignores none", " ", 6),
        ):
            self.clear("text")
            self.paste("text", text)
            self.assertEqual((self.fault(), self.marked()), (said, marked), text)
            self.assertEqual(self.find("#text .size").text, f"{len(text)} characters")
            self.press(Keys.F8)
            self.assertEqual(self.find("#text textarea").get_property("selectionStart"), index)
        self.hex(True)
        self.clear("data")
        self.paste("data", f"48{grin}65")
        self.assertEqual((self.fault("data"), self.marked("data")),
                         (f"Not a symbol of hexadecimal digits, at 2: {grin}", grin))

    def test_line_ends(self) -> None:
        for name, text, said, marked in (
            ("BASE64", "SGVsbG8=\n", "Line end at 8: BASE64 ignores none, BASE64_MIME does", "\n"),
            ("BASE64", "Zm9v\nYmFy", "Line end at 4: BASE64 ignores none, BASE64_MIME does", "\n"),
            ("HEXLOWER", "48\n", "Line end at 2: HEXLOWER ignores none", "\n"),
            ("BASE64_MIME", "Zm9v\nZm*v", "Not a symbol of BASE64_MIME, at 7: *", "*"),
        ):
            self.choose(name)
            self.clear("text")
            self.type("text", text)
            self.assertEqual((self.fault(), self.marked()), (said, marked))
        self.choose("BASE64")
        self.clear("text")
        self.type("text", "Zm!v\nYmFyYmF")
        self.assertEqual(self.fault(), "Not a symbol of BASE64, at 2: !")

    def test_a_long_text(self) -> None:
        """Past a length nothing is marked, and that is said; the fault is still gone to."""
        short = 65_536 * "A"
        self.paste("text", short[:-1] + "!")
        self.assertEqual(self.marked(), "!")
        self.assertFalse(self.find("#text .unshaded").is_displayed())
        long = short + short[:-4] + "AA!A"
        self.paste("text", long)
        said = f"Not a symbol of BASE64, at {len(long) - 2}: !"
        self.until(lambda: self.fault() == said)
        self.assertIn("Nothing is marked", self.find("#text .unshaded").text)
        self.assertLess(len(self.find("#text .shades").get_property("textContent")), 10)
        self.press(Keys.F8)
        area = self.find("#text textarea")
        self.assertEqual(self.driver.switch_to.active_element, area)
        self.assertEqual(area.get_property("selectionStart"), len(long) - 2)
        # The fault is at the end.
        self.assertGreater(area.get_property("scrollTop"), 0.9 * self.driver.execute_script(
            "return arguments[0].scrollHeight - arguments[0].clientHeight", area))
        self.assertFalse(self.is_too_wide())
        # As in the field, so in that of the data.
        self.paste("data", 80_000 * "x")
        self.until(lambda: self.find("#data .size").text == "80000 bytes")
        self.assertTrue(self.find("#data .unshaded").is_displayed())
        self.hex(True)
        self.assertEqual(self.find("#data .addresses").text.count("\n"), 4999)
        self.hex(False)
        self.clear("data")
        self.assertFalse(self.find("#data .unshaded").is_displayed())
        self.assertFalse(self.find("#text .unshaded").is_displayed())

    def test_a_key_in_a_long_text(self) -> None:
        """A key takes less than twice what it takes in a field of the text alone."""
        text = 65_000 * "Zm9v"
        self.paste("text", text)
        self.until(lambda: len(self.shown("data")) == 3 * 65_000)
        took, length = self.driver.execute_script(
            A_KEY, self.find("#text textarea"), self.find("#data textarea"))
        plain = self.driver.execute_script(A_PLAIN_KEY, text)
        self.assertLess(took, 2 * plain)
        # It is converted after a pause, or once the field is left.
        self.assertEqual(length, 3 * 65_000)
        self.until(lambda: len(self.shown("data")) == 3 * 65_003)
        self.driver.execute_script(A_KEY, self.find("#text textarea"), self.find("#data textarea"))
        self.find("#text .copy").click()
        self.assertEqual(len(self.shown("data")), 3 * 65_006)

    def test_a_large_paste(self) -> None:
        """Its first part is shown, and all of it is converted, copied and saved."""
        text = 1_250_000 * "Zm9v"
        part = 1 << 18
        took = self.driver.execute_script(A_PASTE, self.find("#text textarea"), text)
        self.assertLess(took, 4_000)
        self.assertEqual(self.shown("text"), text[:part])
        self.assertEqual(self.find("#text .cut").text,
                         f"Characters 0 to {part} of 5000000 are shown, and can't be edited.")
        self.assertEqual(self.find("#text .size").text, "5000000 characters")
        self.assertEqual(self.find("#data .size").text, "3750000 bytes")
        self.assertEqual(self.shown("data"), part // 3 * "foo" + "f")
        self.find("#data .save").click()
        self.assertEqual(self.saved("data.bin"), 1_250_000 * b"foo")
        self.hex(True)
        self.assertTrue(self.shown("data").startswith("66 6f 6f 66"))
        self.hex(False)
        # The part with a fault is shown by a key.
        self.clear("text")
        self.assertFalse(self.find("#text .cut").is_displayed())
        self.driver.execute_script(A_PASTE, self.find("#text textarea"), text[:-1] + "!")
        self.assertEqual(self.fault(), "Not a symbol of BASE64, at 4999999: !")
        self.press(Keys.F8)
        area = self.find("#text textarea")
        self.assertEqual(area.get_property("selectionStart"), part - 1)
        self.assertEqual(self.shown("text")[-4:], "Zm9!")
        self.clear("text")
        self.type("text", "Zm9v")
        self.assertEqual(self.shown("data"), "foo")

    def test_the_next_encoding(self) -> None:
        """The encoding of the same group that reads the text is named."""
        for name, text, said in (
            ("BASE64", "YWI", "BASE64_NOPAD"),
            ("BASE64", "Zm9_", "BASE64URL"),
            ("BASE64", "-w", "BASE64URL_NOPAD"),
            ("BASE64URL", "Zm9/", "BASE64"),
            ("HEXLOWER", "4A", "HEXLOWER_PERMISSIVE"),
            ("HEXUPPER", "4a", "HEXLOWER"),
            ("BASE32", "mzxw6", "BASE32_NOPAD_NOCASE"),
        ):
            self.choose(name)
            self.clear("text")
            self.type("text", text)
            self.assertTrue(self.fault().endswith(f". {said} reads this text"), self.fault())
            self.choose(said)
            self.assertEqual(self.fault(), "")
        self.choose("BASE64")
        for text, said, marked in (
            ("data:text/plain;base64,Zm9v",
             "This is a data: address: the text begins after the comma", "data:text/plain;base64,"),
            ("-----BEGIN X-----\nZm9v\n-----END X-----",
             "This is PEM: BASE64_MIME reads the lines between the first and the last",
             "-----BEGIN X-----"),
        ):
            self.clear("text")
            self.paste("text", text)
            self.assertEqual((self.fault(), self.marked()), (said, marked))

    def test_lines_of_what_is_done(self) -> None:
        self.type("data", "Hello")
        lines = self.find("#lines").text
        for line in ("BASE64.encode(&data)", "\nBASE64.encode(data)", "basecode encode BASE64"):
            self.assertIn(line, lines)
        self.clear("text")
        lines = self.find("#lines").text
        for line in ("data_encoding::BASE64.decode(", "data_encoding.BASE64.decode(text)",
                     "\nBASE64.decode(text)", "de_decode(DE_BASE64,", "basecode decode BASE64"):
            self.assertIn(line, lines)
        self.assertNotIn("encode(", lines.replace("_encoding", "").replace("decode(", ""))
        self.choose("BASE32")
        self.assertIn("basecode decode BASE32", self.find("#lines").text)
        self.type("data", "x")
        self.assertIn("basecode encode BASE32", self.find("#lines").text)

    def test_shades(self) -> None:
        self.choose("BASE64_MIME")
        self.type("data", "x" * 58)
        kinds = [it.get_attribute("class")
                 for it in self.driver.find_elements(By.CSS_SELECTOR, "#text .shades span")]
        self.assertEqual(kinds, ["end", "end feed", "padding", "end", "end feed"])
        self.assertEqual(self.shown("text").count("\r\n"), 2)

    def test_pasted(self) -> None:
        """What the button copies is pasted with its carriage returns."""
        self.choose("BASE64_MIME")
        self.type("data", "pasted " * 20)
        text = self.shown("text")
        self.assertIn("\r\n", text)
        self.find("#text .copy").click()
        self.until(lambda: self.find("#said").get_property("textContent") == "copied")
        self.clear("text")
        self.assertEqual(self.shown("data"), "")
        self.press(Keys.CONTROL, "v")
        self.assertEqual(self.shown("text"), text)
        self.assertEqual(self.shown("data"), "pasted " * 20)
        self.press(Keys.CONTROL, "a")
        self.press(Keys.CONTROL, "x")
        self.assertEqual(self.shown("text"), "")
        self.press(Keys.CONTROL, "v")
        self.assertEqual(self.shown("text"), text)

    def test_hex(self) -> None:
        self.hex(True)
        self.type("data", "00fF 48656c6c6f")
        self.assertEqual(self.shown("text"), "AP9IZWxsbw==")
        self.find("#encoding").send_keys(Keys.TAB)
        self.assertEqual(self.shown("data"), "00 ff 48 65 6c 6c 6f")
        self.assertEqual(self.find("#data .addresses").text, "00000000")
        self.assertEqual(self.find("#data .characters").text, "..Hello")
        self.clear("data")
        self.type("data", "4g")
        self.assertEqual(self.fault("data"), "Not a symbol of hexadecimal digits, at 1: g")
        self.press(Keys.F8)
        self.assertEqual(self.find("#data textarea").get_property("selectionStart"), 1)
        self.clear("data")
        self.type("data", "486")
        self.assertEqual(self.fault("data"), "The last digit is half of a byte")
        self.assertEqual(self.shown("text"), "SA==")

    def test_data_that_is_not_text(self) -> None:
        """It is shown in hex, with the reason, until there is data that is text."""
        def view() -> str:
            return self.find("#data [name=view]:checked").get_property("value")

        for text, digits, reason in (
            ("AP9I", "00 ff 48", "These bytes are not UTF-8: they are shown in hex."),
            ("4pw=", "e2 9c", "These bytes are not UTF-8: they are shown in hex."),
            ("4oa1", "e2 86 b5", "This text contains \u21b5, which means a carriage return in this "
             "field: it is shown in hex."),
        ):
            self.clear("text")
            self.assertEqual(view(), "text")
            self.type("text", text)
            self.assertEqual((view(), self.shown("data")), ("hex", digits))
            self.assertEqual(self.find("#data-note").text, reason)
            self.hex(False)
            self.assertEqual((view(), self.find("#data-note").text), ("hex", reason))
        self.clear("text")
        self.type("text", "4pyT")
        self.assertEqual((view(), self.shown("data"), self.find("#data-note").text),
                         ("text", "\u2713", ""))
        # What is chosen stays.
        self.hex(True)
        self.clear("text")
        self.type("text", "Zm9v")
        self.assertEqual((view(), self.shown("data"), self.find("#data-note").text),
                         ("hex", "66 6f 6f", ""))
        self.hex(False)
        self.assertEqual(self.shown("data"), "foo")
        # Digits that are typed there are data, which may be text.
        self.clear("text")
        self.type("text", "/w==")
        self.type("data", Keys.BACKSPACE * 2, "48")
        self.assertEqual((view(), self.shown("text"), self.find("#data-note").text),
                         ("hex", "SA==", ""))

    def test_hex_of_a_text(self) -> None:
        self.choose("HEXLOWER")
        self.type("text", bytes(range(40)).hex())
        self.hex(True)
        self.assertEqual(self.find("#data .addresses").text, "00000000\n00000010\n00000020")
        self.shape(320, 800)
        self.until(lambda: self.find("#data .addresses").text.count("\n") == 4)
        self.assertFalse(self.is_too_wide())

    def test_carriage_returns_in_data(self) -> None:
        self.choose("HEXLOWER")
        self.type("text", "610d0a62")
        self.assertEqual(self.shown("data"), "a\r\nb")
        self.type("data", Keys.CONTROL + Keys.END + Keys.NULL, "c")
        self.assertEqual(self.shown("text"), "610d0a6263")

    def test_the_side_typed_in_last_stays(self) -> None:
        self.type("text", "4869")
        self.choose("HEXUPPER")
        self.assertEqual((self.shown("text"), self.shown("data")), ("4869", "Hi"))
        self.type("data", "!")
        self.choose("BASE64")
        self.assertEqual(self.shown("text"), "SGkh")

    def test_downloads(self) -> None:
        self.type("data", "Hello")
        self.find("#text .save").click()
        self.assertEqual(self.saved("text.txt"), b"SGVsbG8=")
        self.find("#data .save").click()
        self.assertEqual(self.saved("data.bin"), b"Hello")


class Own(Page):
    def fill(self, **fields: str) -> None:
        for name, value in fields.items():
            field = self.find(f"#own-{name}")
            field.clear()
            field.send_keys(value)

    def test_own(self) -> None:
        self.open("#symbols=01234567&padding=%3D")
        self.type("data", "Hi")
        self.assertEqual(self.shown("text"), "220644==")
        self.fill(padding="", symbols="01", width="8", separator="\\r\\n")
        self.assertEqual(self.shown("text"), "01001000\r\n01101001\r\n")
        self.find("#own-order").click()
        self.assertEqual(self.shown("text"), "00010010\r\n10010110\r\n")
        lines = self.find("#lines").text
        self.assertIn("Encoding(\"01\", ignore=\"\\n\\r\", wrap=(8, \"\\r\\n\"), "
                      "least_significant_first=True)", lines)
        for words in ("it.wrap.separator.push_str(\"\\r\\n\");", "it.symbols_len = 2;",
                      "it.bit_order = BitOrder::LeastSignificantFirst;", "python3 -c 'import sys;"):
            self.assertIn(words, lines)

    def test_begins_with_the_chosen_one(self) -> None:
        names = [it.text for it in Select(self.find("#encoding")).options][:-1]
        self.assertEqual(len(names), 18)
        self.type("data", "begins \u00e9")
        for name in names:
            self.choose(name)
            text, facts = self.shown("text"), self.find("#facts").text
            self.choose("your own")
            self.assertEqual(self.shown("text"), text)
            self.assertEqual(self.find("#facts").text.partition("\n")[2].partition("\n")[2],
                             facts.partition("\n")[2].partition("\n")[2])
        self.choose("BASE64_MIME")
        self.choose("your own")
        self.assertEqual(self.find("#own-separator").get_property("value"), "\\r\\n")
        self.assertEqual(self.find("#own-ignore").get_property("value"), "")

    def test_one_row(self) -> None:
        """What is also read, and as what, are beside each other."""
        for width in (320, 640, 1200, 1280):
            self.shape(width, 900)
            self.open("#symbols=01")
            tops = [self.find(f"#own-{it}").rect["y"] for it in ("from", "to")]
            self.assertEqual(*tops)

    def line(self, language: str) -> str:
        """The line that makes the encoding in another language."""
        lines = self.find("#lines").text.split("\n")
        return lines[lines.index(language) + 1]

    def test_lines_elsewhere(self) -> None:
        """The lines of Python and C ask for what the form does."""
        self.choose("your own")
        self.fill(symbols="01?'\"%\\\\#", padding="=", ignore="\\x01 x", width="16",
                  separator="\\r\\n", **{"from": "ab", "to": "0'"})
        for rule in ("order", "check", "concatenate"):
            self.find(f"#own-{rule}").click()
        asked = {"symbols": "01?'\"%\\#", "padding": "=", "ignore": "\x01\n\r x",
                 "wrap": (16, "\r\n"), "translate": ("ab", "0'"), "least_significant_first": True,
                 "check_trailing_bits": False, "concatenate": False}
        made = eval(self.line("Python"), {"Encoding": lambda symbols, **words: {
            "symbols": symbols, **words}})
        self.assertEqual(made, asked)
        shell = shlex.split(self.line("Shell"))
        self.assertEqual(shell[:2], ["python3", "-c"])
        self.assertIn(f"; {self.line('Python')}.encode_stream(", shell[2])
        made = self.driver.execute_script(f"""
            const Encoding = class {{ constructor(asked) {{ this.asked = asked; }} }};
            return ({self.line("JavaScript")}).asked;""")
        self.assertEqual(made, {
            "symbols": "01?'\"%\\#", "padding": "=", "ignore": "\x01\n\r x",
            "wrap": {"width": 16, "separator": "\r\n"}, "translate": {"from": "ab", "to": "0'"},
            "bitOrder": "least-significant-first", "checkTrailingBits": False,
            "concatenate": False})
        self.type("text", "0")
        shell = shlex.split(self.line("Shell"))
        self.assertIn(f"; {self.line('Python')}.decode_stream(", shell[2])
        if shutil.which("cc") is None:
            return
        source, binary = ROOM / "line.c", ROOM / "line"
        source.write_text(LINE_IN_C.replace("@LINE@", self.line("C")))
        include = pathlib.Path(__file__).parents[2] / "crates/data_encoding_c/include"
        subprocess.run(["cc", "-std=c99", "-Wall", "-Werror", f"-I{include}", source, "-o", binary],
                       check=True)
        printed = subprocess.run([binary], capture_output=True, check=True).stdout.decode()
        self.assertEqual(printed.split("\0")[:-1], [
            asked["symbols"], asked["ignore"], "\r\n", "ab", "0'", "16 61 1 0 0"])

    def test_where_it_is_wrong(self) -> None:
        self.choose("your own")
        for fields, field, message in (
            ({"symbols": "abc"}, "symbols",
             "2, 4, 8, 16, 32 or 64 symbols are needed, and these are 3."),
            ({"symbols": "0\u00e9"}, "symbols", "A character is not ASCII."),
            ({"symbols": "01234566"}, "symbols", '"6" has two meanings.'),
            ({"symbols": "01", "padding": "="}, "padding",
             "No text of 2, 4 or 16 symbols needs padding."),
            ({"padding": "=="}, "padding", "Padding is one character."),
            ({"padding": "\u20ac"}, "padding", "A character is not ASCII."),
            ({"padding": "", "ignore": "x7"}, "ignore", '"7" has two meanings.'),
            ({"ignore": "", "width": "9", "separator": "-"}, "wrap",
             "A line has a multiple of 8 characters."),
            ({"width": "264"}, "wrap",
             "A line and what comes after it have at most 255 characters."),
            ({"width": "eight"}, "wrap", "The characters of a line are a number."),
            ({"width": "", "separator": "", "from": "ab"}, "translate",
             "Both fields need the same number of characters."),
            ({"to": "0b"}, "translate", '"b" has no meaning.'),
        ):
            if "symbols" not in fields:
                self.fill(symbols="01234567")
            self.fill(**fields)
            self.assertEqual(self.find(f"#own-{field}-fault").text, message)
            self.assertTrue(self.find("#sides").get_property("inert"))
            self.assertFalse(self.find("#lines").is_displayed())
            invalid = self.driver.find_elements(By.CSS_SELECTOR, "#own [aria-invalid=true]")
            self.assertTrue(all(it.get_attribute("aria-describedby") == f"own-{field}-fault"
                                for it in invalid))
        self.fill(to="01")
        self.assertEqual(self.find("#own").text.count("meaning"), 0)
        self.assertFalse(self.find("#sides").get_property("inert"))
        self.assertTrue(self.find("#lines").is_displayed())
        self.type("text", "a42")
        self.assertEqual(self.fault(), "")

    def test_address(self) -> None:
        self.open("#BASE32HEX")
        self.type("data", "foobar")
        self.assertEqual(self.shown("text"), "CPNMUOJ1E8======")
        self.assertTrue(self.driver.current_url.endswith("basecode.html#BASE32HEX"))
        self.choose("your own")
        self.fill(symbols="+/&=#%?0", padding="-", separator="\\n", width="8")
        address = self.driver.current_url.partition("#")[2]
        text = self.shown("text")
        self.open("#" + address)
        self.assertEqual(Select(self.find("#encoding")).first_selected_option.text, "your own")
        self.type("data", "foobar")
        self.assertEqual(self.shown("text"), text)
        self.assertNotIn("foobar", self.driver.current_url)
        self.driver.execute_script("location.hash = 'HEXUPPER'")
        self.until(lambda: self.shown("text") == "666F6F626172")
        self.assertFalse(self.find("#own").is_displayed())
        for wrong in ("#nonsense", "#%", "#symbols"):
            self.open(wrong)
            self.assertEqual(self.find("#broken").text, "")

    def test_a_name_that_is_none(self) -> None:
        for address, said in (
            ("", ""),
            ("#BASE64URL", ""),
            ("#base64url",
             "No encoding has the name base64url, but BASE64URL is one: this is BASE64"),
            ("#nonsense", "No encoding has the name nonsense: this is BASE64"),
        ):
            self.open(address)
            self.assertEqual(self.find("#unknown").text, said)
        self.choose("BASE64URL")
        self.assertEqual(self.find("#unknown").text, "")


class Files(Page):
    LENGTH = 64 << 20

    @classmethod
    def setUpClass(cls) -> None:
        cls.file = ROOM / "large.bin"
        block = b"".join(hashlib.sha512(bytes([it])).digest() for it in range(256)) * 4
        cls.file.write_bytes((block + b"x") * (cls.LENGTH // (len(block) + 1)))

    def test_small_files(self) -> None:
        file = ROOM / "small.txt"
        file.write_bytes(b"SGVsbG8=\r\n")
        self.choose("BASE64_MIME")
        self.drop("text", file)
        self.until(lambda: self.shown("data") == "Hello")
        self.assertEqual(self.shown("text"), "SGVsbG8=\r\n")
        self.pick("data", file)
        self.until(lambda: self.shown("data") == "SGVsbG8=\r\n")
        self.assertEqual(self.shown("text"), "U0dWc2JHOD0NCg==\r\n")

    def test_two_files(self) -> None:
        files = [ROOM / "one.txt", ROOM / "two.txt"]
        for file in files:
            file.write_bytes(b"SGVsbG8=")
        self.drop("text", *files)
        self.until(lambda: self.shown("data") == "Hello")
        self.assertEqual(self.find("#text .taken").text, "Of 2 files one was taken: one.txt")
        self.drop("text", files[1])
        self.assertEqual(self.find("#text .taken").text, "")
        self.drop("data", *files)
        self.until(lambda: self.find("#data .taken").text != "")
        self.type("data", "x")
        self.assertEqual(self.find("#data .taken").text, "")

    def ended(self, words: str) -> None:
        self.until(lambda: self.find("#job .done").text.startswith(words), 120)

    def test_a_large_file(self) -> None:
        self.choose("BASE64_MIME")
        self.drop("data", self.file)
        # The page can be used meanwhile, and shows how far it is.
        self.type("data", "Hello")
        self.until(lambda: "a second" in self.find("#job .pace").text)
        self.assertEqual(self.find("#job .done").text, "")
        self.assertEqual(self.shown("text"), "SGVsbG8=\r\n")
        self.ended("Done")
        self.find("#job .save").click()
        text = self.saved("large.bin.txt")
        self.assertEqual(text, program("encode", "BASE64_MIME", given=self.file.read_bytes())[0])
        written = ROOM / "large.bin.txt"
        written.write_bytes(text)
        self.pick("text", written)
        self.ended("Done")
        self.find("#job .save").click()
        self.assertEqual(self.saved("large.bin"), self.file.read_bytes())
        self.find("#job .close").click()
        self.assertFalse(self.find("#job").is_displayed())

    def test_a_fault_in_a_large_file(self) -> None:
        text = bytearray(program("encode", "BASE64", given=self.file.read_bytes()[:6 << 20])[0])
        text[4_000_001] = ord("!")
        faulty = ROOM / "faulty.txt"
        faulty.write_bytes(text)
        self.pick("text", faulty)
        self.ended("Decoded before it")
        self.assertEqual(self.find("#job .fault").text, "Not a symbol of BASE64, at 4000001: !")
        self.assertEqual(self.find("#job .around .faulty").text, "!")
        self.assertEqual(self.find("#job .around").text, text[4_000_001 - 24:4_000_025].decode())
        self.find("#job .save").click()
        self.assertEqual(self.saved("faulty.bin"), program("decode", "BASE64", given=text)[0])

    def test_blanks_around_a_large_file(self) -> None:
        text = 100_000 * b"Zm9v"
        faulty = ROOM / "ended.txt"
        for front, end, said in (
            (b"", b"\n", "Line end at 400000: BASE64 ignores none, BASE64_MIME does"),
            (b"", b"\r\n", "Line end at 400000: BASE64 ignores none, BASE64_MIME does"),
            (b"\xef\xbb\xbf", b"", "Byte order mark at 0: BASE64 ignores none"),
            (b"    ", b"", "Space at 0: BASE64 ignores none"),
        ):
            faulty.write_bytes(front + text + end)
            self.pick("text", faulty)
            self.until(lambda: self.find("#job .fault").text == said)
            self.ended("Decoded before it")
            self.find("#job .close").click()

    def test_another_file(self) -> None:
        """It takes the place of one that is being converted, and that is said."""
        other = ROOM / "other.bin"
        other.write_bytes(self.file.read_bytes()[:1 << 20])
        self.pick("data", self.file)
        self.until(lambda: "a second" in self.find("#job .pace").text)
        self.pick("data", other)
        self.ended("Done")
        self.assertEqual(self.find("#job .what").text, "Encoding other.bin by BASE64: 1.0 MiB; "
                         "large.bin was stopped for it")
        self.pick("data", other)
        self.until(lambda: "stopped" not in self.find("#job .what").text)
        self.ended("Done")

    def test_stopped(self) -> None:
        self.pick("data", self.file)
        self.until(lambda: "a second" in self.find("#job .pace").text)
        self.find("#job .stop").click()
        self.ended("Stopped, after")
        self.assertLess(self.find("#job progress").get_property("value"), self.LENGTH)
        self.assertFalse(self.find("#job .save").is_displayed())


class Broken(Page):
    """Where the page does not run, it has a message, and its fields can't be used."""
    NEEDS = ("This page does not run here. It needs Chromium 115, Firefox 112, Safari 16.4 or a "
             "later version.")

    def broken(self) -> str:
        self.until(lambda: self.find("#broken").is_displayed())
        self.assertTrue(self.find("#sides").get_property("inert"))
        self.assertNotEqual(self.driver.get_log("browser"), [])
        return self.find("#broken").text

    def test_where_it_runs(self) -> None:
        self.assertFalse(self.find("#broken").is_displayed())
        self.assertFalse(self.find("#sides").get_property("inert"))

    def test_without_classes_of_today(self) -> None:
        """A word that no browser knows is for this one what a new word is for an older one."""
        page = ROOM / "older.html"
        text = PAGE.read_text(encoding="utf-8")
        text = re.sub("<meta http-equiv[^>]*>", "", text).replace("static {", "static of {")
        page.write_text(text, encoding="utf-8")
        self.driver.get(page.as_uri())
        self.assertEqual(self.broken(), self.NEEDS)

    def test_without_web_assembly(self) -> None:
        added = self.driver.execute_cdp_cmd("Page.addScriptToEvaluateOnNewDocument", {
            "source": "delete globalThis.WebAssembly"})
        self.open()
        self.driver.execute_cdp_cmd("Page.removeScriptToEvaluateOnNewDocument", added)
        self.assertEqual(self.broken(),
                         f"{self.NEEDS} The reason: there is no WebAssembly here.")

    def test_without_scripts(self) -> None:
        self.driver.execute_cdp_cmd("Emulation.setScriptExecutionDisabled", {"value": True})
        try:
            self.open()
            self.until(lambda: self.find("#broken").is_displayed())
            self.assertEqual(self.find("#broken").get_property("innerText"),
                             f"{self.NEEDS} JavaScript is switched off.")
        finally:
            self.driver.execute_cdp_cmd("Emulation.setScriptExecutionDisabled", {"value": False})


class Shapes(Page):
    def test_shapes(self) -> None:
        """At each width, in both schemes: nothing is wider than the page, and all can be read."""
        for width in (320, 640, 1280):
            for scheme in ("light", "dark"):
                self.shape(width, 900, scheme)
                for address in ("#BASE64_MIME", "#symbols=01234567&padding=%3D&ignore=+-"):
                    self.open(address)
                    self.type("text", "Zm9v\nYmFy!===")
                    self.assertFalse(self.is_too_wide(), (width, scheme, address))
                    self.assertEqual(self.driver.execute_script(CONTRAST), [], (width, scheme))
                    self.hex(True)
                    self.assertFalse(self.is_too_wide(), (width, scheme, address, "hex"))

    def test_level(self) -> None:
        """The two fields are at one height."""
        for on in (False, True):
            self.hex(on)
            tops = [self.find(f"#{side} .field").rect["y"] for side in ("data", "text")]
            self.assertEqual(*tops)

    def test_labels(self) -> None:
        """Each thing that takes the focus has a name, and shows that it has the focus."""
        self.open("#symbols=01234567")
        self.type("text", "!")
        self.find("h1").click()
        names: List[str] = []
        for _ in range(60):
            self.press(Keys.TAB)
            focused = self.driver.switch_to.active_element
            if focused.tag_name == "body":
                break
            name = focused.accessible_name
            self.assertNotEqual(name, "", focused.get_attribute("outerHTML"))
            outlined = self.driver.execute_script("""
                const found = document.activeElement;
                const shows = (it) => getComputedStyle(it).outlineStyle !== 'none';
                return shows(found) || shows(found.closest('.field') ?? found);""")
            self.assertTrue(outlined, name)
            names.append(name)
        self.assertEqual(names[0], "Encoding")
        self.assertLessEqual({"Data", "Text", "Symbols, in order of value", "Go to it (F8)",
                              "Copy the line of Rust"}, {*names})
        self.assertGreater(len(names), 25)

    def test_the_picture(self) -> None:
        if PICTURE is None:
            return
        self.shape(1280, 640)
        self.open("#BASE64_MIME")
        self.type("data", "A file, a token or a key, as text; and back, with its fault where it is."
                  " This one has a line of 76 characters.")
        text = self.shown("text")
        self.clear("text")
        area = self.find("#text textarea")
        self.driver.execute_script("""
            arguments[0].value = arguments[1].replaceAll('\\r', '\\u21b5');
            arguments[0].dispatchEvent(new InputEvent('input'));""",
            area, text[:101] + "!" + text[102:])
        self.driver.save_screenshot(PICTURE)


# How long a key takes until the field is laid out, in milliseconds: in the page, and in a plain
# field. The least of three: others may use the machine.
KEYS = """
const times = [40, 44, 48].map((at) => {
    area.focus();
    area.setSelectionRange(at, at);
    const began = performance.now();
    document.execCommand("insertText", false, "Zm9v");
    area.getBoundingClientRect();
    document.body.scrollHeight;
    return performance.now() - began;
});
"""
A_KEY = f"""
const [area, other] = arguments;
{KEYS}
return [Math.min(...times), other.value.length];
"""
A_PLAIN_KEY = f"""
const area = document.createElement("textarea");
area.style.wordBreak = "break-all";
area.value = arguments[0];
document.body.append(area);
area.getBoundingClientRect();
{KEYS}
area.remove();
return Math.min(...times);
"""

# Pastes a text into a field, and returns the milliseconds until it is shown.
A_PASTE = """
const [area, text] = arguments;
const clipboardData = new DataTransfer();
clipboardData.setData("text/plain", text);
const began = performance.now();
area.select();
area.dispatchEvent(new ClipboardEvent("paste", { clipboardData, bubbles: true, cancelable: true }));
area.getBoundingClientRect();
return performance.now() - began;
"""

# Prints what the line asks for, each field followed by a NUL.
LINE_IN_C = """
#include "data_encoding.h"
#include <stdio.h>

de_status de_encoding_new(de_encoding *encoding, const de_specification *it, size_t *detail) {
    (void)encoding;
    (void)detail;
    fwrite(it->symbols, 1, it->symbols_len, stdout), putchar(0);
    fwrite(it->ignore, 1, it->ignore_len, stdout), putchar(0);
    fwrite(it->wrap_separator, 1, it->wrap_separator_len, stdout), putchar(0);
    fwrite(it->translate_from, 1, it->translate_from_len, stdout), putchar(0);
    fwrite(it->translate_to, 1, it->translate_to_len, stdout), putchar(0);
    printf("%zu %d %d %d %d", it->wrap_width, it->padding, it->least_significant_first,
           it->check_trailing_bits, it->concatenate), putchar(0);
    return DE_OK;
}

int main(void) {
    de_encoding encoding;
    @LINE@
    return (int)status;
}
"""

# The texts whose contrast with what they lie on is below 4.5.
CONTRAST = """
const parts = (color) => color.match(/[0-9.]+/g).map(Number);
const light = (color) => {
    const [r, g, b] = parts(color).map((it) => it / 255).map(
        (it) => (it <= 0.03928 ? it / 12.92 : ((it + 0.055) / 1.055) ** 2.4));
    return 0.2126 * r + 0.7152 * g + 0.0722 * b;
};
const ground = (element) => {
    for (let it = element; it !== null; it = it.parentElement) {
        const color = getComputedStyle(it).backgroundColor;
        if ((parts(color)[3] ?? 1) === 1) return color;
    }
    return getComputedStyle(document.documentElement).colorScheme.includes('dark') &&
        matchMedia('(prefers-color-scheme: dark)').matches ? 'rgb(0,0,0)' : 'rgb(255,255,255)';
};
const found = [];
for (const element of document.querySelectorAll('body *')) {
    const has = [...element.childNodes].some(
        (it) => it.nodeType === 3 && it.textContent.trim() !== '');
    if (!(has || element.matches('textarea, input, select')) || element.closest('.shades')
        || element.matches('script, option') || element.getClientRects().length === 0
        || element.closest('.unseen') || element.closest('[inert]')) continue;
    const [one, two] = [light(getComputedStyle(element).color), light(ground(element))];
    const ratio = (Math.max(one, two) + 0.05) / (Math.min(one, two) + 0.05);
    if (ratio < 4.5) found.push([element.outerHTML.slice(0, 80), ratio]);
}
// A field's text lies on the shades.
const ink = light(getComputedStyle(document.querySelector('#text textarea')).color);
for (const shade of document.querySelectorAll('#text .shades span, .legend span')) {
    const own = getComputedStyle(shade).backgroundColor;
    if ((parts(own)[3] ?? 1) !== 1) continue;
    const other = light(own);
    const ratio = (Math.max(ink, other) + 0.05) / (Math.min(ink, other) + 0.05);
    if (ratio < 4.5) found.push([shade.className, ratio]);
}
return found;
"""


if __name__ == "__main__":
    unittest.main(argv=[sys.argv[0], *os.environ.get("TESTS", "").split()], verbosity=2)
