"""Tests of data_encoding.compat: the standard library's own tests of base64 with its calls in place
of theirs, and both on texts of any bytes.

The tests of the standard library are run from where they are installed (Debian's
libpython3.11-testsuite), and skipped where they are not.
"""

import array
import base64
import binascii
import importlib
import inspect
import random
import sys
import types
import unittest
from typing import Any, Callable, Dict, List, Tuple

from data_encoding import DecodeError, compat

# Tests of calls that compat lacks: encodings of 85 symbols, and the calls over files.
OTHERS = ("85", "TestMain")

# The tests that fail, and why.
DIFFERENT: Dict[str, str] = {}

# Padding that no group lacks, which base64 accepts with `validate` in some versions: after whole
# groups before Python 3.13, and after others before 3.11.
def is_padded_in_vain(text: bytes) -> bool:
    symbols = text.rstrip(b"=")
    count = len(text) - len(symbols)
    if b"=" in symbols or count == 0 or sys.version_info >= (3, 13):
        return False
    return len(symbols) % 4 == 0 or (sys.version_info < (3, 11) and len(text) % 4 != 0)


def tests_of(suite: Any) -> List[unittest.TestCase]:
    if isinstance(suite, unittest.TestCase):
        return [suite]
    return [test for part in suite for test in tests_of(part)]


class OfTheStandardLibrary(unittest.TestCase):
    def test_base64(self) -> None:
        theirs: Any
        try:
            theirs = importlib.import_module("test.test_base64")
        except ImportError:
            self.skipTest("the tests of the standard library are not installed")
        calls = types.ModuleType("base64")
        vars(calls).update(vars(base64))
        vars(calls).update({name: getattr(compat, name) for name in compat.__all__})
        loaded = tests_of(unittest.defaultTestLoader.loadTestsFromModule(theirs))
        chosen = [test for test in loaded if not any(part in test.id() for part in OTHERS)]
        before = theirs.base64
        theirs.base64 = calls
        try:
            result = unittest.TestResult()
            unittest.TestSuite(chosen).run(result)
        finally:
            theirs.base64 = before
        failed = {test.id().split(".")[-1]: said for test, said in result.failures + result.errors}
        self.assertEqual(sorted(failed), sorted(DIFFERENT), "\n".join(failed.values()))
        self.assertGreaterEqual(result.testsRun, 12)


def outcome(call: Callable[..., bytes], *arguments: Any) -> Tuple[str, Any]:
    try:
        data = call(*arguments)
    except (ValueError, TypeError) as error:
        return ("error", type(error))
    return ("data", (type(data), data))


class Same(unittest.TestCase):
    """Both give the same data, or the same type of error."""

    def assert_same(self, name: str, *arguments: Any) -> None:
        there = outcome(getattr(base64, name), *arguments)
        self.assertEqual(outcome(getattr(compat, name), *arguments), there, (name, arguments))

    def test_signatures(self) -> None:
        for name in compat.__all__:
            if hasattr(base64, name):
                there = inspect.signature(getattr(base64, name))
                here = inspect.signature(getattr(compat, name))
                self.assertEqual(
                    [(it.name, it.default, it.kind) for it in here.parameters.values()],
                    [(it.name, it.default, it.kind) for it in there.parameters.values()],
                )

    def test_encoding(self) -> None:
        for size in (*range(20), 400, 9000):
            data = random.randbytes(size)
            for name in compat.__all__:
                if name.endswith("encode") and hasattr(base64, name):
                    self.assert_same(name, data)
                    self.assert_same(name, bytearray(data))
                    self.assert_same(name, array.array("H", data + data))
            for others in (b"*$", b"-_", b"++", b"\xff\0", bytearray(b"AB")):
                self.assert_same("b64encode", data, others)
        for wrong in ("text", 5, None, [1]):
            self.assert_same("b64encode", wrong)
            self.assert_same("b32encode", wrong)

    def texts(self, symbols: bytes) -> List[bytes]:
        """Texts of these bytes, in which symbols, padding and others are next to each other."""
        found = []
        for _ in range(4000):
            size = random.randrange(18)
            text = bytearray(random.choices(symbols, k=size))
            for _ in range(random.choice((0, 0, 1, 2, 4))):
                text.insert(random.randrange(len(text) + 1), random.choice(b"==!\n \xff"))
            text += b"=" * random.choice((0, 0, 0, 1, 2, 3, 4, 6))
            found.append(bytes(text))
        return found

    def test_base64(self) -> None:
        for text in self.texts(b"Zm9vAB+/-_"):
            for name in ("b64decode", "standard_b64decode", "urlsafe_b64decode"):
                self.assert_same(name, text)
                self.assert_same(name, bytearray(text))
            self.assert_same("b64decode", text, b"-_")
            self.assert_same("b64decode", text.decode("latin-1"), "-_")
            if not is_padded_in_vain(text):
                self.assert_same("b64decode", text, None, True)
                self.assert_same("b64decode", text, b"-_", True)

    def damaged(self, text: bytes) -> bytes:
        """The text with up to three bytes that are not symbols anywhere in it."""
        found = bytearray(text)
        for _ in range(random.choice((0, 0, 0, 1, 2, 3))):
            byte = random.choice(b"==!- \n\t\0\x7f\xe9\xff")
            found.insert(random.randrange(len(found) + 1), byte)
        return bytes(found)

    def test_written_base64(self) -> None:
        """Texts as programs write them, some of them damaged."""
        for _ in range(1000):
            data = random.randbytes(random.choice((0, 1, 2, 3, 16, 57, 58, 200, 383, 384, 1000)))
            lines = base64.encodebytes(data)
            segment = base64.urlsafe_b64encode(data).rstrip(b"=")
            for written in (base64.b64encode(data), base64.b64encode(data, b"*$"), lines,
                            lines.replace(b"\n", b"\r\n"), segment, segment + b"=",
                            segment + b"==", segment + b"===\n"):
                text = self.damaged(written)
                one: Any
                for one in (text, text.decode("latin-1")):
                    self.assert_same("b64decode", one)
                    self.assert_same("b64decode", one, "*$")
                    self.assert_same("urlsafe_b64decode", one)
                    self.assert_same("standard_b64decode", one)
                    if not is_padded_in_vain(text):
                        self.assert_same("b64decode", one, None, True)
                        self.assert_same("b64decode", one, b"*$", True)

    def test_lines(self) -> None:
        for size in (*range(20), 56, 57, 58, 114, 115, 9000):
            data = random.randbytes(size)
            self.assert_same("encodebytes", data)
            self.assert_same("encodebytes", array.array("b", data))
            lines = base64.encodebytes(data)
            for text in (lines, lines[:-1], self.damaged(lines), base64.b64encode(data)):
                self.assert_same("decodebytes", text)
                self.assert_same("decodebytes", memoryview(text))
        square = memoryview(bytes(4)).cast("B", (2, 2))
        for wrong in ("Zm9v", 5, None, [1], array.array("H", [1, 2]), square):
            self.assert_same("encodebytes", wrong)
            self.assert_same("decodebytes", wrong)

    def test_messages_for_padding(self) -> None:
        """Without `validate` the standard library itself refuses a text."""
        for text in (b"Zm9vY", b"Zm9vYm=", "Zm9v\nYm", b"=Zm9", b"Zm=9\xff"):
            said = []
            for module in (base64, compat):
                with self.assertRaises(binascii.Error) as caught:
                    module.b64decode(text)
                said.append(str(caught.exception))
            self.assertEqual(said[0], said[1])

    def test_base32(self) -> None:
        names = [name for name in ("b32decode", "b32hexdecode") if hasattr(base64, name)]
        for text in self.texts(b"MZXW6ABmzx01") + self.texts(b"MZXW6A"):
            for name in names:
                self.assert_same(name, text)
                self.assert_same(name, text, True)
            self.assert_same("b32decode", text, False, b"I")
            self.assert_same("b32decode", text.decode("latin-1"), True, "L")
            self.assert_same("b32decode", text, True, b"l")

    def test_hexadecimal(self) -> None:
        for text in self.texts(b"0123ABCDEFabcdef") + self.texts(b"019AF"):
            self.assert_same("b16decode", text)
            self.assert_same("b16decode", text, True)
            self.assert_same("b16decode", memoryview(text), True)

    def test_types(self) -> None:
        for name in compat.__all__:
            if name.endswith("decode") and hasattr(base64, name):
                for wrong in (5, None, [1], "\u00e9", "", b"", memoryview(b"MZXW6===")[::2]):
                    self.assert_same(name, wrong)

    def test_position(self) -> None:
        """The error has the fault as its cause."""
        with self.assertRaises(binascii.Error) as caught:
            compat.b64decode(b"Zm9!", validate=True)
        self.assertEqual(str(caught.exception), "invalid symbol at 3")
        cause = caught.exception.__cause__
        assert isinstance(cause, DecodeError)
        self.assertEqual((cause.kind, cause.position), ("symbol", 3))

    def test_differences(self) -> None:
        """The differences that docs/PYTHON.md lists."""
        self.assertRaises(binascii.Error, compat.b64decode, "Zm9v=", validate=True)
        self.assertRaises(binascii.Error, compat.b64decode, "Zm8==", validate=True)
        if sys.version_info < (3, 13):
            self.assertEqual(base64.b64decode("Zm9v=", validate=True), b"foo")
        if sys.version_info < (3, 11):
            self.assertEqual(base64.b64decode("Zm8==", validate=True), b"fo")
        apart = memoryview(b"f.o.o.")[::2]
        self.assertEqual(compat.b64encode(apart), b"Zm9v")
        self.assertRaises(BufferError, base64.b64encode, apart)


if __name__ == "__main__":
    unittest.main()
