"""Tests of data_encoding against the standard library, and over every cutting of short texts."""

import array
import base64
import binascii
import codecs
import concurrent.futures
import copy
import ctypes
import doctest
import importlib
import io
import itertools
import json
import pickle
import random
import sys
import threading
import time
import types
import unittest
from typing import Any, Callable, List, Optional, Tuple

import data_encoding
import data_encoding.compat
from data_encoding import BASE64, BASE64_MIME, DecodeError, Decoder, Encoder, Encoding

SAME: Any = {
    "hexlower": base64.b16encode,
    "hexupper": base64.b16encode,
    "base32": base64.b32encode,
    "base64": base64.b64encode,
    "base64url": base64.urlsafe_b64encode,
}

if sys.version_info >= (3, 10):
    SAME["base32hex"] = base64.b32hexencode

NAMES = [
    "hexlower", "hexlower_permissive", "hexupper", "hexupper_permissive", "base32",
    "base32_nopad", "base32_nopad_nocase", "base32_nopad_visual", "base32hex", "base32hex_nopad",
    "base32_dnssec", "base32_dnscurve", "base64", "base64_nopad", "base64_mime",
    "base64_mime_permissive", "base64url", "base64url_nopad",
]

OWN = [
    Encoding("01234567", padding="=", ignore=" "),
    Encoding("ABCDEFGHIJKLMNOPQRSTUVWXYZ234567", ignore="-"),
    Encoding("01234567", padding="=", concatenate=False),
    Encoding("01", wrap=(8, "\n"), least_significant_first=True),
    Encoding("0123456789abcdef", translate=("ABCDEF", "abcdef"), wrap=(254, "\r\n")),
    Encoding("01234567", check_trailing_bits=False),
    Encoding("01234567", padding="=", translate=("#a", "=1")),
]


def predefined() -> List[Encoding]:
    return [getattr(Encoding, name)() for name in NAMES]


def every() -> List[Encoding]:
    return predefined() + OWN


def verdict(call: Callable[[], bytes]) -> Tuple[Any, ...]:
    try:
        return ("data", call())
    except DecodeError as error:
        return (error.kind, error.position, str(error))


class Calls(unittest.TestCase):
    def test_standard_library(self) -> None:
        for name, other in SAME.items():
            encoding = getattr(Encoding, name)()
            for size in (0, 1, 2, 3, 4, 5, 57, 383, 384, 385, 1000, 100_000):
                data = random.randbytes(size)
                text = other(data).decode()
                text = text.lower() if name == "hexlower" else text
                self.assertEqual(encoding.encode(data), text)
                self.assertEqual(encoding.decode(text), data)

    @unittest.skipIf(sys.version_info < (3, 11), "binascii has no strict_mode")
    def test_binascii(self) -> None:
        for text in ("Zm9v", "Zm9vYg==", "Zm9vYg=", "Zm9!", "Zm9vYg==Zm9v", "Z===", "===="):
            try:
                data = binascii.a2b_base64(text, strict_mode=True)
            except binascii.Error:
                data = None
            if data is not None:
                self.assertEqual(BASE64.decode(text), data)
            elif text != "Zm9vYg==Zm9v":
                self.assertRaises(DecodeError, BASE64.decode, text)

    def test_other_texts(self) -> None:
        """Differences from `base64` and `binascii`."""
        asked = BASE64.specification()
        asked["concatenate"] = False
        single = Encoding(**asked)
        rows: List[Tuple[str, Optional[bytes], Tuple[Any, ...], Tuple[Any, ...]]] = [
            ("AA==AAA=", None, ("data", bytes(3)), ("padding", 4)),
            ("SGl=", b"Hi", ("trailing", 2), ("trailing", 2)),
            ("SGk", None, ("length", 0), ("length", 0)),
            ("SGk=", b"Hi", ("data", b"Hi"), ("data", b"Hi")),
        ]
        for text, there, here, alone in rows:
            if there is None:
                self.assertRaises(binascii.Error, base64.b64decode, text, validate=True)
            else:
                self.assertEqual(base64.b64decode(text, validate=True), there)
            self.assertEqual(verdict(lambda: BASE64.decode(text))[:2], here)
            self.assertEqual(verdict(lambda: single.decode(text))[:2], alone)
        self.assertEqual(base64.b64decode("AA==AAA="), b"\0")

    def test_round_trip(self) -> None:
        for encoding in every():
            for size in (*range(20), 400, 9000):
                data = random.randbytes(size)
                text = encoding.encode(data)
                self.assertEqual(encoding.encode_len(size), len(text))
                self.assertGreaterEqual(encoding.decode_len(len(text)), size)
                self.assertEqual(encoding.decode(text), data)
                self.assertEqual(encoding.decode(text.encode()), data)
                self.assertEqual(encoding.decode(bytearray(text, "ascii")), data)

    def test_buffers(self) -> None:
        data = bytes(range(200))
        text = BASE64.encode(data)
        others: List[Any] = [bytearray(data), memoryview(data), array.array("B", data)]
        for same in others:
            self.assertEqual(BASE64.encode(same), text)
        self.assertEqual(BASE64.encode(memoryview(data)[::2]), BASE64.encode(data[::2]))
        self.assertEqual(BASE64.encode(array.array("H", [1, 2])), "AQACAA==")
        self.assertEqual(BASE64.decode(memoryview(text.encode())), data)

    def test_no_buffers(self) -> None:
        calls: Any = (BASE64.encode, BASE64.decode, BASE64.decode_partial,
                      Decoder(BASE64).decode, Encoder(BASE64).encode)
        for wrong in (5, True, [1, 2], None, 1.5, {1}):
            for call in calls:
                self.assertRaises(TypeError, call, wrong)
        self.assertRaises(TypeError, BASE64.encode, "text")
        self.assertRaises(TypeError, Encoder(BASE64).encode, "text")
        self.assertRaises(TypeError, BASE64.encode)

    def test_lengths(self) -> None:
        self.assertEqual((BASE64.encode_len(4), BASE64.decode_len(8)), (8, 6))
        with self.assertRaises(DecodeError) as caught:
            BASE64.decode_len(5)
        self.assertEqual(caught.exception.args, ("length", 4, b""))
        for call in (BASE64.encode_len, BASE64.decode_len):
            self.assertRaisesRegex(ValueError, "a length below 0", call, -1)
            self.assertRaises(ValueError, call, 1 << 70)
            self.assertRaises(TypeError, call, "1")
            self.assertRaises(TypeError, call, 1.0)

    def test_encode_bytes(self) -> None:
        for encoding in every():
            for size in (0, 1, 50, 255, 256, 384, 385, 513, 20_000):
                data = random.randbytes(size)
                text = encoding.encode_bytes(data)
                self.assertIs(type(text), bytes)
                self.assertEqual(text, encoding.encode(data).encode())
                self.assertEqual(encoding.encode_bytes(bytearray(data)), text)
        for wrong in ("text", 5, None, [1]):
            self.assertRaises(TypeError, BASE64.encode_bytes, wrong)

    def test_encode_into(self) -> None:
        output = bytearray(b".........")
        self.assertEqual(BASE64.encode_into(b"foob", output), 8)
        self.assertEqual(output, b"Zm9vYg==.")
        self.assertEqual(BASE64.encode_into(b"bar", memoryview(output)[5:]), 4)
        self.assertEqual(output, b"Zm9vYYmFy")
        for encoding in every():
            data = random.randbytes(2000)
            text = encoding.encode(data)
            output = bytearray(len(text) + 1)
            self.assertEqual(encoding.encode_into(data, output), len(text))
            self.assertEqual(output, text.encode() + b"\0")
            before = bytes(output)
            for room in (0, 1, len(text) - 1):
                with self.assertRaises(ValueError) as refused:
                    encoding.encode_into(bytes(2000), memoryview(output)[:room])
                self.assertEqual(str(refused.exception),
                                 f"output too short: the text has {len(text)} bytes")
            self.assertEqual(output, before)
        self.assertRaises(TypeError, BASE64.encode_into, b"foo", b"........")
        self.assertRaises(TypeError, BASE64.encode_into, b"foo", memoryview(b"........"))
        self.assertRaises(TypeError, BASE64.encode_into, b"foo", 5)
        self.assertRaises(TypeError, BASE64.encode_into, "foo", output)
        self.assertRaises(TypeError, BASE64.encode_into, b"foo")
        self.assertRaises(TypeError, BASE64.encode_into, b"foo", output, 1)

    def test_encode_into_the_data(self) -> None:
        data = bytearray(b"foo....")
        with self.assertRaises(ValueError) as refused:
            BASE64.encode_into(memoryview(data)[:3], data)
        self.assertEqual(str(refused.exception), "the data is in the output")
        self.assertEqual(data, b"foo....")
        self.assertEqual(BASE64.encode_into(memoryview(data)[:3], memoryview(data)[3:]), 4)
        self.assertEqual(data, b"fooZm9v")

    def test_made_objects(self) -> None:
        """A text and data that are written in place are objects like any others."""
        for size in (383, 384, 385, 512, 513, 9000, 9001, 100_000):
            data = random.randbytes(size).replace(b"\0", b"1")
            text = BASE64.encode(data)
            wanted = base64.b64encode(data).decode()
            self.assertEqual(sys.getsizeof(text), sys.getsizeof(wanted))
            self.assertTrue(text.isascii())
            self.assertEqual({text: 1}, {wanted: 1})
            self.assertEqual((text + "\u00e9")[-2:], wanted[-1] + "\u00e9")
            again = BASE64.decode(text)
            self.assertEqual({again: 1}, {data: 1})
            self.assertEqual(again[-1:] + b"!", data[-1:] + b"!")
            self.assertEqual(ctypes.c_char_p(again).value, data)
            del text, again
        # No str that others have is written to.
        self.assertEqual("".join(["."] * 2), "..")

    def test_decode_into(self) -> None:
        output = bytearray(b"........")
        self.assertEqual(BASE64.decode_into("Zm9vYg==", output), 4)
        self.assertEqual((output[:4], output[6:]), (b"foob", b".."))
        self.assertEqual(BASE64.decode_into("Zm9v", memoryview(output)[5:]), 3)
        self.assertEqual(output[5:], b"foo")
        for room in (8, 3, 2):
            with self.assertRaises(DecodeError) as caught:
                BASE64.decode_into("Zm9vY!==", bytearray(room))
            self.assertEqual(caught.exception.args, ("symbol", 5, b"foo"))
        self.assertRaises(DecodeError, BASE64.decode_into, "Zm9vY", output)
        self.assertRaises(TypeError, BASE64.decode_into, "Zm9v", b"........")
        self.assertRaises(TypeError, BASE64.decode_into, 5, output)

    def test_decode_into_each_length(self) -> None:
        for encoding in every():
            for size in (0, 1, 2, 3, 31, 32, 33, 319, 320, 321, 383, 384, 385, 1000):
                data = random.randbytes(size)
                text = encoding.encode(data)
                for room in range(max(0, size - 3), size + 4):
                    output = bytearray(room)
                    if room < size:
                        with self.assertRaises(ValueError) as refused:
                            encoding.decode_into(text, output)
                        self.assertEqual(
                            str(refused.exception), f"output too short: the data has {size} bytes"
                        )
                    else:
                        self.assertEqual(encoding.decode_into(text, output), size)
                        self.assertEqual(output[:size], data)

    def test_decode_into_the_text(self) -> None:
        text = bytearray(b"Zm9v....")
        self.assertRaises(ValueError, BASE64.decode_into, memoryview(text)[:4], text)
        self.assertEqual(text, b"Zm9v....")
        self.assertEqual(BASE64.decode_into(memoryview(text)[:4], memoryview(text)[4:]), 3)
        self.assertEqual(text, b"Zm9vfoo.")

    def test_threads(self) -> None:
        encoding = OWN[0]
        data = random.randbytes(20_000)
        text = encoding.encode(data)
        wrong = []

        def run() -> None:
            for _ in range(100):
                if encoding.encode(data) != text or encoding.decode(text) != data:
                    wrong.append(1)

        threads = [threading.Thread(target=run) for _ in range(2)]
        for thread in threads:
            thread.start()
        for thread in threads:
            thread.join()
        self.assertEqual(wrong, [])

    def test_others_run_meanwhile(self) -> None:
        """No thread is made to wait here, so that one runs only when a call lets it."""
        turns = [0]
        ended = threading.Event()

        def count() -> None:
            while not ended.is_set():
                turns[0] += 1
                time.sleep(0.0002)

        data = bytes(1 << 25)
        text = BASE64.encode(data)
        calls: Any = ((BASE64.encode, data), (BASE64.decode, text),
                      (Encoder(BASE64).encode, data), (Decoder(BASE64).decode, text))
        interval = sys.getswitchinterval()
        thread = threading.Thread(target=count)
        thread.start()
        sys.setswitchinterval(1000)
        try:
            for call, argument in calls:
                before = turns[0]
                # On a busy machine a thread may not have its turn at once.
                for _ in range(20):
                    if turns[0] == before:
                        call(argument)
                self.assertGreater(turns[0], before)
            before = turns[0]
            BASE64.encode(data[:1000])
            self.assertEqual(turns[0], before)
        finally:
            sys.setswitchinterval(interval)
            ended.set()
            thread.join()


class Raw(io.BytesIO):
    """A file that reads and takes a few bytes at a time."""

    def __init__(self, data: bytes = b"", most: int = 1000) -> None:
        super().__init__(data)
        self.most = most

    def read(self, size: Optional[int] = -1, /) -> bytes:
        return super().read(self.most if size is None or size < 0 else min(size, self.most))

    def write(self, data: Any, /) -> int:
        return super().write(data[: self.most])


class Streams(unittest.TestCase):
    def test_files(self) -> None:
        data = random.randbytes(600_000)
        for encoding in every():
            wanted = encoding.encode(data).encode()
            for make in (io.BytesIO, Raw):
                text = make()
                encoding.encode_stream(make(data), text)
                self.assertTrue(text.getvalue() == wanted, encoding)
                back = make()
                encoding.decode_stream(make(wanted), back)
                self.assertTrue(back.getvalue() == data, encoding)

    def test_short_files(self) -> None:
        for encoding in every():
            for size in range(20):
                data = random.randbytes(size)
                text, back = io.BytesIO(), io.BytesIO()
                encoding.encode_stream(Raw(data, 2), text)
                self.assertEqual(text.getvalue(), encoding.encode(data).encode())
                encoding.decode_stream(io.StringIO(text.getvalue().decode()), back)
                self.assertEqual(back.getvalue(), data)

    def test_text_files(self) -> None:
        data = random.randbytes(600_000)
        for encoding in every():
            text = io.StringIO(newline="")
            encoding.encode_stream(io.BytesIO(data), text)
            self.assertTrue(text.getvalue() == encoding.encode(data), encoding)
        raw = io.BytesIO()
        file = io.TextIOWrapper(raw, encoding="utf-16", newline="")
        BASE64_MIME.encode_stream(io.BytesIO(data), file)
        file.flush()
        self.assertEqual(raw.getvalue().decode("utf-16"), BASE64_MIME.encode(data))

    def test_faults(self) -> None:
        text = bytearray(base64.b64encode(bytes(600_000)))
        text[500_002] = ord("!")
        back = io.BytesIO()
        with self.assertRaises(DecodeError) as caught:
            BASE64.decode_stream(io.BytesIO(text), back)
        self.assertEqual(caught.exception.args, ("symbol", 500_002, b""))
        self.assertEqual(back.getvalue(), bytes(375_000))
        back = io.BytesIO()
        with self.assertRaises(DecodeError) as caught:
            BASE64.decode_stream(io.BytesIO(b"Zm9vY"), back)
        self.assertEqual((caught.exception.kind, back.getvalue()), ("length", b"foo"))

    def test_what_is_no_file_of_bytes(self) -> None:
        self.assertRaises(TypeError, BASE64.encode_stream, io.StringIO("text"), io.BytesIO())
        self.assertRaises(TypeError, BASE64.decode_stream, io.BytesIO(b"Zm9v"), io.StringIO())
        self.assertRaises(AttributeError, BASE64.encode_stream, b"data", io.BytesIO())

    def test_what_would_block(self) -> None:
        class Waiting:
            def read(self, size: int, /) -> None:
                return None

            def write(self, data: memoryview, /) -> int:
                return 0

        for call in (BASE64.encode_stream, BASE64.decode_stream):
            self.assertRaises(BlockingIOError, call, Waiting(), io.BytesIO())
            self.assertRaises(BlockingIOError, call, io.BytesIO(b"Zm9v"), Waiting())


IN_ANOTHER = """
import sys
sys.path[:] = {path!r}
from data_encoding import BASE64, DecodeError, Encoding
octal = Encoding("01234567", padding="=")
for _ in range(200):
    assert BASE64.encode(bytes(9000)) == 12000 * "A"
    assert octal.decode(octal.encode(bytes(range(256)))) == bytes(range(256))
    try:
        BASE64.decode("Zm9!")
    except DecodeError as fault:
        assert fault.position == {position}
    else:
        assert False
"""


def run_in_another(code: str) -> Optional[str]:
    """Runs the code in an interpreter of its own, and says how it failed."""
    try:
        interpreters: Any = importlib.import_module("_interpreters")
    except ImportError:
        interpreters = importlib.import_module("_xxsubinterpreters")
    made = interpreters.create()
    try:
        failed = interpreters.run_string(made, code)
        return None if failed is None else str(failed)
    except Exception as error:
        return str(error)
    finally:
        interpreters.destroy(made)


class Interpreters(unittest.TestCase):
    def test_one_after_another(self) -> None:
        for _ in range(3):
            code = IN_ANOTHER.format(path=sys.path, position=3)
            self.assertIsNone(run_in_another(code))
        wrong = IN_ANOTHER.format(path=sys.path, position=4)
        self.assertIn("Assertion", str(run_in_another(wrong)))
        self.assertEqual(BASE64.encode(b"Hello"), "SGVsbG8=")

    @unittest.skipIf(sys.version_info < (3, 12), "interpreters share one lock")
    def test_at_the_same_time(self) -> None:
        code = IN_ANOTHER.format(path=sys.path, position=3)
        with concurrent.futures.ThreadPoolExecutor(3) as pool:
            found = list(pool.map(run_in_another, 6 * [code]))
        self.assertEqual(found, 6 * [None])


class Faults(unittest.TestCase):
    def test_errors(self) -> None:
        with self.assertRaises(DecodeError) as caught:
            BASE64.decode("Zm9vZm9\u00e9")
        self.assertIsInstance(caught.exception, ValueError)
        self.assertEqual((caught.exception.kind, caught.exception.position), ("symbol", 7))
        self.assertEqual(str(caught.exception), "invalid symbol at 7")
        self.assertEqual(caught.exception.data, b"foo")

    def test_kinds(self) -> None:
        for text, kind, position, printed in (
            ("Zm9vY", "length", 4, "invalid length at 4"),
            ("Zm9v!===", "padding", 5, "invalid padding length at 5"),
            ("Zm9vZh==", "trailing", 5, "non-zero trailing bits at 5"),
            ("Zm9v\u0141m9v", "symbol", 4, "invalid symbol at 4"),
            ("Zm9v\ud800m9v", "symbol", 4, "invalid symbol at 4"),
            ("Zm9v\U0001f600m9v", "symbol", 4, "invalid symbol at 4"),
        ):
            self.assertEqual(verdict(lambda: BASE64.decode(text)), (kind, position, printed))
            self.assertEqual(verdict(lambda: Decoder(BASE64).decode(text, True)),
                             (kind, position, printed))

    def test_partial(self) -> None:
        data, read, error = BASE64.decode_partial("Zm9vZ!==")
        assert error is not None
        self.assertEqual((data, read, error.args), (b"foo", 4, ("symbol", 5, b"foo")))
        self.assertEqual(BASE64.decode_partial("Zm9v"), (b"foo", 4, None))
        long = "Zm9v" * 1000
        partial = BASE64.decode_partial(long + "!" + long[1:])
        self.assertEqual((partial.data, partial.read), (b"foo" * 1000, 4000))
        self.assertEqual(BASE64.decode_partial("Zm9vY").read, 0)

    def test_copies(self) -> None:
        error = DecodeError("symbol", 7, b"foo")
        copies = [pickle.loads(pickle.dumps(error, protocol)) for protocol in range(6)]
        for other in copies + [copy.copy(error), copy.deepcopy(error)]:
            self.assertIsInstance(other, DecodeError)
            self.assertEqual((other.kind, other.position, other.data), ("symbol", 7, b"foo"))
            self.assertEqual(str(other), str(error))

    def test_repr(self) -> None:
        """It leaves out the data, which copies keep."""
        class Other(DecodeError):
            pass

        error = DecodeError("symbol", 7, bytes(100_000))
        self.assertEqual(repr(error), "DecodeError('symbol', 7)")
        self.assertEqual(repr(Other("length", 4)), "Other('length', 4)")
        self.assertEqual(pickle.loads(pickle.dumps(error)).data, bytes(100_000))

    def test_process_pool(self) -> None:
        with concurrent.futures.ProcessPoolExecutor(1) as pool:
            self.assertEqual(pool.submit(OWN[0].decode, "142 =====").result(), b"1")
            with self.assertRaises(DecodeError) as caught:
                pool.submit(BASE64.decode, "Zm9v!===").result()
            self.assertEqual(caught.exception.args, ("padding", 5, b"foo"))
            self.assertEqual(pool.submit(BASE64.decode, "Zm9v").result(), b"foo")


class Encodings(unittest.TestCase):
    def test_specifications(self) -> None:
        for arguments, text in (
            ({"symbols": "abc"}, "invalid number of symbols"),
            ({"symbols": "aa"}, "'a' has conflicting definitions"),
            ({"symbols": "01", "padding": "="}, "unnecessary padding"),
            ({"symbols": "0\u00e9"}, "non-ascii character"),
            ({"symbols": "\u00e9"}, "non-ascii character"),
            ({"symbols": "01", "wrap": (8, "\u0141")}, "non-ascii character"),
            ({"symbols": "01", "ignore": "\u00e9"}, "non-ascii character"),
            ({"symbols": "01", "ignore": "\ud800"}, "non-ascii character"),
            ({"symbols": "01234567", "padding": "\u20ac"}, "non-ascii character"),
            ({"symbols": "01", "translate": ("a", "b")}, "'b' is undefined"),
            ({"symbols": "01", "translate": ("a", "01")}, "translate from/to length mismatch"),
            ({"symbols": "01", "wrap": (9, "\n")}, "wrap width not a multiple of 8"),
            ({"symbols": "01", "wrap": (256, "\n")}, "invalid wrap width or separator length"),
            ({"symbols": "01", "wrap": (2**64 + 8, "\n")},
             "invalid wrap width or separator length"),
            ({"symbols": "01", "wrap": (-8, "\n")}, "the width of wrap is below 0"),
            ({"symbols": "01234567", "padding": "=="}, "the padding is not one character"),
            ({"symbols": "01234567", "padding": ""}, "the padding is not one character"),
        ):
            with self.assertRaises(ValueError) as caught:
                Encoding(**arguments)  # type: ignore[arg-type]
            self.assertEqual(str(caught.exception), text)

    def test_quoted(self) -> None:
        for character, text in (
            ("\0", r"'\0'"), ("\t", r"'\t'"), ("\n", r"'\n'"), ("\r", r"'\r'"), (" ", "' '"),
            ("\x1b", r"'\u{1b}'"), ("'", r"'\''"), ('"', "'\"'"), ("\\", r"'\\'"), ("~", "'~'"),
            ("\x7f", r"'\u{7f}'"),
        ):
            with self.assertRaises(ValueError) as caught:
                Encoding("01", translate=("a", character))
            self.assertEqual(str(caught.exception), f"{text} is undefined")

    def test_types(self) -> None:
        for arguments, text in (
            ({"symbols": b"01"}, "symbols has to be a str, not bytes"),
            ({"symbols": None}, "symbols has to be a str, not NoneType"),
            ({"symbols": "01", "padding": 61}, "padding has to be a str or None, not int"),
            ({"symbols": "01", "ignore": ["a"]}, "ignore has to be a str, not list"),
            ({"symbols": "01", "wrap": (8,)}, "wrap has to be a tuple or list of two"),
            ({"symbols": "01", "wrap": "8\n"}, "wrap has to be a tuple or list of two"),
            ({"symbols": "01", "wrap": [8]}, "wrap has to be a tuple or list of two"),
            ({"symbols": "01", "wrap": ("8", "\n")},
             "the width of wrap has to be an int, not str"),
            ({"symbols": "01", "wrap": (True, "\n")},
             "the width of wrap has to be an int, not bool"),
            ({"symbols": "01", "wrap": (8, b"\n")},
             "the separator of wrap has to be a str, not bytes"),
            ({"symbols": "01", "translate": {"a": "0"}},
             "translate has to be a tuple or list of two"),
            ({"symbols": "01", "translate": "a0"}, "translate has to be a tuple or list of two"),
            ({"symbols": "01", "translate": ["a", 0]}, "translate has to be a str, not int"),
            ({"symbols": "01", "translate": (1, 2)}, "translate has to be a str, not int"),
        ):
            with self.assertRaises(TypeError) as caught:
                Encoding(**arguments)  # type: ignore[arg-type]
            self.assertEqual(str(caught.exception), text)
        for wrong in (None, b"BASE64", 12):
            self.assertRaises(TypeError, Encoding.named, wrong)
        self.assertRaises(TypeError, Encoding)
        self.assertRaises(TypeError, Encoding.from_layout, 5)
        self.assertRaises(TypeError, object.__new__, Encoding)

    def test_names(self) -> None:
        self.assertEqual([name.lower() for name in Encoding.names()], NAMES)
        for name in NAMES:
            constant = getattr(data_encoding, name.upper())
            self.assertIs(getattr(Encoding, name)(), constant)
            self.assertIs(Encoding.named(name.upper()), constant)
            self.assertIn(name.upper(), data_encoding.__all__)
            self.assertEqual(constant.name, name.upper())
            self.assertEqual(f"{constant}", name.upper())
        self.assertEqual(Encoding(**BASE64.specification()).name, "BASE64")
        self.assertIsNone(OWN[0].name)
        self.assertEqual(str(OWN[0]), repr(OWN[0]))
        for name in ("base64", "BASE", "BASE64 ", "", "BASE64\u00e9", "\ud800"):
            self.assertRaises(ValueError, Encoding.named, name)

    def test_with_padding_or_without(self) -> None:
        """The recipe of docs/FORMATS.md, with the texts that it names."""
        asked: Any = {**Encoding.named("BASE64URL_NOPAD").specification(), "ignore": "="}
        either = Encoding(**asked)
        for text in ("SGk", "SGk=", "S=Gk"):
            self.assertEqual(either.decode(text), b"Hi")
        self.assertEqual(either.encode(b"Hi"), "SGk")
        self.assertRaises(DecodeError, either.decode, "AA==AAA=")

    def test_canonical(self) -> None:
        canonical = [name for name in NAMES if getattr(Encoding, name)().is_canonical()]
        self.assertEqual(canonical, [
            "hexlower", "hexupper", "base32_nopad", "base32hex_nopad", "base64_nopad",
            "base64url_nopad",
        ])

    def test_numbers_and_layouts(self) -> None:
        """By its number, and by its layout alone, an encoding is the same."""
        data = bytes(range(256))
        for encoding in predefined():
            other = Encoding._of_layout(encoding.layout)
            text = encoding.encode(data)
            self.assertEqual(other.encode(data), text)
            for byte in range(256):
                faulty = text[:9].encode() + bytes([byte]) + text[10:].encode()
                self.assertEqual(other.decode_partial(faulty)[:2],
                                 encoding.decode_partial(faulty)[:2])

    def test_layouts(self) -> None:
        for encoding in every():
            self.assertEqual(Encoding.from_layout(encoding.layout), encoding)
            self.assertEqual(Encoding.from_layout(bytearray(encoding.layout)), encoding)
        self.assertIs(Encoding.from_layout(BASE64.layout), BASE64)
        for wrong in (b"", bytes(514), BASE64.layout[:-1], BASE64.layout + b"\0"):
            self.assertRaises(ValueError, Encoding.from_layout, wrong)

    def test_specification(self) -> None:
        for encoding in every():
            self.assertEqual(Encoding(**encoding.specification()), encoding)
        self.assertEqual(OWN[4].specification(), {
            "symbols": "0123456789abcdef", "padding": None, "ignore": "\n\r",
            "wrap": (254, "\r\n"), "translate": ("ABCDEF", "abcdef"),
            "least_significant_first": False, "check_trailing_bits": True, "concatenate": True,
        })
        self.assertEqual(OWN[6].specification()["translate"], ("#a", "=1"))
        self.assertEqual(OWN[6].decode("220644#="), b"Hi")
        self.assertFalse(OWN[2].specification()["concatenate"])
        self.assertTrue(OWN[3].specification()["least_significant_first"])
        self.assertFalse(OWN[5].specification()["check_trailing_bits"])

    def test_specifications_of_json(self) -> None:
        """JSON has lists in place of tuples."""
        for encoding in every():
            asked = json.loads(json.dumps(encoding.specification()))
            self.assertEqual(Encoding(**asked), encoding)
        self.assertEqual(Encoding("01", wrap=[8, "\n"], translate=["ab", "01"]),
                         Encoding("01", wrap=(8, "\n"), translate=("ab", "01")))

    def test_equality(self) -> None:
        for one, other in itertools.product(every(), every()):
            self.assertEqual(one == other, one is other)
            self.assertEqual(one.layout == other.layout, one is other)
        again = Encoding("01234567", padding="=", ignore=" ")
        self.assertIsNot(again, OWN[0])
        self.assertEqual(again, OWN[0])
        self.assertEqual(hash(again), hash(OWN[0]))
        self.assertEqual(len(set(every() + every() + [again])), len(every()))
        self.assertNotEqual(BASE64, "BASE64")

    def test_repr(self) -> None:
        self.assertEqual(repr(BASE64), "Encoding.base64()")
        self.assertEqual(repr(OWN[2]), "Encoding('01234567', padding='=', concatenate=False)")
        for encoding in every():
            self.assertEqual(eval(repr(encoding)), encoding)

    def test_copies(self) -> None:
        for encoding in every():
            for protocol in range(6):
                other = pickle.loads(pickle.dumps(encoding, protocol))
                self.assertEqual(other, encoding)
                self.assertEqual(other.encode(b"foo"), encoding.encode(b"foo"))
            self.assertIs(copy.copy(encoding), encoding)
            self.assertIs(copy.deepcopy(encoding), encoding)
        self.assertIs(pickle.loads(pickle.dumps(BASE64)), BASE64)
        self.assertLess(len(pickle.dumps(BASE64)), 100)

    def test_alignment(self) -> None:
        data = random.randbytes(1000)
        for encoding in every():
            cut = encoding.encode_align
            self.assertEqual(encoding.encode(data[:cut]) + encoding.encode(data[cut:]),
                             encoding.encode(data))
        self.assertEqual([encoding.encode_align for encoding in OWN], [3, 5, 3, 1, 127, 3, 3])
        self.assertEqual(data_encoding.BASE64_MIME.encode_align, 57)

    def test_methods(self) -> None:
        """The methods of the module are an encoding's own."""
        for name in ("encode", "encode_bytes", "encode_into", "decode", "decode_into"):
            own = vars(Encoding)[name]
            self.assertIs(own.__objclass__, Encoding)
            self.assertEqual(own.__doc__, getattr(data_encoding._native.Calls, name).__doc__)

    def test_methods_of_other_objects(self) -> None:
        """A method refuses an object of another class, however it gets there."""
        class Other:
            pass

        own = [it for it in vars(Encoding).values() if isinstance(it, types.MethodDescriptorType)]
        inherited = [it for it in vars(data_encoding._native.Calls).values()
                     if isinstance(it, types.MethodDescriptorType)]
        self.assertEqual(len(own), len(inherited))
        self.assertGreater(len(own), 10)
        for method in own + inherited:
            for count in range(3):
                for wrong in (5, Other(), Encoding, data_encoding._native.Calls):
                    self.assertRaises(TypeError, method, wrong, *count * [b"Zm9v"])
            setattr(Other, method.__name__, method)
            self.assertRaises(TypeError, getattr, Other(), method.__name__)

    def test_methods_of_other_types(self) -> None:
        """A class method of the module refuses a type that is not of its own."""
        for name in ("_adopt", "_of_layout", "_specified"):
            method: Any = vars(data_encoding._native.Calls)[name]
            for wrong in (5, BASE64, object, int, type("Other", (), {})):
                self.assertRaises(TypeError, method, wrong)
                self.assertRaises(TypeError, method.__get__, None, wrong)
                self.assertRaises(TypeError, getattr(Encoding, name), wrong)
        self.assertIsNone(Encoding._adopt())
        self.assertRaises(TypeError, data_encoding._native.Calls)
        self.assertRaises(TypeError, type("Other", (data_encoding._native.Calls,), {}))
        self.assertRaises(TypeError, object.__new__, data_encoding._native.Calls)

    def test_public_names(self) -> None:
        """No helper has a name that looks public."""
        for name, value in vars(data_encoding).items():
            if not name.startswith("_") and name not in data_encoding.__all__:
                self.assertNotEqual(getattr(value, "__module__", None), "data_encoding._native")
                self.assertNotIsInstance(value, types.BuiltinFunctionType)

    def test_listed_names(self) -> None:
        """`dir` lists what is public, and not what is imported."""
        for module in (data_encoding, data_encoding.compat):
            listed = [name for name in dir(module) if not name.startswith("__")]
            public = set(module.__all__) - {"__version__"}
            self.assertEqual(set(listed) - {"compat"}, public)
            self.assertTrue(all(hasattr(module, name) for name in dir(module)))

    def test_unchanged(self) -> None:
        with self.assertRaises(AttributeError):
            BASE64.other = 1  # type: ignore[attr-defined]

    def test_documentation(self) -> None:
        self.assertEqual(doctest.testmod(data_encoding).failed, 0)


class Pieces(unittest.TestCase):
    def test_decoder(self) -> None:
        """Each text in two and three pieces, cut anywhere, and byte by byte."""
        for encoding in every():
            for text in texts(encoding):
                wanted = verdict(lambda: encoding.decode(text))
                cuts = itertools.combinations_with_replacement(range(len(text) + 1), 2)
                for one, other in cuts:
                    pieces = [text[:one], text[one:other], text[other:]]
                    self.assertEqual(verdict(lambda: joined(encoding, pieces)), wanted)
                pieces = [text[i : i + 1] for i in range(len(text))]
                self.assertEqual(verdict(lambda: joined(encoding, pieces)), wanted)

    def test_decoder_is_incremental(self) -> None:
        decoder = Decoder(BASE64)
        self.assertIsInstance(decoder, codecs.IncrementalDecoder)
        self.assertEqual(decoder.decode("Zm9vY"), b"foo")
        state = decoder.getstate()
        self.assertEqual(decoder.decode("mFy"), b"bar")
        decoder.setstate(state)
        self.assertEqual(decoder.decode("g==", final=True), b"b")
        self.assertEqual(decoder.getstate(), (b"", 0))
        self.assertEqual(state[0], b"Y")
        self.assertRaises(ValueError, decoder.setstate, (b"", 1 << 64))
        self.assertRaises(ValueError, decoder.setstate, (b"", 1 << 10000))
        self.assertRaises(ValueError, decoder.setstate, (b"", -1))
        for wrong in (5, (b"",), (b"", "1"), None):
            self.assertRaises(TypeError, decoder.setstate, wrong)
        self.assertRaises(TypeError, Decoder, "BASE64")
        self.assertEqual(decoder.decode("Zm9v", final=True), b"foo")

    def test_bytes_of_no_decoder(self) -> None:
        for wrong in (b"", b"1", bytes(103), bytes(105)):
            self.assertRaises(ValueError, BASE64._decoder_held, wrong)
            self.assertRaises(ValueError, BASE64._decoder_read, wrong, "Zm9v")
            self.assertRaises(ValueError, BASE64._decoder_finish, wrong)

    def test_decoder_after_a_fault(self) -> None:
        decoder = Decoder(BASE64)
        self.assertEqual(decoder.decode("Zm9v!mFy"), b"foo")
        self.assertEqual(decoder.decode("Zm9v" * 1000), b"")
        with self.assertRaises(DecodeError) as caught:
            decoder.decode("Z", final=True)
        self.assertEqual((caught.exception.kind, caught.exception.position), ("length", 4008))
        self.assertEqual(decoder.getstate(), (b"", 0))

    def test_data_before_a_fault(self) -> None:
        decoder = Decoder(BASE64)
        self.assertEqual(decoder.decode("Zm9"), b"")
        with self.assertRaises(DecodeError) as caught:
            decoder.decode("vYmFy!m9v", final=True)
        self.assertEqual(caught.exception.args, ("symbol", 8, b"foobar"))

    def test_copies_of_a_decoder(self) -> None:
        decoder = Decoder(OWN[0])
        self.assertEqual(decoder.decode("220 6"), b"")
        others = [copy.copy(decoder), copy.deepcopy(decoder), pickle.loads(pickle.dumps(decoder))]
        self.assertEqual(decoder.decode("44==", final=True), b"Hi")
        for other in others:
            self.assertEqual(other.decode("44==", final=True), b"Hi")

    def test_encoder(self) -> None:
        data = random.randbytes(300)
        for encoding in every():
            whole = encoding.encode(data)
            for one, other in ((0, 0), (1, 2), (1, 300), (57, 58), (128, 254), (300, 300)):
                encoder = Encoder(encoding)
                text = encoder.encode(data[:one]) + encoder.encode(bytearray(data[one:other]))
                copied = copy.copy(encoder)
                self.assertEqual(text + encoder.encode(data[other:], final=True), whole)
                self.assertEqual(text + copied.encode(data[other:], final=True), whole)
            encoder = Encoder(encoding)
            text = "".join(encoder.encode(data[i : i + 1]) for i in range(len(data)))
            self.assertEqual(text + encoder.encode(b"", final=True), whole)

    def test_encoder_of_buffers(self) -> None:
        data = memoryview(bytes(range(200)))
        others: List[Any] = [data, data[::2], data[::-3], array.array("H", [1, 2])]
        for piece in others:
            encoder = Encoder(BASE64)
            text = encoder.encode(b"a") + encoder.encode(piece) + encoder.encode(b"", final=True)
            self.assertEqual(text, BASE64.encode(b"a" + piece.tobytes()))

    def test_refused_pieces(self) -> None:
        """An encoder stays as it was."""
        encoder = Encoder(BASE64)
        encoder.encode(b"f")
        wrong: Any
        for wrong in ("o", None, 5):
            self.assertRaises(TypeError, encoder.encode, wrong)
            self.assertRaises(TypeError, encoder.encode, wrong, True)
        self.assertEqual(encoder.encode(b"oo", final=True), "Zm9v")

    def test_bytes_of_no_encoder(self) -> None:
        """The library refuses a whole block, and so does the module what is longer than any."""
        blocks = ((BASE64, 3), (Encoding.base64_mime(), 57), (OWN[0], 3), (OWN[4], 127))
        for encoding, block in blocks:
            self.assertEqual(encoding._encoder_read(bytes(block - 1), b""), ("", bytes(block - 1)))
            for size in (block, block + 1, 189, 190, 1000):
                with self.assertRaises(ValueError) as refused:
                    encoding._encoder_read(bytes(size), b"")
                self.assertEqual(str(refused.exception), "no encoder")
                self.assertRaises(ValueError, encoding._encoder_finish, bytes(size))
        self.assertRaises(ValueError, BASE64._encoder_finish, bytearray(1))

    def test_copies_of_an_encoder(self) -> None:
        for encoding in (BASE64, OWN[4]):
            encoder = Encoder(encoding)
            self.assertEqual(encoder.encode(b"Hi"), "")
            pickled = pickle.loads(pickle.dumps(encoder))
            others = [copy.copy(encoder), copy.deepcopy(encoder), pickled]
            self.assertEqual(encoder.encode(b"!", final=True), encoding.encode(b"Hi!"))
            for other in others:
                self.assertEqual(other.encode(b"?", final=True), encoding.encode(b"Hi?"))

    def test_encoder_is_incremental(self) -> None:
        encoder = Encoder(BASE64)
        self.assertIsInstance(encoder, codecs.IncrementalEncoder)
        self.assertEqual(encoder.getstate(), 0)
        self.assertEqual(encoder.encode(b"foob\0"), "Zm9v")
        state = encoder.getstate()
        self.assertEqual(encoder.encode(b"", final=True), "YgA=")
        self.assertEqual(encoder.getstate(), 0)
        encoder.setstate(state)
        self.assertEqual(encoder.encode(b"", final=True), "YgA=")
        encoder.encode(b"f")
        encoder.reset()
        self.assertEqual(encoder.encode(b"foo", final=True), "Zm9v")
        for wrong in (-1, 1, 2, 0x0261, 0x01616263, 1 << 10000):
            self.assertRaises(ValueError, encoder.setstate, wrong)
        self.assertRaises(TypeError, encoder.setstate, "1")
        self.assertRaises(TypeError, Encoder, "BASE64")


def joined(encoding: Encoding, pieces: List[str]) -> bytes:
    decoder = Decoder(encoding)
    data = b"".join(decoder.decode(piece) for piece in pieces)
    return data + decoder.decode("", final=True)


def texts(encoding: Encoding) -> List[str]:
    """Texts of short data, some of them damaged."""
    found = []
    for size in (0, 1, 2, 5, 6):
        text = encoding.encode(b"foobar"[:size])
        found += [text, text + text, text[:-1], text + "!", "!" + text, text.replace("=", "")]
    return found


if __name__ == "__main__":
    unittest.main()
