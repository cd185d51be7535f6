"""Tries the functions of docs/SCALE.md for a cluster, as a module `parts`, against one run.

usage: scale.py, in a folder with `input`, 64 MiB of data

With SCALE_LARGE=1 the memory that 1 and 4 GiB take is compared, in place of 64 and 256 MiB: the
files then have 14 GB.
"""

import os
import pickle
import random
import signal
import unittest

import parts
from data_encoding import BASE64, BASE64_MIME, BASE64_NOPAD, DecodeError, Decoder, Encoding
from distributed import Client, LocalCluster

INPUT = "input"
PART = parts.PART

# How many times the file has the input whose memory is compared.
TIMES = (16, 64) if os.environ.get("SCALE_LARGE") == "1" else (1, 4)


def remove(name):
    # A file that is emptied and written again is waited for on some disks.
    if os.path.exists(name):
        os.remove(name)


def write(name, data):
    remove(name)
    with open(name, "wb") as file:
        file.write(data)


def contents(name):
    with open(name, "rb") as file:
        return file.read()


def one_run(encoding, text):
    """The data of a text before its fault, and the fault, as one decoder gives them."""
    decoder = Decoder(encoding)
    data = decoder.decode(text)
    try:
        return data + decoder.decode(b"", final=True), None
    except DecodeError as error:
        return data + error.data, (error.kind, error.position)


def in_parts(client, encoding, source):
    """The same, as `decode_file` gives them."""
    remove("back")
    try:
        parts.decode_file(client, encoding, source, "back")
    except DecodeError as error:
        return contents("back"), (error.kind, error.position)
    return contents("back"), None


class Deadly:
    """A path. The worker that opens it as the fourth dies, and its results with it."""

    def __init__(self, path):
        self.path = path
        self.opened = path + ".opened"
        self.client = os.getpid()
        write(self.opened, b"")

    def __fspath__(self):
        if os.getpid() != self.client:
            log = os.open(self.opened, os.O_WRONLY | os.O_APPEND)
            os.write(log, b"%8d" % os.getpid())
            if os.lseek(log, 0, os.SEEK_CUR) == 4 * 8:
                os.kill(os.getpid(), signal.SIGKILL)
            os.close(log)
        return self.path

    def openers(self):
        return [int(process) for process in contents(self.opened).split()]


class Done:
    def __init__(self, value):
        self.value = value

    def result(self):
        return self.value


class Here:
    """A client that runs each task at once, with copies of what it is given."""

    def __init__(self):
        self.submitted = 0

    def done(self, function, *arguments, **named):
        arguments, named = pickle.loads(pickle.dumps((arguments, named)))
        return Done(pickle.loads(pickle.dumps(function(*arguments, **named))))

    def submit(self, function, *arguments, pure):
        self.submitted += 1
        return self.done(function, *arguments)

    def map(self, function, *columns, pure, **named):
        # No more are given at a time than that.
        assert len(columns[0]) <= parts.WINDOW
        return [self.done(function, *row, **named) for row in zip(*columns)]

    def gather(self, futures):
        return [future.result() for future in futures]


class Counting(Here):
    """Counts the pieces, and keeps their length."""

    def __init__(self):
        super().__init__()
        self.mapped = 0

    def map(self, function, *columns, pure, **named):
        self.mapped += len(columns[0])
        self.length = named["length"]
        return super().map(function, *columns, pure=pure, **named)


def peak():
    """The most memory that this process had at a time, in KiB."""
    with open("/proc/self/status") as file:
        return next(int(line.split()[1]) for line in file if line.startswith("VmHWM:"))


class WithACluster(unittest.TestCase):
    """With the input, and a cluster of two processes."""

    @classmethod
    def setUpClass(cls):
        cls.data = contents(INPUT)

    def setUp(self):
        local = "127.0.0.1:0"
        self.cluster = LocalCluster(
            n_workers=2, threads_per_worker=1, dashboard_address=local,
            worker_dashboard_address=local, host="127.0.0.1", memory_limit="1GiB",
        )
        self.addCleanup(self.cluster.close)
        self.client = Client(self.cluster)
        self.addCleanup(self.client.close)
        with open("workers", "a") as file:
            print(*self.client.run(os.getpid).values(), file=file)


class OnACluster(WithACluster):
    """The text of 64 MiB. Of each cluster one process dies at most, so that nothing depends on
    whether it is replaced."""

    def assert_one_died(self, source):
        openers = source.openers()
        self.assertGreater(len(openers), len(self.data) / PART)
        self.assertNotIn(openers[3], openers[4:])

    def test_a_worker_dies_encoding(self):
        source = Deadly(INPUT)
        parts.encode_file(self.client, BASE64, source, "text")
        self.assert_one_died(source)
        self.assertTrue(contents("text") == BASE64.encode(self.data).encode())

    def test_by_an_address(self):
        address = self.cluster.scheduler_address
        self.assertTrue(address.startswith("tcp://"), address)
        with Client(address) as client:
            parts.encode_file(client, BASE64, INPUT, "text")
            parts.decode_file(client, BASE64, "text", "back")
        self.assertTrue(contents("back") == self.data)

    def try_decoding(self, encoding):
        write("text", encoding.encode(self.data).encode())
        source = Deadly("text")
        parts.decode_file(self.client, encoding, source, "back")
        self.assert_one_died(source)
        self.assertTrue(contents("back") == self.data)

    def test_a_worker_dies_decoding(self):
        self.try_decoding(BASE64)

    def test_a_worker_dies_with_the_decoder(self):
        self.try_decoding(BASE64_NOPAD)

    def test_other_lines(self):
        """Each piece has more data, or less, than it is taken to have at first."""
        text = BASE64_MIME.encode(self.data)
        for end in "\n", "\r\n\n":
            write("text", text.replace("\r\n", end).encode())
            parts.decode_file(self.client, BASE64_MIME, "text", "back")
            self.assertTrue(contents("back") == self.data)

    def test_of_an_address(self):
        source = "file://" + os.path.abspath(INPUT)
        parts.encode_file(self.client, BASE64, source, "text")
        self.assertTrue(contents("text") == BASE64.encode(self.data).encode())
        parts.decode_file(self.client, BASE64, "file://" + os.path.abspath("text"), "back")
        self.assertTrue(contents("back") == self.data)

    def test_faults(self):
        text = BASE64.encode(self.data).encode()
        step = BASE64.encode_len(PART)
        for position in 3 * step - 1, 3 * step, len(text) - 4:
            faulty = bytearray(text)
            faulty[position] = ord("!")
            write("faulty", faulty)
            found = in_parts(self.client, BASE64, "faulty")
            self.assertTrue(found == one_run(BASE64, faulty), position)
            self.assertEqual(found[1], ("symbol", position))


class OfMemory(WithACluster):
    """In a program that does nothing else, so that no other test has had more."""

    def test_memory(self):
        """Four times the data takes no more memory: not in a worker, and not here."""
        peaks = []
        for times in TIMES:
            remove("long")
            with open("long", "wb") as file:
                for _ in range(times):
                    file.write(self.data)
            parts.encode_file(self.client, BASE64, "long", "text")
            parts.decode_file(self.client, BASE64, "text", "back")
            peaks.append([*self.client.run(peak).values(), peak()])
        self.assertEqual(os.path.getsize("back"), TIMES[-1] * len(self.data))
        with open("peaks", "w") as file:
            print("KiB in each worker, and here, of less and of more:", *peaks, file=file)
        grown = [after - before for before, after in zip(*peaks)]
        self.assertLess(max(grown), len(self.data) // 1024 // 2, peaks)
        for name in "long", "text", "back":
            remove(name)


class OfSmallParts(unittest.TestCase):
    def setUp(self):
        self.addCleanup(setattr, parts, "PART", PART)
        self.addCleanup(setattr, parts, "WINDOW", parts.WINDOW)
        parts.WINDOW = 3

    def assert_same(self, encoding, text):
        parts.PART = encoding.encode_align * 2
        write("text", text)
        wanted, fault = one_run(encoding, text)
        if fault and fault[0] == "length" and not encoding.specification()["ignore"]:
            # It is found before a byte is written.
            with self.assertRaises(DecodeError) as caught:
                parts.decode_file(Here(), encoding, "text", "back")
            self.assertEqual((caught.exception.kind, caught.exception.position), fault)
        else:
            found = in_parts(Here(), encoding, "text")
            self.assertEqual(found, (wanted, fault), (encoding, text))

    def test_lengths(self):
        for encoding in ENCODINGS:
            align = encoding.encode_align
            for size in 0, 1, 2, 2 * align - 1, 2 * align, 2 * align + 1, 4 * align, 5 * align + 2:
                data = random.randbytes(size)
                write("data", data)
                remove("text")
                parts.PART = align * 3 - 1
                parts.encode_file(Here(), encoding, "data", "text")
                text = contents("text")
                self.assertEqual(text, encoding.encode(data).encode())
                self.assert_same(encoding, text)

    def test_faults_about_the_cuts(self):
        for encoding in ENCODINGS:
            align = encoding.encode_align
            text = encoding.encode(random.randbytes(5 * align + 1)).encode()
            step = encoding.encode_len(2 * align)
            for position in range(len(text)):
                if (position + 2) % step < 4 or position + 4 > len(text):
                    self.assert_same(encoding, text[:position])
                    for byte in b"!=\n":
                        faulty = bytearray(text)
                        faulty[position] = byte
                        self.assert_same(encoding, faulty)

    def test_texts_of_any_bytes(self):
        for encoding in ENCODINGS:
            symbols = encoding.specification()["symbols"].encode()
            for _ in range(150):
                size = random.randrange(100)
                text = bytearray(random.choices(symbols, k=size))
                for _ in range(random.choice((0, 0, 1, 3, 9))):
                    text.insert(random.randrange(size + 1), random.choice(b"!= \r\n"))
                self.assert_same(encoding, text)

    def test_other_lines(self):
        """Of each length, with and without a fault."""
        for separator in b"", b"\n", b"\r\n\r\n":
            for size in 200, 400, 1000:
                whole = BASE64_MIME.encode(random.randbytes(size)).encode()
                text = whole.replace(b"\r\n", separator)
                self.assert_same(BASE64_MIME, text)
                for position in range(0, len(text), 7):
                    self.assert_same(BASE64_MIME, text[:position] + b"!" + text[position + 1 :])

    def test_lines_are_decoded_once(self):
        """Of any length and end, and none."""
        text = random.randbytes(3000)
        symbols = BASE64.encode(text)
        for width in 4, 7, 64, 76, 5000:
            for end in "\n", "\r\n", "\r\n\r\n":
                parts.PART = 300
                lines = (symbols[at : at + width] for at in range(0, len(symbols), width))
                write("text", end.join(lines).encode())
                client = Counting()
                parts.decode_file(client, BASE64_MIME, "text", "back")
                self.assertEqual(contents("back"), text)
                self.assertEqual(client.mapped, -(-os.path.getsize("text") // client.length))

    def test_texts_joined(self):
        for encoding in ENCODINGS:
            for _ in range(25):
                sizes = random.choices(range(12), k=9)
                texts = [encoding.encode(random.randbytes(size)) for size in sizes]
                self.assert_same(encoding, "".join(texts).encode())

    def test_what_is_read_by_one_decoder(self):
        parts.PART = 12
        good = 64 * b"A"
        lines = 5 * (12 * b"A" + b"\n") + 60 * b"A"
        for encoding, text, submitted in (
            (BASE64, good, 0),
            (BASE64, b"!" + good[1:], 0),
            (BASE64_NOPAD, good, 4),
            (LINES, good, 0),
            # After five lines each piece has a byte too many, or a second or third; the fourth has none.
            (LINES, lines, 3),
            (LINES, lines[:20] + b"!" + lines[21:], 0),
        ):
            client = Here()
            write("text", text)
            self.assertEqual(in_parts(client, encoding, "text"), one_run(encoding, text))
            self.assertEqual(client.submitted, submitted, (encoding, text))

    def test_a_cut_inside_a_group(self):
        text = b"\n\n\n" + 76 * b"A" + b"\r\n" + 76 * b"A"
        self.assert_same(BASE64_MIME, text)
        self.assertEqual(one_run(BASE64_MIME, text), (bytes(114), None))


UPPER = "ABCDEFGHIJKLMNOPQRSTUVWXYZ"
LINES = Encoding(UPPER + UPPER.lower() + "0123456789+/", padding="=", ignore="\n")
ENCODINGS = [Encoding.named(name) for name in Encoding.names()] + [
    Encoding("AB"),
    Encoding("ABCD", ignore=" \n"),
    Encoding("ABCDEFGH", padding="=", ignore=" "),
    Encoding("ABCDEFGH"),
    Encoding(UPPER + "234567", ignore=" \n"),
    Encoding(UPPER + "234567", padding="=", ignore=" \n", concatenate=False),
    Encoding(UPPER + UPPER.lower() + "0123456789+/", ignore="\r\n"),
    Encoding(UPPER + UPPER.lower() + "0123456789+/", padding="=", concatenate=False),
    Encoding(UPPER + UPPER.lower() + "0123456789+/", padding="=", ignore="\n", wrap=(8, "\n")),
    LINES,
]

if __name__ == "__main__":
    random.seed(1)
    unittest.main()
