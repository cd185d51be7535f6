"""Encodes and decodes a file in pieces, on a cluster of Dask. docs/SCALE.md describes it."""

import argparse
import contextlib
import copy
import math
import os
import sys
import time

import fsspec
from data_encoding import DecodeError, Decoder, Encoding
from distributed import Client, LocalCluster

PART = 6_270_000

# The cluster is given at most this number of pieces at a time.
WINDOW = 256

# A first line is looked for in this number of bytes.
HEAD = 4096


def windows(starts):
    for first in range(0, len(starts), WINDOW):
        yield starts[first : first + WINDOW]


def size_of(source):
    files, path = fsspec.core.url_to_fs(os.fspath(source))
    return files.size(path)


def read(source, start, length):
    files, path = fsspec.core.url_to_fs(os.fspath(source))
    return files.cat_file(path, start=start, end=start + length)


def create(target, size):
    with open(target, "wb") as file:
        file.truncate(size)


def write(target, start, data):
    with open(target, "r+b") as file:
        file.seek(start)
        file.write(data)


def encode_part(start, encoding, source, target, length):
    text = encoding.encode_bytes(read(source, start, length))
    write(target, encoding.encode_len(start), text)


def encode_file(client, encoding, source, target):
    size = size_of(source)
    length = PART - PART % encoding.encode_align
    create(target, encoding.encode_len(size))
    for starts in windows(range(0, size, length)):
        client.gather(client.map(
            encode_part, starts, pure=False,
            encoding=encoding, source=source, target=target, length=length,
        ))


def layout_of(encoding, source):
    """How many bytes of data have how many bytes of text, in whole groups: of the first lines of a
    text that may have lines, whatever their length and end."""
    asked = encoding.specification()
    ignored = (asked["ignore"] + asked["wrap"][1]).encode()
    if not ignored:
        return encoding.encode_align, encoding.encode_len(encoding.encode_align)
    head = read(source, 0, HEAD)
    symbols = next((at for at, byte in enumerate(head) if byte in ignored), 0)
    line = next((at for at in range(symbols, len(head)) if head[at] not in ignored), 0)
    if not symbols or not line:
        symbols = line = 1
    bits = symbols * (len(asked["symbols"]).bit_length() - 1)
    lines = 8 // math.gcd(8, bits)
    return lines * bits // 8, lines * line


def may_join(encoding):
    """Whether each text may be followed by another."""
    asked = encoding.specification()
    padded = asked["padding"] is not None and asked["concatenate"]
    return padded or len(asked["symbols"]) in (2, 4, 16)


def decode_part(start, to, decoder, source, target, length):
    """Writes the data of a piece to the target, from `to` on. Returns its length, and the decoder."""
    decoder = copy.copy(decoder)
    data = decoder.decode(read(source, start, length))
    write(target, to, data)
    return len(data), decoder


def end(decoder):
    """What the end of the text would add to its data, and its fault."""
    try:
        return copy.copy(decoder).decode(b"", final=True), None
    except DecodeError as fault:
        return b"", fault


class Decoding:
    """How far a text is decoded into a file."""

    def __init__(self, client, encoding, source, target):
        self.client, self.encoding = client, encoding
        self.source, self.target = source, target
        self.size = size_of(source)
        data, text = layout_of(encoding, source)
        count = max(1, PART // data)
        self.part, self.length = count * data, count * text
        self.joins = may_join(encoding)
        # How much data the pieces so far have; where the text begins that they end in; and, if it
        # has no end there, the decoder that goes on.
        self.written = 0
        self.begin = 0
        self.decoder = None if self.joins else Decoder(encoding)

    def decode_each(self, starts, places):
        """Each piece as a text of its own: the lengths of its data, and what is kept of it."""
        return self.client.gather(self.client.map(
            decode_part, starts, places, pure=False, decoder=Decoder(self.encoding),
            source=self.source, target=self.target, length=self.length,
        ))

    def decode_on(self, start):
        return self.client.submit(
            decode_part, start, self.written, self.decoder, self.source, self.target, self.length,
            pure=False,
        ).result()

    def decode_window(self, starts):
        places = [self.written + index * self.part for index in range(len(starts))]
        found = self.decode_each(starts, places) if self.joins else [None] * len(starts)
        alone = []
        is_misplaced = False
        try:
            for start, place, of_text in zip(starts, places, found):
                if self.decoder is not None:
                    self.take(start, *self.decode_on(start))
                    continue
                # Lines of another length than the first, and padding, put the next piece
                # elsewhere; one may have been written over another.
                is_misplaced |= place != self.written or of_text[0] > self.part
                alone.append((start, self.written))
                self.begin = start
                self.take(start, *of_text)
        finally:
            if is_misplaced:
                self.decode_each(*zip(*alone))

    def take(self, start, count, decoder):
        self.written += count
        self.decoder = decoder
        rest, fault = end(decoder)
        last = start + self.length >= self.size
        held, _ = decoder.getstate()
        if fault and (last or not held):
            raise DecodeError(fault.kind, self.begin + fault.position)
        if not fault and (last or self.joins):
            write(self.target, self.written, rest)
            self.written += len(rest)
            self.decoder = None


def decode_file(client, encoding, source, target):
    """A DecodeError has the position in the whole; the data before it is in the target."""
    encoding.decode_len(size_of(source))  # a DecodeError if no text has this length
    create(target, 0)
    decoding = Decoding(client, encoding, source, target)
    try:
        for starts in windows(range(0, decoding.size, decoding.length)):
            decoding.decode_window(starts)
    finally:
        os.truncate(target, decoding.written)


@contextlib.contextmanager
def connected(address):
    """A client of the scheduler at the address, or of two processes here."""
    if address:
        with Client(address) as client:
            yield client
        return
    local = "127.0.0.1:0"
    cluster = LocalCluster(
        n_workers=2, dashboard_address=local, worker_dashboard_address=local, host="127.0.0.1"
    )
    with cluster, Client(cluster) as client:
        yield client


def main():
    parser = argparse.ArgumentParser(description="Converts a file on a cluster of Dask.")
    parser.add_argument("verb", choices=("encode", "decode"))
    parser.add_argument("source", help="a path, or another address that fsspec knows")
    parser.add_argument("target", help="a path of a file that all workers see")
    parser.add_argument("--encoding", default="BASE64", choices=Encoding.names(), metavar="NAME")
    parser.add_argument("--scheduler", help="tcp://HOST:8786; without it, two processes here")
    asked = parser.parse_args()
    convert = {"encode": encode_file, "decode": decode_file}[asked.verb]
    with connected(asked.scheduler) as client:
        start = time.monotonic()
        try:
            convert(client, Encoding.named(asked.encoding), asked.source, asked.target)
        except DecodeError as fault:
            sys.exit(f"{asked.source}: {fault}")
        rate = size_of(asked.source) / (time.monotonic() - start) / 1e6
        print(f"{rate:.0f} MB/s", file=sys.stderr)


if __name__ == "__main__":
    main()
