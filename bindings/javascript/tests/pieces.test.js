// Texts and data that come in pieces, and streams.

import assert from "node:assert/strict";
import test from "node:test";

import { BASE64, BASE64_MIME } from "../src/index.js";
import { calls } from "../src/machine.js";
import { DecoderStream, EncoderStream } from "../src/streams.js";
import {
  DecodeError, Decoder, EVERY, Encoder, OWN, ascii, bytes, verdict,
} from "./common.js";

/** Texts of short data, some of them damaged. */
function texts(encoding) {
  return [0, 1, 2, 5, 6].flatMap((length) => {
    const text = encoding.encode(ascii("foobar".slice(0, length)));
    return [
      text, text + text, text.slice(0, -1), `${text}!`, `!${text}`, text.replaceAll("=", ""),
      `${text}\u20ac`,
    ];
  });
}

/** The data of a text in these pieces. */
function decoded(encoding, pieces) {
  const decoder = new Decoder(encoding);
  const parts = pieces.map((it) => decoder.push(it));
  return Buffer.concat([...parts, decoder.finish()]);
}

test("a text in two and three pieces, cut anywhere, and character by character", () => {
  for (const encoding of EVERY) {
    for (const text of texts(encoding)) {
      const wanted = verdict(() => encoding.decode(text));
      for (let one = 0; one <= text.length; one++) {
        for (let two = one; two <= text.length; two++) {
          const pieces = [text.slice(0, one), text.slice(one, two), text.slice(two)];
          assert.deepEqual(verdict(() => decoded(encoding, pieces)), wanted);
        }
      }
      assert.deepEqual(verdict(() => decoded(encoding, text.split(""))), wanted);
    }
  }
});

test("a piece gives what it completes", () => {
  const decoder = new Decoder(BASE64);
  assert.deepEqual(decoder.push("Zm9vY"), ascii("foo"));
  assert.deepEqual(decoder.push(ascii("mFy")), ascii("bar"));
  assert.deepEqual(decoder.push(new DataView(ascii("Yg").buffer)), ascii(""));
  assert.deepEqual(decoder.push("=="), ascii("b"));
  assert.deepEqual(decoder.finish(), ascii(""));
  assert.deepEqual(decoder.push("Zm9v"), ascii("foo"));
  assert.throws(() => decoder.push(5), TypeError);
  assert.throws(() => new Decoder("BASE64"), TypeError);
  assert.deepEqual(decoder.finish(), ascii(""));
});

test("a fault is reported at the end", () => {
  const decoder = new Decoder(BASE64);
  assert.deepEqual(decoder.push("Zm9v!mFy"), ascii("foo"));
  assert.deepEqual(decoder.push("Zm9v".repeat(1000)), ascii(""));
  decoder.push("Z");
  assert.equal(verdict(() => decoder.finish()), "length at 4008");
  assert.deepEqual(decoder.finish(), ascii(""));
});

test("the data of a last group before its fault", () => {
  const decoder = new Decoder(OWN[0]);
  decoder.push("142 1");
  assert.throws(() => decoder.finish(), DecodeError);
});

test("data in pieces", () => {
  const data = bytes(300);
  for (const encoding of EVERY) {
    const whole = encoding.encode(data);
    for (const [one, two] of [[0, 0], [1, 2], [1, 300], [57, 58], [128, 254], [300, 300]]) {
      const encoder = new Encoder(encoding);
      const pieces = [data.slice(0, one), data.slice(one, two).buffer, data.subarray(two)];
      assert.equal(pieces.map((it) => encoder.push(it)).join("") + encoder.finish(), whole);
      assert.equal(encoder.push(data) + encoder.finish(), whole);
    }
    const encoder = new Encoder(encoding);
    const parts = Array.from(data, (byte) => encoder.push(Uint8Array.of(byte)));
    assert.equal(parts.join("") + encoder.finish(), whole);
  }
  assert.throws(() => new Encoder({}), TypeError);
  assert.throws(() => new Encoder(BASE64).push("text"), TypeError);
});

/** Returns the output of the stream for these pieces. */
async function through(stream, pieces) {
  const found = [];
  for await (const piece of ReadableStream.from(pieces).pipeThrough(stream)) {
    found.push(piece);
  }
  return found;
}

test("streams", async () => {
  const data = bytes(10_000);
  for (const encoding of EVERY) {
    const pieces = [data.subarray(0, 1), data.subarray(1, 4000), data.subarray(4000)];
    const written = (await through(new EncoderStream(encoding), pieces)).join("");
    assert.equal(written, encoding.encode(data));
    const cut = [written.slice(0, 5), "", written.slice(5)];
    const read = await through(new DecoderStream(encoding), cut);
    assert.ok(Buffer.concat(read).equals(data));
  }
  assert.deepEqual(await through(new DecoderStream(BASE64), []), []);
});

test("a stream fails at a fault, once the text has ended", async () => {
  const found = [];
  const pieces = ReadableStream.from(["Zm9v", "Zm!v", "Zm9v"]);
  const reading = pieces.pipeThrough(new DecoderStream(BASE64));
  await assert.rejects(async () => {
    for await (const piece of reading) {
      found.push(...piece);
    }
  }, { name: "DecodeError", kind: "symbol", position: 6 });
  assert.deepEqual(found, [...ascii("foo")]);
  await assert.rejects(through(new EncoderStream(BASE64), ["text"]), TypeError);
});

test("a stream of 64 MiB in pieces of 64 KiB takes no more memory than one piece", async () => {
  const piece = bytes(65536);
  const pieces = Array(1024).fill(piece);
  let length = 0;
  const stream = ReadableStream.from(pieces)
    .pipeThrough(new EncoderStream(BASE64_MIME))
    .pipeThrough(new DecoderStream(BASE64_MIME));
  for await (const found of stream) {
    assert.equal(found[0], piece[length % piece.length]);
    length += found.length;
  }
  assert.equal(length, 1024 * piece.length);
  assert.ok(calls.memory.buffer.byteLength < 4 << 20);
});
