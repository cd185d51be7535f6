// Encoding and decoding in one call: rows, and against Buffer.

import assert from "node:assert/strict";
import test from "node:test";
import vm from "node:vm";

import { BASE64, BASE64URL, BASE64URL_NOPAD, BASE64_MIME, HEXLOWER } from "../src/index.js";
import { DecodeError, EVERY, Encoding, OWN, ascii, bytes, verdict } from "./common.js";

/** RFC 4648, section 10. */
const VECTORS = {
  BASE64: ["", "Zg==", "Zm8=", "Zm9v", "Zm9vYg==", "Zm9vYmE=", "Zm9vYmFy"],
  BASE32: [
    "", "MY======", "MZXQ====", "MZXW6===", "MZXW6YQ=", "MZXW6YTB", "MZXW6YTBOI======",
  ],
  BASE32HEX: [
    "", "CO======", "CPNG====", "CPNMU===", "CPNMUOG=", "CPNMUOJ1", "CPNMUOJ1E8======",
  ],
  HEXUPPER: ["", "66", "666F", "666F6F", "666F6F62", "666F6F6261", "666F6F626172"],
};

test("the vectors of RFC 4648", () => {
  for (const [name, texts] of Object.entries(VECTORS)) {
    texts.forEach((text, length) => {
      const data = ascii("foobar".slice(0, length));
      assert.equal(Encoding.named(name).encode(data), text);
      assert.deepEqual(Encoding.named(name).decode(text), data);
      assert.deepEqual(Encoding.named(name).decode(ascii(text)), data);
    });
  }
});

/** The table of docs/JAVASCRIPT.md; `null` is an error of `atob`. */
const OTHER_TEXTS = [
  ["AA==AAA=", null, "\0", [0, 0, 0], "padding at 4"],
  ["SGl=", "Hi", "Hi", "trailing at 2", "trailing at 2"],
  ["SGk", "Hi", "Hi", "length at 0", "length at 0"],
  ["SGk=", "Hi", "Hi", [72, 105], [72, 105]],
];

test("where atob and Buffer decode otherwise", () => {
  const single = new Encoding({ ...BASE64.specification(), concatenate: false });
  for (const [text, byAtob, byBuffer, here, alone] of OTHER_TEXTS) {
    if (byAtob === null) {
      assert.throws(() => atob(text), { name: "InvalidCharacterError" });
    } else {
      assert.equal(atob(text), byAtob);
    }
    assert.equal(Buffer.from(text, "base64").toString("latin1"), byBuffer);
    assert.deepEqual(verdict(() => BASE64.decode(text)), here);
    assert.deepEqual(verdict(() => single.decode(text)), alone);
  }
});

/** As `Uint8Array.fromBase64` is specified, which Node 20 lacks. docs/JAVASCRIPT.md has the first. */
test("what fromBase64 decodes by alphabet and lastChunkHandling", () => {
  const asked = { ...BASE64.specification(), concatenate: false, ignore: " \t\n\f\r" };
  const strict = new Encoding(asked);
  const loose = new Encoding({ ...asked, checkTrailingBits: false });
  const unpadded = new Encoding({ ...asked, checkTrailingBits: false, padding: null });
  for (const [encoding, text, wanted] of [
    [strict, " SG\tk=\r\n\f", [72, 105]],
    [strict, "SGl=", "trailing at 2"],
    [strict, "SGk", "length at 0"],
    [strict, "AA==AAA=", "padding at 4"],
    [loose, "S Gl=", [72, 105]],
    [unpadded, "SG l\n", [72, 105]],
    [unpadded, "SGk=", "symbol at 3"],
  ]) {
    assert.deepEqual(verdict(() => encoding.decode(text)), wanted, text);
  }
  const url = new Encoding({ ...BASE64URL.specification(), concatenate: false, ignore: " " });
  assert.deepEqual(url.decode("-_ 8="), new Uint8Array([251, 255]));
});

test("the same as Buffer, of each length from 0 to 8,200", () => {
  const all = bytes(8200);
  const same = [[BASE64, "base64"], [BASE64URL_NOPAD, "base64url"], [HEXLOWER, "hex"]];
  for (let length = 0; length <= all.length; length++) {
    const data = all.subarray(0, length);
    for (const [encoding, name] of same) {
      const text = Buffer.from(data.buffer, 0, length).toString(name);
      assert.equal(encoding.encode(data), text);
      assert.ok(Buffer.from(text, name).equals(encoding.decode(text)));
    }
  }
});

test("short data whose text is long", () => {
  const separator = "-".repeat(200);
  const encoding = new Encoding({ symbols: "01", wrap: { width: 8, separator }, ignore: "-" });
  for (let length = 0; length < 70; length++) {
    const data = bytes(length);
    const digits = Array.from(data, (byte) => byte.toString(2).padStart(8, "0") + separator);
    assert.equal(encoding.encode(data), digits.join(""));
    const output = new Uint8Array(length * 208);
    assert.equal(encoding.encodeInto(data, output), output.length);
    assert.deepEqual(encoding.decode(output), data);
  }
});

test("every encoding decodes what it encodes", () => {
  for (const encoding of EVERY) {
    for (const length of [...Array(20).keys(), 400, 9000]) {
      const data = bytes(length);
      const text = encoding.encode(data);
      assert.equal(encoding.encodeLen(length), text.length);
      assert.ok(encoding.decodeLen(text.length) >= length);
      assert.deepEqual(encoding.decode(text), data);
      assert.deepEqual(encoding.decodePartial(text), { data, read: text.length, error: null });
    }
  }
});

test("kinds and positions of faults", () => {
  for (const [text, wanted] of [
    ["Zm9vY", "length at 4"],
    ["Zm9v!===", "padding at 5"],
    ["Zm9vZh==", "trailing at 5"],
    ["Zm9v!m9v", "symbol at 4"],
    ["Zm9v\0m9v", "symbol at 4"],
    ["Zm9v\n", "length at 4"],
  ]) {
    assert.equal(verdict(() => BASE64.decode(text)), wanted);
    assert.equal(verdict(() => BASE64.decode(ascii(text))), wanted);
    assert.equal(verdict(() => BASE64.decodeInto(text, new Uint8Array(9))), wanted);
  }
});

test("a character that is not ASCII is no symbol, at its position in the string", () => {
  const long = "Zm9v".repeat(100);
  for (const wrong of ["\u0080", "\u00e9", "\u0141", "\u20ac", "\ud800", "\uffff"]) {
    assert.equal(verdict(() => BASE64.decode(`Zm9v${wrong}m9v`)), "symbol at 4");
    assert.equal(verdict(() => BASE64.decode(`${long}Zm9${wrong}${long}`)), "symbol at 403");
    assert.equal(verdict(() => BASE64_MIME.decode(`Zm9v\r\nZm${wrong}v`)), "symbol at 8");
    assert.equal(verdict(() => OWN[0].decode(`142 =====1${wrong}2=====`)), "symbol at 10");
  }
  assert.equal(verdict(() => BASE64.decode("Zm9v\u{1f600}9v")), "symbol at 4");
  assert.equal(verdict(() => BASE64.decode(`${long}\u{1f600}==`)), "symbol at 400");
});

test("a DecodeError", () => {
  assert.throws(() => BASE64.decode("Zm9vZm9\u00e9"), (error) => {
    assert.ok(error instanceof DecodeError && error instanceof Error);
    assert.equal(error.name, "DecodeError");
    assert.equal(error.message, "invalid symbol at 7");
    assert.deepEqual([error.kind, error.position, error.data], ["symbol", 7, ascii("foo")]);
    assert.match(String(error.stack), /^DecodeError: invalid symbol at 7\n/);
    return true;
  });
});

test("how far a text is decoded", () => {
  const { data, read, error } = BASE64.decodePartial("Zm9vZ!==");
  assert.deepEqual([data, read, error.kind, error.position], [ascii("foo"), 4, "symbol", 5]);
  const long = "Zm9v".repeat(1000);
  const partial = BASE64.decodePartial(`${long}!${long.slice(1)}`);
  assert.deepEqual([partial.data.length, partial.read], [3000, 4000]);
  assert.deepEqual(BASE64.decodePartial("Zm9vY").read, 0);
});

test("the text into an output", () => {
  const output = ascii("..........");
  assert.equal(BASE64.encodeInto(ascii("foob"), output), 8);
  assert.deepEqual(output, ascii("Zm9vYg==.."));
  assert.equal(BASE64.encodeInto(ascii("foo"), output.subarray(6)), 4);
  assert.deepEqual(output, ascii("Zm9vYgZm9v"));
  assert.throws(() => BASE64.encodeInto(ascii("foob"), new Uint8Array(7)), RangeError);
  assert.throws(() => BASE64.encodeInto(ascii("foo"), "output"), TypeError);
  const both = ascii("foobar..");
  assert.equal(BASE64.encodeInto(both.subarray(0, 6), both), 8);
  assert.deepEqual(both, ascii("Zm9vYmFy"));
});

test("the data into an output", () => {
  const output = ascii("........");
  assert.equal(BASE64.decodeInto("Zm9vYg==", output), 4);
  assert.deepEqual(output, ascii("foob...."));
  assert.throws(() => BASE64.decodeInto("Zm9vYg==", new Uint8Array(3)), RangeError);
  assert.throws(() => BASE64.decodeInto("Zm9vY!==", output), DecodeError);
  assert.throws(() => BASE64.decodeInto("Zm9v", new DataView(output.buffer, 8)), RangeError);
  assert.deepEqual(output, ascii("foob...."));
  assert.equal(BASE64.decodeInto("Zm9v", output.buffer), 3);
});

test("buffers and views of them", () => {
  const data = bytes(200);
  const text = BASE64.encode(data);
  const shared = new SharedArrayBuffer(200);
  new Uint8Array(shared).set(data);
  for (const same of [
    data.buffer, shared, new Uint8Array(shared), Buffer.from(data), new DataView(data.buffer),
    new Uint8ClampedArray(data), new Uint16Array(data.buffer), new BigInt64Array(data.buffer),
    vm.runInNewContext("new Uint8Array(bytes)", { bytes: [...data] }),
    vm.runInNewContext("new Uint8Array(bytes).buffer", { bytes: [...data] }),
    vm.runInNewContext("new DataView(new Uint8Array(bytes).buffer)", { bytes: [...data] }),
  ]) {
    assert.equal(BASE64.encode(same), text);
  }
  assert.equal(BASE64.encode(new DataView(data.buffer, 3, 5)), BASE64.encode(data.slice(3, 8)));
  assert.equal(BASE64.encode(new Uint16Array(data.buffer, 2, 3)), BASE64.encode(data.slice(2, 8)));
  const letters = ascii(text);
  for (const same of [letters.buffer, new DataView(letters.buffer), Buffer.from(text)]) {
    assert.deepEqual(BASE64.decode(same), data);
  }
});

test("what has no bytes is a TypeError", () => {
  const fake = { byteLength: 3, length: 3, 0: 1, [Symbol.toStringTag]: "ArrayBuffer" };
  const wrong = [
    5, true, [1, 2], null, undefined, 1.5, {}, new Set(), 7n, Symbol("a"), fake, new String("Zg"),
  ];
  for (const value of wrong) {
    assert.throws(() => BASE64.encode(value), TypeError);
    assert.throws(() => BASE64.decode(value), TypeError);
    assert.throws(() => BASE64.decodePartial(value), TypeError);
    assert.throws(() => BASE64.encodeInto(bytes(3), value), TypeError);
    assert.throws(() => BASE64.decodeInto("Zg==", value), TypeError);
  }
  assert.throws(() => BASE64.encode("text"), {
    name: "TypeError",
    message: "data has to be a buffer or a view of one, not String",
  });
  assert.throws(() => BASE64.encode.call({}, bytes(3)), TypeError);
});

test("a detached buffer is a TypeError", () => {
  const data = bytes(9);
  structuredClone(data.buffer, { transfer: [data.buffer] });
  assert.throws(() => BASE64.encode(data), TypeError);
  assert.throws(() => BASE64.encode(data.buffer), TypeError);
  assert.throws(() => BASE64.encodeInto(bytes(3), data), TypeError);
});

test("a view that says another length than it has", () => {
  class Liar extends Uint8Array {
    get length() {
      return 1000;
    }

    get byteLength() {
      return 2;
    }
  }
  assert.equal(BASE64.encode(Liar.from(ascii("foobar"))), BASE64.encode(ascii("fo")));
});

test("buffers that grow and shrink", { skip: !("resize" in ArrayBuffer.prototype) }, () => {
  const buffer = new ArrayBuffer(6, { maxByteLength: 12 });
  const view = new Uint8Array(buffer);
  view.set(ascii("foobar"));
  assert.equal(BASE64.encode(view), "Zm9vYmFy");
  buffer.resize(3);
  assert.equal(BASE64.encode(view), "Zm9v");
  assert.equal(BASE64.encode(buffer), "Zm9v");
});

test("lengths", () => {
  assert.deepEqual([BASE64.encodeLen(4), BASE64.decodeLen(8)], [8, 6]);
  assert.equal(verdict(() => BASE64.decodeLen(5)), "length at 4");
  assert.equal(BASE64.encodeLen(2 ** 40), 1466015503704);
  for (const call of [BASE64.encodeLen, BASE64.decodeLen].map((it) => it.bind(BASE64))) {
    assert.throws(() => call(-1), RangeError);
    assert.throws(() => call(1.5), RangeError);
    assert.throws(() => call(NaN), RangeError);
    assert.throws(() => call(2 ** 53), RangeError);
    assert.throws(() => call("1"), TypeError);
    assert.throws(() => call(1n), TypeError);
  }
  assert.throws(() => BASE64.encodeLen(2 ** 53 - 1), RangeError);
});
