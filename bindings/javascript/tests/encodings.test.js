// The eighteen, specifications and layouts.

import assert from "node:assert/strict";
import test from "node:test";
import { inspect } from "node:util";

import * as library from "../src/index.js";
import { BASE32_DNSCURVE, BASE64, BASE64_MIME } from "../src/index.js";
import {
  EVERY, Encoding, NAMES, OWN, PREDEFINED, SpecificationError, ascii, bytes,
} from "./common.js";

const MOST = "most-significant-first";

test("names", () => {
  assert.deepEqual(Encoding.names(), NAMES);
  for (const name of NAMES) {
    assert.equal(Encoding.named(name), library[name]);
    assert.equal(library[name].name, name);
    assert.equal(String(library[name]), name);
  }
  for (const wrong of ["base64", "BASE", "", "BASE64 ", "__proto__", undefined, 12]) {
    assert.throws(() => Encoding.named(wrong), RangeError);
  }
  assert.equal(OWN[0].name, null);
});

test("which are canonical", () => {
  assert.deepEqual(
    PREDEFINED.filter((it) => it.isCanonical()).map(String),
    ["HEXLOWER", "HEXUPPER", "BASE32_NOPAD", "BASE32HEX_NOPAD", "BASE64_NOPAD", "BASE64URL_NOPAD"],
  );
  // Of one padded text alone there is no other with the same data.
  assert.deepEqual(OWN.filter((it) => it.isCanonical()), [OWN[2]]);
  assert.equal(new Encoding({ symbols: "01" }).isCanonical(), true);
});

test("by its number and by its layout an encoding is the same", () => {
  const data = bytes(256);
  for (const encoding of PREDEFINED) {
    // Its tables alone: Encoding.fromLayout gives the predefined one.
    const other = new Encoding(encoding.specification());
    assert.equal(other.name, null);
    assert.ok(other.equals(encoding));
    assert.equal(other.isCanonical(), encoding.isCanonical());
    const text = encoding.encode(data);
    assert.equal(other.encode(data), text);
    for (let byte = 0; byte < 256; byte++) {
      const faulty = ascii(text.slice(0, 40));
      faulty[9] = byte;
      const [one, two] = [encoding, other].map((it) => it.decodePartial(faulty));
      assert.deepEqual([one.data, one.read], [two.data, two.read]);
      assert.equal(one.error?.message, two.error?.message);
    }
  }
});

test("why a specification is refused, and where", () => {
  const octal = { symbols: "01234567" };
  const binary = { symbols: "01" };
  for (const [asked, kind, field, message] of [
    [{ symbols: "abc" }, "symbol-count", "symbols", "invalid number of symbols"],
    [{ symbols: "" }, "symbol-count", "symbols", "invalid number of symbols"],
    [{ symbols: "a\u00e9" }, "not-ascii", "symbols", "non-ascii character"],
    [{ symbols: "\u{1f600}" }, "not-ascii", "symbols", "non-ascii character"],
    [{ symbols: "abc", ignore: "\u00e9" }, "not-ascii", "ignore", "non-ascii character"],
    [{ ...binary, padding: "=", wrap: [9, "\u00e9"] }, "not-ascii", "wrap", "non-ascii character"],
    [{ ...binary, translate: { from: "a", to: "\u00e9" } }, "not-ascii", "translate",
      "non-ascii character"],
    [{ symbols: "ab\u00e9" }, "not-ascii", "symbols", "non-ascii character"],
    [{ symbols: "aa" }, "duplicate", "symbols", "'a' has conflicting definitions"],
    [{ ...binary, padding: "=" }, "extra-padding", "padding", "unnecessary padding"],
    [{ ...octal, padding: "7" }, "duplicate", "padding", "'7' has conflicting definitions"],
    [{ ...octal, padding: "\u20ac" }, "not-ascii", "padding", "non-ascii character"],
    [{ ...octal, padding: "\u{1f600}" }, "not-ascii", "padding", "non-ascii character"],
    [{ ...binary, ignore: "\u00e9" }, "not-ascii", "ignore", "non-ascii character"],
    [{ ...binary, ignore: "\ud800" }, "not-ascii", "ignore", "non-ascii character"],
    [{ ...binary, ignore: " 1" }, "duplicate", "ignore", "'1' has conflicting definitions"],
    [{ ...binary, wrap: { width: 9, separator: "\n" } }, "wrap-width", "wrap",
      "wrap width not a multiple of 8"],
    [{ ...binary, wrap: { width: 256, separator: "\n" } }, "wrap-length", "wrap",
      "invalid wrap width or separator length"],
    [{ ...binary, wrap: { width: 1e300, separator: "\n" } }, "wrap-length", "wrap",
      "invalid wrap width or separator length"],
    [{ ...binary, wrap: { width: 8, separator: "0" } }, "duplicate", "wrap",
      "'0' has conflicting definitions"],
    [{ ...binary, translate: { from: "a", to: "01" } }, "translate-length", "translate",
      "translate from/to length mismatch"],
    [{ ...binary, translate: { from: "a", to: "\n" } }, "undefined", "translate",
      "'\\n' is undefined"],
    [{ ...binary, translate: { from: "0", to: "1" } }, "duplicate", "translate",
      "'0' has conflicting definitions"],
  ]) {
    assert.throws(() => new Encoding(asked), (error) => {
      assert.ok(error instanceof SpecificationError);
      assert.equal(error.name, "SpecificationError");
      assert.deepEqual([error.kind, error.field, error.message], [kind, field, message]);
      return true;
    });
  }
  for (const [character, quoted] of [
    ["\0", "'\\0'"], ["\t", "'\\t'"], ["\r", "'\\r'"], ["\x1b", "'\\u{1b}'"], [" ", "' '"],
    ["'", "'\\''"], ['"', "'\"'"], ["\\", "'\\\\'"], ["~", "'~'"], ["\x7f", "'\\u{7f}'"],
  ]) {
    assert.throws(() => new Encoding({ ...binary, translate: { from: "a", to: character } }),
      { message: `${quoted} is undefined`, detail: character });
  }
  assert.throws(() => new Encoding({ symbols: "abca" }), { detail: "a" });
  const nine = { width: 9, separator: "-" };
  assert.throws(() => new Encoding({ ...octal, wrap: nine }), { detail: 8 });
});

test("fields of another type are a TypeError", () => {
  for (const [asked, message] of [
    [undefined, "a specification has to be an object, not undefined"],
    [null, "a specification has to be an object, not null"],
    ["01", "a specification has to be an object, not String"],
    [{ symbols: ascii("01") }, "symbols has to be a string, not Uint8Array"],
    [{ symbols: "01", padding: 61 }, "padding has to be a string, not Number"],
    [{ symbols: "01", padding: "" }, "padding has to be one character"],
    [{ symbols: "01", padding: "==" }, "padding has to be one character"],
    [{ symbols: "01", ignore: ["a"] }, "ignore has to be a string, not Array"],
    [{ symbols: "01", ingore: "a" }, "a specification has no field ingore"],
    [{ symbols: "01", wrap: 8 }, "wrap has to be an object, not Number"],
    [{ symbols: "01", wrap: { width: "8", separator: "\n" } },
      "the width of wrap has to be a number from 0 on, not 8"],
    [{ symbols: "01", wrap: { width: -8, separator: "\n" } },
      "the width of wrap has to be a number from 0 on, not -8"],
    [{ symbols: "01", wrap: { length: 8 } }, "wrap has no field length"],
    [{ symbols: "01", wrap: [8] }, "wrap has to be a width and a separator"],
    [{ symbols: "01", wrap: ["\n", 8] },
      "the width of wrap has to be a number from 0 on, not \n"],
    [{ symbols: "01", wrap: [8, 8] }, "the separator of wrap has to be a string, not Number"],
    [{ symbols: "01", translate: { from: "a", to: 1 } },
      "the second text of translate has to be a string, not Number"],
    [{ symbols: "01", bitOrder: "least" },
      'bitOrder has to be "most-significant-first" or "least-significant-first"'],
    [{ symbols: "01", checkTrailingBits: 1 },
      "checkTrailingBits has to be true or false, not Number"],
    [{ symbols: "01", concatenate: "no" }, "concatenate has to be true or false, not String"],
  ]) {
    assert.throws(() => new Encoding(asked), { name: "TypeError", message });
  }
  assert.throws(() => Encoding({ symbols: "01" }), TypeError);
});

test("the specification of an encoding makes it again", () => {
  for (const encoding of EVERY) {
    assert.ok(new Encoding(encoding.specification()).equals(encoding));
  }
  assert.deepEqual(OWN[4].specification(), {
    symbols: "0123456789abcdef",
    padding: null,
    ignore: "\n\r",
    wrap: { width: 254, separator: "\r\n" },
    translate: { from: "ABCDEF", to: "abcdef" },
    bitOrder: MOST,
    checkTrailingBits: true,
    concatenate: true,
  });
  assert.deepEqual(OWN[6].specification().translate, { from: "#a", to: "=1" });
  assert.equal(OWN[2].specification().concatenate, false);
  assert.equal(BASE32_DNSCURVE.specification().bitOrder, "least-significant-first");
  assert.equal(OWN[5].specification().checkTrailingBits, false);
  assert.deepEqual(OWN[6].decode("220644#="), ascii("Hi"));
});

test("lines as a pair", () => {
  const { symbols, padding } = BASE64.specification();
  assert.ok(new Encoding({ symbols, padding, wrap: [76, "\r\n"] }).equals(BASE64_MIME));
  assert.ok(new Encoding({ symbols, padding, wrap: [0, ""] }).equals(BASE64));
});

test("layouts", () => {
  for (const encoding of EVERY) {
    assert.ok(Encoding.fromLayout(encoding.layout).equals(encoding));
    assert.ok(Encoding.fromLayout(encoding.layout.buffer).equals(encoding));
  }
  assert.equal(Encoding.fromLayout(BASE64.layout), BASE64);
  const { layout } = BASE64;
  layout.fill(0);
  assert.equal(BASE64.encode(ascii("foo")), "Zm9v");
  for (const wrong of [new Uint8Array(), new Uint8Array(514), BASE64.layout.slice(1), layout]) {
    assert.throws(() => Encoding.fromLayout(wrong), RangeError);
  }
  assert.throws(() => Encoding.fromLayout("layout"), TypeError);
});

test("equality", () => {
  for (const one of EVERY) {
    for (const other of EVERY) {
      assert.equal(one.equals(other), one === other);
    }
  }
  assert.throws(() => BASE64.equals({}), TypeError);
});

test("where data may be cut", () => {
  const data = bytes(1000);
  for (const encoding of EVERY) {
    const cut = encoding.encodeAlign;
    const parts = [data.subarray(0, cut), data.subarray(cut)].map((it) => encoding.encode(it));
    assert.equal(parts.join(""), encoding.encode(data));
  }
  assert.deepEqual(OWN.map((it) => it.encodeAlign), [3, 5, 3, 1, 127, 3, 3]);
  assert.equal(BASE64_MIME.encodeAlign, 57);
});

test("strings", () => {
  const [octal] = OWN;
  assert.match(String(octal), /^Encoding\(\{"symbols":"01234567","padding":"="/);
  assert.equal(inspect(BASE64), "BASE64");
});

test("JSON makes each encoding again", () => {
  assert.equal(JSON.stringify({ encoding: BASE64 }), '{"encoding":"BASE64"}');
  for (const encoding of EVERY) {
    const read = JSON.parse(JSON.stringify(encoding));
    const made = typeof read === "string" ? Encoding.named(read) : new Encoding(read);
    assert.ok(made.equals(encoding));
  }
});

test("an encoding never changes", () => {
  assert.throws(() => {
    BASE64.other = 1;
  }, TypeError);
  const asked = { symbols: "01234567", wrap: { width: 8, separator: "\n" } };
  const encoding = new Encoding(asked);
  asked.wrap.width = 16;
  assert.deepEqual(encoding.specification().wrap, { width: 8, separator: "\n" });
});
