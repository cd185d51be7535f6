// Encodings that are asked for by a specification or by a layout, and the way back.

import { bytesOf, kindOf, stringOf, utf8 } from "./bytes.js";
import { Key } from "./calls.js";
import { SpecificationError } from "./errors.js";
import * as machine from "./machine.js";

const { FORM, INPUT, MADE, TABLES_SIZE, calls } = machine;

const FORM_ADDRESS = machine.addressOf(FORM);
const MADE_ADDRESS = machine.addressOf(MADE);
const OK = 0;

/** Any width of lines above 255 is refused. */
const WIDE = 256;

const MOST_SIGNIFICANT_FIRST = "most-significant-first";
const LEAST_SIGNIFICANT_FIRST = "least-significant-first";

/** A specification with nothing but the defaults. */
const DEFAULTS = Object.freeze({
  symbols: "",
  padding: null,
  ignore: "",
  wrap: null,
  translate: null,
  bitOrder: MOST_SIGNIFICANT_FIRST,
  checkTrailingBits: true,
  concatenate: true,
});

/** The fields in the order of their checks. */
const JUDGED = ["symbols", "padding", "ignore", "wrap", "translate"];

const KINDS = {
  10: "symbol-count",
  11: "not-ascii",
  12: "duplicate",
  13: "extra-padding",
  14: "wrap-length",
  15: "wrap-width",
  16: "translate-length",
  17: "undefined",
};
const WRAP_WIDTH = 15;

function needsType(name, value, type, words) {
  if (typeof value !== type) {
    throw new TypeError(`${name} has to be ${words}, not ${kindOf(value)}`);
  }
  return value;
}

const stringAt = (name, value) => needsType(name, value, "string", "a string");
const booleanAt = (name, value) => needsType(name, value, "boolean", "true or false");

/** The fields of an object with no others than these. */
function fieldsOf(name, value, defaults) {
  if (value === null || typeof value !== "object") {
    throw new TypeError(`${name} has to be an object, not ${kindOf(value)}`);
  }
  const unknown = Object.keys(value).find((key) => !Object.hasOwn(defaults, key));
  if (unknown !== undefined) {
    throw new TypeError(`${name} has no field ${unknown}`);
  }
  const given = Object.entries(value).filter(([, field]) => field !== undefined);
  return { ...defaults, ...Object.fromEntries(given) };
}

/** The least byte that is not ASCII. */
const NOT_ASCII = 128;

/** The byte that pads, or -1. `NOT_ASCII` is any character that is not ASCII. */
function paddingOf(value) {
  if (value === null) {
    return -1;
  }
  if ([...stringAt("padding", value)].length !== 1) {
    throw new TypeError("padding has to be one character");
  }
  return Math.min(value.codePointAt(0), NOT_ASCII);
}

function widthOf(value) {
  if (!Number.isInteger(value) || value < 0) {
    throw new TypeError(`the width of wrap has to be a number from 0 on, not ${String(value)}`);
  }
  return Math.min(value, WIDE);
}

function orderOf(value) {
  if (value !== MOST_SIGNIFICANT_FIRST && value !== LEAST_SIGNIFICANT_FIRST) {
    throw new TypeError(
      `bitOrder has to be "${MOST_SIGNIFICANT_FIRST}" or "${LEAST_SIGNIFICANT_FIRST}"`,
    );
  }
  return value === LEAST_SIGNIFICANT_FIRST;
}

/** Returns the fields of `wrap`, which may be a pair as well. */
function wrapOf(value) {
  if (Array.isArray(value) && value.length !== 2) {
    throw new TypeError("wrap has to be a width and a separator");
  }
  const [width, separator] = Array.isArray(value) ? value : [];
  const given = Array.isArray(value) ? { width, separator } : (value ?? {});
  return fieldsOf("wrap", given, { width: 0, separator: "" });
}

/** The texts of a specification as bytes, and its other fields as the module takes them. */
function partsOf(asked) {
  const given = fieldsOf("a specification", asked, DEFAULTS);
  const wrap = wrapOf(given.wrap);
  const translate = fieldsOf("translate", given.translate ?? {}, { from: "", to: "" });
  return {
    padding: paddingOf(given.padding),
    width: widthOf(wrap.width),
    leastSignificantFirst: orderOf(given.bitOrder),
    checkTrailingBits: booleanAt("checkTrailingBits", given.checkTrailingBits),
    concatenate: booleanAt("concatenate", given.concatenate),
    texts: [
      utf8(stringAt("symbols", given.symbols)),
      utf8(stringAt("ignore", given.ignore)),
      utf8(stringAt("the separator of wrap", wrap.separator)),
      utf8(stringAt("the first text of translate", translate.from)),
      utf8(stringAt("the second text of translate", translate.to)),
    ],
  };
}

/** Writes the texts to the room one after the other, and returns the address and length of each. */
function placed(texts) {
  const length = texts.reduce((sum, text) => sum + text.length, 0);
  machine.reserve(length, 0);
  const room = machine.inputPart(length);
  let at = 0;
  return texts.flatMap((text) => {
    room.set(text, at);
    at += text.length;
    return [INPUT + BigInt(at - text.length), BigInt(text.length)];
  });
}

/** Makes an encoding of the parts on the desk, and returns the status. */
function statusOf(parts) {
  machine.putNumber(FORM, parts.width);
  machine.put(FORM + 8, [
    Math.max(parts.padding, 0),
    parts.padding >= 0,
    parts.leastSignificantFirst,
    parts.checkTrailingBits,
    parts.concatenate,
  ]);
  calls.de_custom_new(MADE_ADDRESS, FORM_ADDRESS, ...placed(parts.texts));
  return machine.smallNumberIn(MADE);
}

const tables = () => machine.copyOf(MADE + 16, TABLES_SIZE);

/** Returns the cause of a refusal: a character, or a number. */
function detailOf(status) {
  const detail = machine.numberIn(MADE + 8);
  const namesCharacter = ["duplicate", "undefined"].includes(KINDS[status]);
  return namesCharacter ? String.fromCharCode(detail) : status === WRAP_WIDTH ? detail : undefined;
}

/** Returns the first field that makes the specification invalid. */
function refusedField(asked) {
  const given = { ...asked };
  const later = [...JUDGED];
  for (const field of JUDGED) {
    later.shift();
    const front = { ...given, ...Object.fromEntries(later.map((it) => [it, DEFAULTS[it]])) };
    if (statusOf(partsOf(front)) !== OK) {
      return field;
    }
  }
  return JUDGED[0];
}

/** Returns the first field with a character that is not ASCII, or undefined. */
function fieldOutsideAscii({ padding, texts }) {
  const [symbols, ignore, wrap, from, to] = texts.map((text) => text.some((it) => it >= NOT_ASCII));
  const found = { symbols, padding: padding === NOT_ASCII, ignore, wrap, translate: from || to };
  return JUDGED.find((field) => found[field]);
}

/** The key of the encoding that is asked for, which is by a number where one is given. */
export function keyOfSpecification(asked, number) {
  const parts = partsOf(asked);
  // The module would count the bytes of such a character.
  const field = fieldOutsideAscii(parts);
  if (field !== undefined) {
    throw new SpecificationError("not-ascii", field);
  }
  const status = statusOf(parts);
  if (status === OK) {
    return new Key(tables(), number);
  }
  const detail = detailOf(status);
  throw new SpecificationError(KINDS[status], refusedField(asked), detail);
}

/** The key of the encoding of a layout, or undefined where the bytes are none. */
export function keyOfLayout(layout) {
  const bytes = bytesOf(layout, "a layout");
  machine.reserve(bytes.length, 0);
  machine.inputPart(bytes.length).set(bytes);
  calls.de_custom_read(MADE_ADDRESS, INPUT, BigInt(bytes.length));
  return machine.smallNumberIn(MADE) === OK ? new Key(tables()) : undefined;
}

// A layout has 256 symbols, repeated, then the meaning of each byte, the padding, the bits of a
// symbol with flags, and the lines.
const MEANINGS = 256;
const PADDING = 512;
const FLAGS = 513;
const LINES = 514;
const NO_MEANING = 128;
const IGNORED = 129;
const PADS = 130;
const BIT_WIDTH = 7;
const MOST_SIGNIFICANT = 8;
const CHECKS = 16;
const ONE_TEXT = 32;

/** Returns the ignored bytes, and the bytes with the meaning of others. */
function meaningsOf(layout, symbols, padding) {
  let ignore = "";
  let from = "";
  let to = "";
  layout.subarray(MEANINGS, PADDING).forEach((meaning, byte) => {
    const character = String.fromCharCode(byte);
    const other = meaning === PADS ? padding : symbols[meaning];
    if (meaning === IGNORED) {
      ignore += character;
    } else if (meaning !== NO_MEANING && other !== character) {
      from += character;
      to += other;
    }
  });
  return { ignore, translate: from === "" ? null : { from, to } };
}

/** The specification of the encoding of a layout. */
export function specificationOf(layout) {
  const flags = layout[FLAGS];
  const symbols = stringOf(layout.subarray(0, 1 << (flags & BIT_WIDTH)));
  const padding = layout[PADDING] === NO_MEANING ? null : String.fromCharCode(layout[PADDING]);
  const [width, ...separator] = layout.subarray(LINES);
  return {
    symbols,
    padding,
    ...meaningsOf(layout, symbols, padding),
    wrap: separator.length > 0 ? { width, separator: String.fromCharCode(...separator) } : null,
    bitOrder: flags & MOST_SIGNIFICANT ? MOST_SIGNIFICANT_FIRST : LEAST_SIGNIFICANT_FIRST,
    checkTrailingBits: (flags & CHECKS) !== 0,
    concatenate: (flags & ONE_TEXT) === 0,
  };
}

/** Returns the length of a block: data may be cut at its multiples. */
export function alignmentOf(layout) {
  const bits = layout[FLAGS] & BIT_WIDTH;
  const width = layout[LINES] ?? 0;
  return width > 0 ? (width * bits) / 8 : bits / (bits & -bits);
}
