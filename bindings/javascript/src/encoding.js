import { bytesOf, kindOf, textOf } from "./bytes.js";
import * as calls from "./calls.js";
import { EIGHTEEN } from "./eighteen.js";
import { DecodeError } from "./errors.js";
import { part, stringAt } from "./machine.js";
import { alignmentOf, keyOfLayout, keyOfSpecification, specificationOf } from "./specification.js";

/** Returns the key of an encoding. Throws a TypeError for any other value. */
export let keyOf;

function lengthOf(value) {
  if (typeof value !== "number") {
    throw new TypeError(`a length has to be a number, not ${kindOf(value)}`);
  }
  if (!Number.isSafeInteger(value) || value < 0) {
    throw new RangeError(`no length: ${value}`);
  }
  return value;
}

/** Writes the bytes to the start of the output, and returns their number. */
function copyTo(output, bytes) {
  if (output.length < bytes.length) {
    throw new RangeError("output too short");
  }
  output.set(bytes);
  return bytes.length;
}

/** Returns the error of a text with a fault. */
const errorOf = ({ kind, position, data }) => new DecodeError(kind, position, data.slice());

/** A way to write data as text, and to read it back. Immutable. */
export class Encoding {
  #key;

  static {
    keyOf = (value) => {
      if (typeof value !== "object" || value === null || !(#key in value)) {
        throw new TypeError(`an Encoding is needed, not ${kindOf(value)}`);
      }
      return value.#key;
    };
  }

  /**
   * Makes the encoding of a specification.
   *
   * @param {import("./index.js").Specification} specification
   */
  constructor(specification) {
    this.#key =
      specification instanceof calls.Key ? specification : keyOfSpecification(specification);
    Object.freeze(this);
  }

  /** Returns the names of the predefined encodings. */
  static names() {
    return [...PREDEFINED.keys()];
  }

  /** Returns the predefined encoding of a name. */
  static named(name) {
    const found = PREDEFINED.get(name);
    if (found === undefined) {
      throw new RangeError(`unknown encoding: ${String(name)}`);
    }
    return found;
  }

  /** Returns the encoding of a layout. */
  static fromLayout(layout) {
    const key = keyOfLayout(layout);
    if (key === undefined) {
      throw new RangeError("no layout of an encoding");
    }
    const made = new Encoding(key);
    return [...PREDEFINED.values()].find((it) => it.equals(made)) ?? made;
  }

  /** The name of a predefined encoding, or null for any other. */
  get name() {
    const { number } = this.#key;
    return number === undefined ? null : Encoding.names()[number];
  }

  /** Bytes that describe the encoding completely, to store or send. */
  get layout() {
    return calls.layoutOf(this.#key).slice();
  }

  /** The block size in bytes of data. If data is cut at multiples of it, the joined texts of the
   * pieces are the text of the whole. */
  get encodeAlign() {
    return alignmentOf(calls.layoutOf(this.#key));
  }

  /** Returns a specification of this encoding, with every field. */
  specification() {
    return specificationOf(calls.layoutOf(this.#key));
  }

  /** Returns true if both encodings have the same layout. */
  equals(other) {
    const one = this.layout;
    const two = calls.layoutOf(keyOf(other));
    return one.length === two.length && one.every((byte, at) => byte === two[at]);
  }

  /** Returns the text of the data. */
  encode(data) {
    return calls.encode(this.#key, bytesOf(data, "data"), stringAt);
  }

  /** Writes the text of the data to the start of the output, and returns its length. */
  encodeInto(data, output) {
    const target = bytesOf(output, "the output");
    return copyTo(target, calls.encode(this.#key, bytesOf(data, "data"), part));
  }

  /** Returns the data of the text. */
  decode(text) {
    const found = calls.decode(this.#key, textOf(text));
    if (found.kind !== undefined) {
      throw errorOf(found);
    }
    return new Uint8Array(found.data);
  }

  /** Writes the data of the text to the start of the output, and returns its length. */
  decodeInto(text, output) {
    const target = bytesOf(output, "the output");
    const found = calls.decode(this.#key, textOf(text));
    if (found.kind !== undefined) {
      throw errorOf(found);
    }
    return copyTo(target, found.data);
  }

  /** Decodes the text up to its fault, if it has one. */
  decodePartial(text) {
    const found = calls.decode(this.#key, textOf(text));
    const error = found.kind === undefined ? null : errorOf(found);
    return { data: error?.data ?? new Uint8Array(found.data), read: found.read, error };
  }

  /** Returns the length of the text of `length` bytes. */
  encodeLen(length) {
    const found = calls.encodeLen(this.#key, lengthOf(length));
    if (!Number.isSafeInteger(found)) {
      throw new RangeError("too long");
    }
    return found;
  }

  /** Returns the greatest number of bytes that a text of `length` characters decodes to. */
  decodeLen(length) {
    return calls.decodeLen(this.#key, lengthOf(length));
  }

  /** Returns true if no two different texts decode to the same data. */
  isCanonical() {
    return calls.isCanonical(this.#key);
  }

  /** Returns the name, or a specification of an encoding without one, for `JSON.stringify`. */
  toJSON() {
    return this.name ?? this.specification();
  }

  toString() {
    return this.name ?? `Encoding(${JSON.stringify(this.specification())})`;
  }

  /** Returns the line that Node prints. */
  [Symbol.for("nodejs.util.inspect.custom")]() {
    return this.toString();
  }
}

/** The predefined encodings by their names. The module has calls for their numbers. */
const PREDEFINED = new Map(
  Object.entries(EIGHTEEN).map(([name, specification], number) => [
    name, new Encoding(keyOfSpecification(specification, number)),
  ]),
);
