// The module and its memory: the one file that knows addresses.
//
// The memory of the module itself comes first, then the desk, with fields of a fixed size, and then
// the room, with the input of a call and its output after it. A call gets addresses and lengths of
// these alone.

import { stringOf } from "./bytes.js";
import { ADDRESS_BITS, MODULE } from "./module.js";

/** A module of 13 bytes with a memory of 64-bit addresses. */
const PROBE = Uint8Array.of(0, 97, 115, 109, 1, 0, 0, 0, 5, 3, 1, 4, 1);

const LACKING =
  "WebAssembly has no 64-bit memory here: Chromium from 133 on, Firefox from 134 on and Node " +
  "from 24 on have it, and Node 20 and 22 by the flag --experimental-wasm-memory64";

const PAGE = 65536;
const ALIGNMENT = 16;

/** The fields of the desk, by their distance from its front. */
export const RESULT = 0;
export const DECODER = 32;
export const FORM = 144;
export const MADE = 160;
export const TABLES = 1024;
const ROOM = 1872;

/** The sizes of those that are copied. */
export const DECODER_SIZE = 104;
export const TABLES_SIZE = 843;

/** Returns the bytes of the module. A Buffer decodes base64 in a tenth of the time of the loop. */
function moduleBytes() {
  if (typeof globalThis.Buffer?.from === "function") {
    return globalThis.Buffer.from(MODULE, "base64");
  }
  const text = atob(MODULE);
  const bytes = new Uint8Array(text.length);
  for (let at = 0; at < text.length; at++) {
    bytes[at] = text.charCodeAt(at);
  }
  return bytes;
}

function compiled() {
  if (typeof WebAssembly === "undefined") {
    throw new Error("there is no WebAssembly here");
  }
  if (ADDRESS_BITS === 64 && !WebAssembly.validate(PROBE)) {
    throw new Error(LACKING);
  }
  return new WebAssembly.Module(moduleBytes());
}

const aligned = (size) => Math.ceil(size / ALIGNMENT) * ALIGNMENT;

const module = compiled();

/** The version in the module. */
export const version = new TextDecoder().decode(
  WebAssembly.Module.customSections(module, "version")[0],
);

/** The calls of the module. */
export const calls = new WebAssembly.Instance(module).exports;

const { memory } = calls;
const desk = aligned(Number(calls.__heap_base.value));
const room = desk + ROOM;

/** Returns the type of a number of pages of 64-bit memory: Number in Node 20, later BigInt. */
function countOf() {
  try {
    memory.grow(0n);
    return BigInt;
  } catch {
    return Number;
  }
}

/** Returns the memory as a buffer of Node, which makes strings faster than a TextDecoder. Elsewhere
 * it is undefined. */
function nodeBuffer() {
  const { Buffer } = globalThis;
  const hasSlices = typeof Buffer?.prototype?.latin1Slice === "function";
  return hasSlices ? Buffer.from(memory.buffer) : undefined;
}

const count = countOf();
let bytes = new Uint8Array(memory.buffer);
let fields = new DataView(memory.buffer);
let buffer = nodeBuffer();

/** The address of a field of the desk. */
export const addressOf = (field) => BigInt(desk + field);

/** The address of the input. */
export const INPUT = BigInt(room);

function growTo(size) {
  try {
    memory.grow(count(Math.ceil((size - bytes.length) / PAGE)));
  } catch {
    throw new RangeError(`the memory of the module can't grow to ${size} bytes`);
  }
  bytes = new Uint8Array(memory.buffer);
  fields = new DataView(memory.buffer);
  buffer = nodeBuffer();
}

/** Grows the room to an input and an output of these lengths, and returns the output's address. */
export function reserve(inputLength, outputLength) {
  const output = room + aligned(inputLength);
  if (output + outputLength > bytes.length) {
    growTo(output + outputLength);
  }
  return output;
}

/** Returns the part of the room from an address on. It is valid until the next `reserve`. */
export const part = (address, length) => bytes.subarray(address, address + length);

/** Every platform has strings of this length. */
const STRING = 1 << 28;

function tooLong(length) {
  return new RangeError(`no string has ${length} characters here: encodeInto writes to a buffer`);
}

/** Throws a RangeError if a string can't have this length. The engine copies no character for it. */
export function needsString(length) {
  if (length > STRING) {
    try {
      " ".repeat(length);
    } catch {
      throw tooLong(length);
    }
  }
}

/**
 * Returns the string of the ASCII characters from an address on: Latin-1 has the same characters.
 * Throws a RangeError if there is no memory for it.
 */
export function stringAt(address, length) {
  try {
    return buffer?.latin1Slice(address, address + length) ?? stringOf(part(address, length));
  } catch {
    throw tooLong(length);
  }
}

/** Returns the room for an input of this length, which was reserved. */
export const inputPart = (length) => part(room, length);

/** Writes bytes of an input to the room, which was reserved, from an index of the input on. */
export function putInput(values, index = 0) {
  bytes.set(values, room + index);
}

/** Returns the number in a field of the desk, made of its halves: a BigInt would take longer. */
export const numberIn = (field) =>
  fields.getUint32(desk + field, true) + fields.getUint32(desk + field + 4, true) * 2 ** 32;

export const smallNumberIn = (field) => fields.getUint32(desk + field, true);

export const byteIn = (field) => bytes[desk + field];

/** Writes the bytes to a field of the desk. */
export function put(field, values) {
  bytes.set(values, desk + field);
}

export function putNumber(field, value) {
  fields.setBigUint64(desk + field, BigInt(value), true);
}

/** Returns a copy of the bytes of a field of the desk. */
export const copyOf = (field, length) => bytes.slice(desk + field, desk + field + length);
