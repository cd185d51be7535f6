// The calls of the module over values of JavaScript. Each copies its input into the room, and
// throws an error for a status. A view that it returns is part of the room, until the next call.

import { stringOf, writeText } from "./bytes.js";
import { DecodeError } from "./errors.js";
import * as machine from "./machine.js";

const { DECODER, DECODER_SIZE, INPUT, RESULT, TABLES, calls } = machine;

const RESULT_ADDRESS = machine.addressOf(RESULT);
const DECODER_ADDRESS = machine.addressOf(DECODER);
const TABLES_ADDRESS = machine.addressOf(TABLES);

const OK = 0;
const REASONS = { 1: "unknown encoding", 3: "too long", 4: "output too short", 19: "no decoder" };
const KINDS = { 6: "length", 7: "symbol", 8: "trailing", 9: "padding" };

/** Throws the error of a refused call. */
function refused(status) {
  const Refusal = status === 3 || status === 4 ? RangeError : Error;
  throw new Refusal(REASONS[status] ?? `status ${status}`);
}

function needsOk(status) {
  if (status !== OK) {
    refused(status);
  }
}

/** Returns the kind of the fault of a text, or undefined if the text is valid. */
function faultOf(status) {
  const kind = KINDS[status];
  if (kind === undefined) {
    needsOk(status);
  }
  return kind;
}

/** Returns the calls for the number of a predefined encoding, or for the tables of another. */
function callsBy(kind) {
  return {
    encodeLen: calls[`de_${kind}_encode_len`],
    encode: calls[`de_${kind}_encode`],
    decodeLen: calls[`de_${kind}_decode_len`],
    decode: calls[`de_${kind}_decode`],
    isCanonical: calls[`de_${kind}_is_canonical`],
    decoderMost: calls[`de_${kind}_decoder_most`],
    decoderRead: calls[`de_${kind}_decoder_read`],
    decoderFinish: calls[`de_${kind}_decoder_finish`],
  };
}

const BY_NUMBER = callsBy("numbered");
const BY_TABLES = callsBy("custom");

/** The encoding with its tables on the desk. */
let onDesk;

/** An encoding for the calls. */
export class Key {
  /**
   * @param {Uint8Array} tables The tables of the encoding.
   * @param {number} [number] The number of a predefined encoding.
   */
  constructor(tables, number) {
    this.tables = tables;
    this.number = number;
    this.calls = number === undefined ? BY_TABLES : BY_NUMBER;
  }

  /** The first argument of a call. */
  get first() {
    return this.number ?? this.address;
  }

  /** The address of the tables, after a copy to the desk. */
  get address() {
    if (onDesk !== this) {
      machine.put(TABLES, this.tables);
      onDesk = this;
    }
    return TABLES_ADDRESS;
  }
}

/** Returns the length of the text of `length` bytes. */
export function encodeLen(key, length) {
  needsOk(key.calls.encodeLen(key.first, BigInt(length), RESULT_ADDRESS));
  return machine.numberIn(RESULT);
}

/** The text of short data mostly fits a short text: its length is not asked for first. */
const SHORT_DATA = 64;
const SHORT_TEXT = 1024;
const SHORT_TEXT_LENGTH = BigInt(SHORT_TEXT);
const TOO_SHORT = 4;

/** Writes `data` to the room, after the bytes of `held`. */
function putData(data, held) {
  if (held.length > 0) {
    machine.putInput(held);
  }
  machine.putInput(data, held.length);
}

/** Returns the text of short data, taken by `take`, or undefined if the text is long. */
function encodeShort(key, data, take, held) {
  const size = held.length + data.length;
  const output = machine.reserve(size, SHORT_TEXT);
  putData(data, held);
  const status = key.calls.encode(
    key.first, INPUT, BigInt(size), BigInt(output), SHORT_TEXT_LENGTH, RESULT_ADDRESS,
  );
  if (status === TOO_SHORT) {
    return undefined;
  }
  needsOk(status);
  return take(output, machine.numberIn(RESULT));
}

const NOTHING = new Uint8Array();

/**
 * Returns the text of the data, taken by `take` at its address and length: `part` or `stringAt` of
 * the machine. Bytes of `held` come before the data.
 */
export function encode(key, data, take, held = NOTHING) {
  const size = held.length + data.length;
  const short = size <= SHORT_DATA ? encodeShort(key, data, take, held) : undefined;
  if (short !== undefined) {
    return short;
  }
  const length = encodeLen(key, size);
  if (take === machine.stringAt) {
    machine.needsString(length);
  }
  const output = machine.reserve(size, length);
  putData(data, held);
  needsOk(
    key.calls.encode(key.first, INPUT, BigInt(size), BigInt(output), BigInt(length),
      RESULT_ADDRESS),
  );
  return take(output, length);
}

/** Returns the greatest number of bytes that a text of this length decodes to. */
export function decodeLen(key, length) {
  const status = key.calls.decodeLen(key.first, BigInt(length), RESULT_ADDRESS);
  const kind = faultOf(status);
  const result = machine.numberIn(RESULT);
  if (kind !== undefined) {
    throw new DecodeError(kind, result);
  }
  return result;
}

/**
 * Decodes a text up to its fault. Returns a view of the data, the number of characters that were
 * decoded, and the kind and the position of the fault. The kind is undefined if the text is valid.
 */
export function decode(key, text) {
  const { length } = text;
  // A symbol has at most six bits, so that no text means more bytes than it has characters.
  const output = machine.reserve(length, length);
  writeText(text, machine.inputPart(length));
  const status = key.calls.decode(
    key.first, INPUT, BigInt(length), BigInt(output), BigInt(length), RESULT_ADDRESS,
  );
  return verdict(status, output);
}

/** Returns the result of a call, with the data in the output. */
function verdict(status, output) {
  const kind = faultOf(status);
  const read = machine.numberIn(RESULT);
  const data = machine.part(output, machine.numberIn(RESULT + 8));
  return { data, read, kind, position: machine.numberIn(RESULT + 16) };
}

export function isCanonical(key) {
  machine.putNumber(RESULT, 0);
  needsOk(key.calls.isCanonical(key.first, RESULT_ADDRESS));
  return machine.byteIn(RESULT) !== 0;
}

/** Returns the state of a decoder that has read nothing. */
export function newDecoder() {
  calls.de_plain_decoder_new(DECODER_ADDRESS);
  return machine.copyOf(DECODER, DECODER_SIZE);
}

/** Returns a view of the data that a piece completes, and the state after it. */
export function decoderRead(key, kept, piece) {
  const length = BigInt(piece.length);
  const { first } = key;
  machine.put(DECODER, kept);
  needsOk(key.calls.decoderMost(first, DECODER_ADDRESS, length, RESULT_ADDRESS));
  const most = machine.numberIn(RESULT);
  const output = machine.reserve(piece.length, most);
  writeText(piece, machine.inputPart(piece.length));
  needsOk(
    key.calls.decoderRead(first, DECODER_ADDRESS, INPUT, length, BigInt(output), BigInt(most),
      RESULT_ADDRESS),
  );
  return {
    data: machine.part(output, machine.numberIn(RESULT)),
    kept: machine.copyOf(DECODER, DECODER_SIZE),
  };
}

/** The greatest number of bytes that a last group decodes to. */
const LAST = 5;

/** Returns the data of a last group, and the verdict on the text. */
export function decoderFinish(key, kept) {
  machine.put(DECODER, kept);
  const output = machine.reserve(0, LAST);
  const status = key.calls.decoderFinish(
    key.first, DECODER_ADDRESS, BigInt(output), BigInt(LAST), RESULT_ADDRESS,
  );
  return verdict(status, output);
}

/** The greatest length of the name of a predefined encoding. */
const NAME = 22;

/** Returns the name of the predefined encoding of a number, or undefined if none has it. */
export function nameOf(number) {
  const output = machine.reserve(0, NAME);
  const status = calls.de_numbered_name(number, BigInt(output), BigInt(NAME), RESULT_ADDRESS);
  return status === OK
    ? stringOf(machine.part(output, machine.numberIn(RESULT)))
    : undefined;
}

/** The greatest length of a layout. */
const LAYOUT = 770;

/** Returns a view of the layout of an encoding. */
export function layoutOf(key) {
  const output = machine.reserve(0, LAYOUT);
  needsOk(
    calls.de_custom_layout(key.address, BigInt(output), BigInt(LAYOUT), RESULT_ADDRESS),
  );
  return machine.part(output, machine.numberIn(RESULT));
}
