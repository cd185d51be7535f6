import { bytesOf, textOf } from "./bytes.js";
import * as calls from "./calls.js";
import { keyOf } from "./encoding.js";
import { DecodeError } from "./errors.js";
import { stringAt } from "./machine.js";

/** Returns the bytes of both, one after the other. */
function joined(front, back) {
  const bytes = new Uint8Array(front.length + back.length);
  bytes.set(front);
  bytes.set(back, front.length);
  return bytes;
}

/** Encodes data that comes in pieces. The joined results are the text of all the data. */
export class Encoder {
  #key;
  #align;
  #held = new Uint8Array();

  /** @param {import("./encoding.js").Encoding} encoding */
  constructor(encoding) {
    this.#key = keyOf(encoding);
    this.#align = encoding.encodeAlign;
  }

  /** Returns the text of the blocks that this piece completes. */
  push(piece) {
    const data = bytesOf(piece, "data");
    const size = this.#held.length + data.length;
    if (size < this.#align) {
      this.#held = joined(this.#held, data);
      return "";
    }
    const cut = data.length - (size % this.#align);
    const text = calls.encode(this.#key, data.subarray(0, cut), stringAt, this.#held);
    this.#held = data.slice(cut);
    return text;
  }

  /** Returns the text of the remaining bytes. The next piece begins other data. */
  finish() {
    const text = calls.encode(this.#key, this.#held, stringAt);
    this.#held = new Uint8Array();
    return text;
  }
}

/**
 * Decodes a text that comes in pieces, which may be cut anywhere. `finish` has the verdict of
 * `Encoding.decode` on the whole text.
 */
export class Decoder {
  #key;
  #kept = calls.newDecoder();

  /** @param {import("./encoding.js").Encoding} encoding */
  constructor(encoding) {
    this.#key = keyOf(encoding);
  }

  /** Returns the data of the groups that this piece completes. After a fault it is empty. */
  push(piece) {
    const { data, kept } = calls.decoderRead(this.#key, this.#kept, textOf(piece));
    this.#kept = kept;
    return new Uint8Array(data);
  }

  /**
   * Returns the data of the last group. Throws a DecodeError if the text is invalid, with the
   * position in the whole text. The next piece begins another text.
   */
  finish() {
    const { data, kind, position } = calls.decoderFinish(this.#key, this.#kept);
    this.#kept = calls.newDecoder();
    if (kind !== undefined) {
      throw new DecodeError(kind, position, data.slice());
    }
    return new Uint8Array(data);
  }
}
