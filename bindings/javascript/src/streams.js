/**
 * Streams of data and of text, for platforms with TransformStream.
 *
 * @module
 */

import { Decoder, Encoder } from "./pieces.js";

/** Returns the transformer of a stream, which passes on the results that are not empty. */
function transformer(converter) {
  const passOn = (controller, converted) => {
    if (converted.length > 0) {
      controller.enqueue(converted);
    }
  };
  return {
    transform: (piece, controller) => passOn(controller, converter.push(piece)),
    flush: (controller) => passOn(controller, converter.finish()),
  };
}

/** Encodes a stream of data to a stream of text, of any length. */
export class EncoderStream extends TransformStream {
  /** @param {import("./encoding.js").Encoding} encoding */
  constructor(encoding) {
    super(transformer(new Encoder(encoding)));
  }
}

/** Decodes a stream of text to a stream of data, of any length. It fails at the end of a text with
 * a fault. */
export class DecoderStream extends TransformStream {
  /** @param {import("./encoding.js").Encoding} encoding */
  constructor(encoding) {
    super(transformer(new Decoder(encoding)));
  }
}
