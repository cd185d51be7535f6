/** Streams of data and of text: TypeScript needs `lib: ["dom"]` or `@types/node` for them. */

import type { Bytes, Data, Encoding, Text } from "./index.js";

/** Encodes a stream of data to a stream of text, of any length. */
export class EncoderStream extends TransformStream<Bytes, string> {
  constructor(encoding: Encoding);
}

/** Decodes a stream of text to a stream of data, of any length. */
export class DecoderStream extends TransformStream<Text, Data> {
  constructor(encoding: Encoding);
}
