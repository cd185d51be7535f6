// The data of a text, up to its fault.

import { DecodeError, Decoder } from "../../bindings/javascript/src/index.js";

function joined(front, back) {
  const bytes = new Uint8Array(front.length + back.length);
  bytes.set(front);
  bytes.set(back, front.length);
  return bytes;
}

/** The data of the groups before the fault, as the program writes it, and the fault or null. */
export function decoded(encoding, text) {
  const decoder = new Decoder(encoding);
  const data = decoder.push(text);
  try {
    return { data: joined(data, decoder.finish()), error: null };
  } catch (error) {
    if (!(error instanceof DecodeError)) {
      throw error;
    }
    return { data: joined(data, error.data), error };
  }
}
