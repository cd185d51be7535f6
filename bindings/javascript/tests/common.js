// Helpers of the tests.

import * as library from "../src/index.js";

export const { Encoding, Decoder, Encoder, DecodeError, SpecificationError } = library;

export const NAMES = [
  "HEXLOWER", "HEXLOWER_PERMISSIVE", "HEXUPPER", "HEXUPPER_PERMISSIVE", "BASE32", "BASE32_NOPAD",
  "BASE32_NOPAD_NOCASE", "BASE32_NOPAD_VISUAL", "BASE32HEX", "BASE32HEX_NOPAD", "BASE32_DNSSEC",
  "BASE32_DNSCURVE", "BASE64", "BASE64_NOPAD", "BASE64_MIME", "BASE64_MIME_PERMISSIVE",
  "BASE64URL", "BASE64URL_NOPAD",
];

/** The predefined encodings, as the package gives them. */
export const PREDEFINED = NAMES.map((name) => library[name]);

/** Encodings of other specifications. */
export const OWN = [
  new Encoding({ symbols: "01234567", padding: "=", ignore: " " }),
  new Encoding({ symbols: "ABCDEFGHIJKLMNOPQRSTUVWXYZ234567", ignore: "-" }),
  new Encoding({ symbols: "01234567", padding: "=", concatenate: false }),
  new Encoding({
    symbols: "01",
    wrap: { width: 8, separator: "\n" },
    bitOrder: "least-significant-first",
  }),
  new Encoding({
    symbols: "0123456789abcdef",
    translate: { from: "ABCDEF", to: "abcdef" },
    wrap: { width: 254, separator: "\r\n" },
  }),
  new Encoding({ symbols: "01234567", checkTrailingBits: false }),
  new Encoding({ symbols: "01234567", padding: "=", translate: { from: "#a", to: "=1" } }),
];

export const EVERY = [...PREDEFINED, ...OWN];

/** Bytes by a rule, with every value early. */
export function bytes(length) {
  return Uint8Array.from({ length }, (_, at) => (at * 167 + (at >> 8) * 31) & 255);
}

export const ascii = (text) => Uint8Array.from(text, (it) => it.charCodeAt(0));

/** The data that a call returns, as an array, or the kind and the position of the fault. */
export function verdict(call) {
  try {
    return [...call()];
  } catch (error) {
    if (error instanceof DecodeError) {
      return `${error.kind} at ${error.position}`;
    }
    throw error;
  }
}
