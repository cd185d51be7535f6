/**
 * Base encodings, proved: data as text over an alphabet of symbols, and back.
 *
 * @module
 */

export { Encoding } from "./encoding.js";
export { DecodeError, SpecificationError } from "./errors.js";
export { Decoder, Encoder } from "./pieces.js";
export * from "./predefined.js";
export { version } from "./machine.js";
