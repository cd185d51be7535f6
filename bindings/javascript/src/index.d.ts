/**
 * Base encodings with proofs: data as text over an alphabet of symbols, and back.
 *
 * Encoding and decoding are not constant-time: `SECURITY.md` of the sources has the packages in which
 * they are.
 */

/** Bytes: data, or a text in ASCII. */
export type Bytes = ArrayBufferLike | ArrayBufferView;

/**
 * A text, as a string or as bytes. A character that is not ASCII is invalid, and counts as one
 * position.
 */
export type Text = string | Bytes;

/**
 * Data that a call returns, in a buffer of its own. From TypeScript 5.7 on it is
 * `Uint8Array<ArrayBuffer>`, and before, `Uint8Array`.
 */
export type Data = ReturnType<Uint8Array["slice"]>;

export type FaultKind = "length" | "symbol" | "trailing" | "padding";

/** Thrown if a text can't be decoded. */
export class DecodeError extends Error {
  constructor(kind: FaultKind, position: number, data?: Data);

  readonly name: "DecodeError";
  readonly kind: FaultKind;

  /**
   * The index of the invalid character, from 0. For an invalid length in an encoding that ignores no
   * character: the greatest valid length below it.
   */
  readonly position: number;

  /** The data that the call decoded before the fault. */
  readonly data: Data;
}

export type RefusalKind =
  | "symbol-count"
  | "not-ascii"
  | "duplicate"
  | "extra-padding"
  | "wrap-length"
  | "wrap-width"
  | "translate-length"
  | "undefined";

export type JudgedField = "symbols" | "padding" | "ignore" | "wrap" | "translate";

/** Thrown if a specification is invalid. */
export class SpecificationError extends Error {
  constructor(kind: RefusalKind, field: JudgedField, detail?: string | number);

  readonly name: "SpecificationError";
  readonly kind: RefusalKind;

  /** The invalid field of the specification. */
  readonly field: JudgedField;

  /**
   * The character that is refused or, for `"wrap-width"`, the number that must divide the width of
   * lines.
   */
  readonly detail: string | number | undefined;
}

export type BitOrder = "most-significant-first" | "least-significant-first";

/** The parameters of an encoding. */
export interface Specification {
  /** 2, 4, 8, 16, 32 or 64 ASCII characters, in order of value. */
  symbols: string;

  /** The character that fills the last group of a text. Null, the default, means without padding. */
  padding?: string | null;

  /** Characters that decoding ignores, anywhere in a text. */
  ignore?: string;

  /** The number of characters of a line, and the separator after each line. */
  wrap?: { width: number; separator: string } | null;

  /** Decodes each character of `from` like the character of `to` at the same index. */
  translate?: { from: string; to: string } | null;

  /** The order of the bits of a byte. The default is `"most-significant-first"`. */
  bitOrder?: BitOrder;

  /** If true, the default, the bits after the last byte must be zeros. */
  checkTrailingBits?: boolean;

  /** If true, the default, concatenated padded texts are decoded as one. */
  concatenate?: boolean;
}

/** The parameters of an encoding as the constructor takes them. */
export type GivenSpecification = Omit<Specification, "wrap"> & {
  /** As in `Specification`, or a pair: `[76, "\r\n"]`. */
  wrap?: Specification["wrap"] | readonly [width: number, separator: string];
};

/** The result of decoding as much of a text as possible. */
export interface PartialDecode {
  /** The data of the first `read` characters. */
  data: Data;

  /** The number of characters that were decoded. */
  read: number;

  /** The fault of the text, or null if the text is valid. */
  error: DecodeError | null;
}

/** @deprecated Use PartialDecode: this name hides `Partial` of TypeScript. */
export type Partial = PartialDecode;

/** A way to write data as text, and to read it back. Immutable. */
export class Encoding {
  /** Makes an encoding. Throws a SpecificationError if the specification is invalid. */
  constructor(specification: GivenSpecification);

  /** Returns the names of the predefined encodings. */
  static names(): string[];

  /** Returns a predefined encoding. Throws a RangeError if none has this name. */
  static named(name: string): Encoding;

  /** Returns the encoding with this layout. Throws a RangeError if the bytes are not a layout. */
  static fromLayout(layout: Bytes): Encoding;

  /** The name of a predefined encoding, or null for any other. */
  readonly name: string | null;

  /** Bytes that describe the encoding completely, to store or send. */
  readonly layout: Data;

  /**
   * The block size in bytes of data. If data is cut at multiples of it, the joined texts of the
   * pieces are the text of the whole.
   */
  readonly encodeAlign: number;

  /** Returns a specification of this encoding, with every field. */
  specification(): Required<Specification>;

  /** Returns true if both encodings have the same layout. */
  equals(other: Encoding): boolean;

  /**
   * Returns the text of `data`. Throws a RangeError if the text is too long for a string. In Node
   * a string has up to 512 Mi characters.
   */
  encode(data: Bytes): string;

  /**
   * Writes the text of `data` to the start of `output`, and returns its length. Throws a RangeError
   * if `output` is too short, and leaves it unchanged.
   */
  encodeInto(data: Bytes, output: Bytes): number;

  /** Returns the data of `text`. Throws a DecodeError if the text is invalid. */
  decode(text: Text): Data;

  /**
   * Writes the data of `text` to the start of `output`, and returns its length. Throws a DecodeError
   * if the text is invalid, or a RangeError if `output` is too short. Either leaves `output`
   * unchanged.
   */
  decodeInto(text: Text, output: Bytes): number;

  /** Decodes `text` up to its fault, if it has one. Does not throw a DecodeError. */
  decodePartial(text: Text): PartialDecode;

  /** Returns the length of the text of `length` bytes of data. */
  encodeLen(length: number): number;

  /**
   * Returns the greatest number of bytes that a text of `length` characters decodes to. Throws a
   * DecodeError if no valid text has this length.
   */
  decodeLen(length: number): number;

  /** Returns true if no two different texts decode to the same data. */
  isCanonical(): boolean;

  /**
   * Returns the name, or a specification of an encoding without one. `Encoding.named` and
   * `new Encoding` make the encoding of it again.
   */
  toJSON(): string | Required<Specification>;

  toString(): string;
}

/** Encodes data that comes in pieces. The joined results are the text of all the data. */
export class Encoder {
  constructor(encoding: Encoding);

  /** Returns the text of the blocks that this piece completes. */
  push(piece: Bytes): string;

  /** Returns the text of the remaining bytes. The next piece begins new data. */
  finish(): string;
}

/** Decodes a text that comes in pieces, which may be cut anywhere. */
export class Decoder {
  constructor(encoding: Encoding);

  /** Returns the data of the groups that this piece completes. After a fault it is empty. */
  push(piece: Text): Data;

  /**
   * Returns the data of the last group. Throws a DecodeError if the text is invalid, with the
   * position in the whole text and the data of the last group alone. The next piece begins a new
   * text.
   */
  finish(): Data;
}

/** The version of the package. */
export const version: string;

export const HEXLOWER: Encoding;
export const HEXLOWER_PERMISSIVE: Encoding;
export const HEXUPPER: Encoding;
export const HEXUPPER_PERMISSIVE: Encoding;
export const BASE32: Encoding;
export const BASE32_NOPAD: Encoding;
export const BASE32_NOPAD_NOCASE: Encoding;
export const BASE32_NOPAD_VISUAL: Encoding;
export const BASE32HEX: Encoding;
export const BASE32HEX_NOPAD: Encoding;
export const BASE32_DNSSEC: Encoding;
export const BASE32_DNSCURVE: Encoding;
export const BASE64: Encoding;
export const BASE64_NOPAD: Encoding;
export const BASE64_MIME: Encoding;
export const BASE64_MIME_PERMISSIVE: Encoding;
export const BASE64URL: Encoding;
export const BASE64URL_NOPAD: Encoding;
