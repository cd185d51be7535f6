// The errors of invalid texts and specifications.

const FAULTS = {
  length: "invalid length",
  symbol: "invalid symbol",
  trailing: "non-zero trailing bits",
  padding: "invalid padding length",
};

/** A text means nothing. */
export class DecodeError extends Error {
  /**
   * @param {"length" | "symbol" | "trailing" | "padding"} kind
   * @param {number} position The index of the invalid character. For an invalid length in an
   *   encoding that ignores no character: the longest valid length below it.
   * @param {Uint8Array} data The data that the call decoded before the fault.
   */
  constructor(kind, position, data = new Uint8Array()) {
    super(`${FAULTS[kind] ?? kind} at ${position}`);
    this.kind = kind;
    this.position = position;
    this.data = data;
  }

  get name() {
    return "DecodeError";
  }
}

const ESCAPES = { "\0": "0", "\t": "t", "\n": "n", "\r": "r", "'": "'", "\\": "\\" };

/** The ASCII character between quotes, as Rust writes a `char` for debugging. */
function quoted(character) {
  if (Object.hasOwn(ESCAPES, character)) {
    return `'\\${ESCAPES[character]}'`;
  }
  const isControl = character < " " || character === "\x7f";
  return isControl ? `'\\u{${character.charCodeAt(0).toString(16)}}'` : `'${character}'`;
}

const REFUSALS = {
  "symbol-count": () => "invalid number of symbols",
  "not-ascii": () => "non-ascii character",
  duplicate: (character) => `${quoted(character)} has conflicting definitions`,
  "extra-padding": () => "unnecessary padding",
  "wrap-length": () => "invalid wrap width or separator length",
  "wrap-width": (multiple) => `wrap width not a multiple of ${multiple}`,
  "translate-length": () => "translate from/to length mismatch",
  undefined: (character) => `${quoted(character)} is undefined`,
};

/** Thrown if a specification is invalid. */
export class SpecificationError extends Error {
  /**
   * @param {string} kind The reason, as `REFUSALS` names it.
   * @param {string} field The invalid field.
   * @param {string | number} [detail] The character that is the cause, or the number that does not
   *   divide the width of lines.
   */
  constructor(kind, field, detail) {
    super(REFUSALS[kind]?.(detail) ?? kind);
    this.kind = kind;
    this.field = field;
    this.detail = detail;
  }

  get name() {
    return "SpecificationError";
  }
}
