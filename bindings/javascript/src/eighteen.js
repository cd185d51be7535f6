// The specifications of the eighteen, in the order of their numbers. The module calls each by its
// number. The fields are for its layout and its specification, and tests compare both.

const UPPER = "ABCDEFGHIJKLMNOPQRSTUVWXYZ";
const LOWER = UPPER.toLowerCase();
const DIGITS = "0123456789";
const HEX_LOWER = `${DIGITS}abcdef`;
const HEX_UPPER = `${DIGITS}ABCDEF`;
const SYMBOLS_32 = `${UPPER}234567`;
const SYMBOLS_32_HEX = DIGITS + UPPER.slice(0, 22);
const SYMBOLS_64 = `${UPPER + LOWER + DIGITS}+/`;
const SYMBOLS_64_URL = `${UPPER + LOWER + DIGITS}-_`;
const SYMBOLS_CURVE = `${DIGITS}bcdfghjklmnpqrstuvwxyz`;
const PADDING = "=";
const LINES = { width: 76, separator: "\r\n" };

/** The translation of letters to the other case. */
const readAs = (to, from) => ({ from, to });

/** The specifications of the predefined encodings by their names. */
export const EIGHTEEN = {
  HEXLOWER: { symbols: HEX_LOWER },
  HEXLOWER_PERMISSIVE: {
    symbols: HEX_LOWER,
    translate: readAs("abcdef", "ABCDEF"),
  },
  HEXUPPER: { symbols: HEX_UPPER },
  HEXUPPER_PERMISSIVE: {
    symbols: HEX_UPPER,
    translate: readAs("ABCDEF", "abcdef"),
  },
  BASE32: { symbols: SYMBOLS_32, padding: PADDING },
  BASE32_NOPAD: { symbols: SYMBOLS_32 },
  BASE32_NOPAD_NOCASE: {
    symbols: SYMBOLS_32,
    translate: readAs(UPPER, LOWER),
  },
  BASE32_NOPAD_VISUAL: {
    symbols: SYMBOLS_32,
    translate: readAs("OIIB", "01l8"),
  },
  BASE32HEX: { symbols: SYMBOLS_32_HEX, padding: PADDING },
  BASE32HEX_NOPAD: { symbols: SYMBOLS_32_HEX },
  BASE32_DNSSEC: {
    symbols: SYMBOLS_32_HEX.toLowerCase(),
    translate: readAs(LOWER.slice(0, 22), UPPER.slice(0, 22)),
  },
  BASE32_DNSCURVE: {
    symbols: SYMBOLS_CURVE,
    translate: readAs(SYMBOLS_CURVE.slice(10), SYMBOLS_CURVE.slice(10).toUpperCase()),
    bitOrder: "least-significant-first",
  },
  BASE64: { symbols: SYMBOLS_64, padding: PADDING },
  BASE64_NOPAD: { symbols: SYMBOLS_64 },
  BASE64_MIME: {
    symbols: SYMBOLS_64,
    padding: PADDING,
    wrap: LINES,
  },
  BASE64_MIME_PERMISSIVE: {
    symbols: SYMBOLS_64,
    padding: PADDING,
    wrap: LINES,
    checkTrailingBits: false,
  },
  BASE64URL: { symbols: SYMBOLS_64_URL, padding: PADDING },
  BASE64URL_NOPAD: { symbols: SYMBOLS_64_URL },
};
