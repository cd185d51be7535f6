// Faults and characters in words.

const NAMES = {
  0: "a NUL",
  9: "a tab",
  10: "a line feed",
  13: "a carriage return",
  32: "a space",
  0xa0: "a no-break space",
  0x200b: "a zero-width space",
  0x2028: "a line separator",
  0xfeff: "a byte order mark",
};

/** The character of a field for a carriage return, which a field takes for the end of a line. */
export const RETURN = "\u21b5";

/** The text of a field, as it is, and back. */
export const shown = (text) => text.replaceAll("\r", RETURN);
export const meant = (value) => value.replaceAll(RETURN, "\r");

/** Returns the character at an index of a string, with both its units if it has two. */
export const characterAt = (text, index) =>
  index < text.length ? String.fromCodePoint(text.codePointAt(index)) : "";

const TWO_UNITS = /[\ud800-\udbff][\udc00-\udfff]/g;

/**
 * Returns the text with one unit for each character, so that an index counts characters. Another
 * character that is not ASCII replaces those of two units.
 */
export const singled = (text) => text.replace(TWO_UNITS, "\ufffd");

/** Returns the index in `text` of the character at a position of `singled(text)`. */
export function indexOf(text, position) {
  let index = 0;
  for (let count = 0; count < position; count++) {
    index += text.codePointAt(index) > 0xffff ? 2 : 1;
  }
  return index;
}

/** How a character is spoken of: its name in words, or itself. */
export function spoken(character) {
  const code = character.codePointAt(0);
  const name = NAMES[code];
  if (name !== undefined) {
    return { word: name };
  }
  if (code < 32 || (code >= 127 && code < 160)) {
    return { word: `the control character ${code}` };
  }
  return { character };
}

const count = (number, one) => `${number} ${one}${number === 1 ? "" : "s"}`;

export const characters = (number) => count(number, "character");
export const bytes = (number) => count(number, "byte");

const SENTENCES = {
  symbol: (name, at) => `Not a symbol of ${name}, at ${at}`,
  trailing: (name, at) => `Bits left over that are not zeros, at ${at}`,
  padding: (name, at) => `Not the right padding of ${name}, at ${at}`,
};

/**
 * Returns the sentence of a fault, and the character that it names, if it names one.
 *
 * @param {{ kind: string, position: number }} fault
 * @param {string} name The name of the encoding.
 * @param {string} character The character at the fault, or "" at the end of the text.
 * @param {number} length The number of characters of the text.
 */
export function sentenceOf({ kind, position }, name, character, length) {
  if (kind === "length") {
    const whole = `${position} of ${characters(length)} are whole`;
    return { words: `Not a length of ${name}: the text is cut short, or too long; ${whole}` };
  }
  const words = SENTENCES[kind](name, position);
  return character === "" ? { words: `${words}: the end` } : { words, ...spoken(character) };
}

/** Blanks, line ends and characters without a width. */
const BLANK = /[\s\u200b]/;
const LINE_END = /[\r\n]/;
const LINES = "BASE64_MIME";

/**
 * Returns the position of the first blank if it is the fault of the text, or may be the reason of
 * an invalid length.
 */
export function blankOf({ kind, position }, text, encoding) {
  const at = text.search(BLANK);
  const isFault = at >= 0 && (kind === "length" || position === at);
  return isFault && !encoding.specification().ignore.includes(text[at]) ? at : undefined;
}

/** Returns the sentence of a blank that is a fault. */
export function blankSentence(at, blank, { name }) {
  const isLineEnd = LINE_END.test(blank);
  const what = isLineEnd ? "line end" : (spoken(blank).word ?? "blank").replace(/^(a|the) /, "");
  const place = `${what[0].toUpperCase()}${what.slice(1)} at ${at}`;
  const other = isLineEnd && name === "BASE64" ? `, ${LINES} does` : "";
  return { words: `${place}: ${name ?? "your own encoding"} ignores none${other}` };
}

const DATA_URL = /^data:[^,]*,/i;
const PEM_HEAD = /^-----BEGIN [^-]*-----/;

/** Returns the sentence of a head that is not a part of the text, and its length, or undefined. */
export function headOf(text) {
  const [url] = DATA_URL.exec(text) ?? [];
  if (url !== undefined) {
    return { words: "This is a data: address: the text begins after the comma", length: url.length };
  }
  const [head] = PEM_HEAD.exec(text) ?? [];
  return head === undefined
    ? undefined
    : { words: `This is PEM: ${LINES} reads the lines between the first and the last`,
        length: head.length };
}

/** Returns the sentence with the name of another encoding that reads the text, if there is one. */
export function withNext(sentence, next) {
  return next === undefined ? sentence : { ...sentence, after: `. ${next} reads this text` };
}

/** That no encoding has this name, as a sentence, with the one that differs by case alone. */
export function unknownSentence(name, names, taken) {
  const meant = names.find((it) => it === name.toUpperCase());
  const other = meant === undefined ? "" : `, but ${meant} is one`;
  return `No encoding has the name ${name}${other}: this is ${taken}`;
}

const UNITS = ["bytes", "KiB", "MiB", "GiB", "TiB"];

/** A number of bytes in its unit. */
export function sized(number) {
  let unit = 0;
  let amount = number;
  while (amount >= 1024 && unit < UNITS.length - 1) {
    amount /= 1024;
    unit += 1;
  }
  return unit === 0 ? bytes(number) : `${amount.toFixed(1)} ${UNITS[unit]}`;
}
