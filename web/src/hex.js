// Bytes as lines of hexadecimal digits, and back.

import { Encoding, HEXLOWER } from "../../bindings/javascript/src/index.js";

/** The encoding of a field of hexadecimal digits. */
export const DIGITS = new Encoding({
  symbols: "0123456789abcdef",
  ignore: " \n\t\r",
  translate: { from: "ABCDEF", to: "abcdef" },
});

const PAIR = /../g;

/** Returns the bytes in lines of `width` pairs. */
export function linesOf(bytes, width) {
  const lines = [];
  for (let at = 0; at < bytes.length; at += width) {
    lines.push(HEXLOWER.encode(bytes.subarray(at, at + width)).match(PAIR).join(" "));
  }
  return lines.join("\n");
}

const digitsIn = (line) => line.replace(/[^0-9a-f]/gi, "").length;

/** The address of the first byte of each line of a field, whatever the lines have. */
export function addressesOf(value) {
  let digits = 0;
  return value
    .split("\n")
    .map((line) => {
      const address = Math.floor(digits / 2).toString(16).padStart(8, "0");
      digits += digitsIn(line);
      return address;
    })
    .join("\n");
}

const printed = (byte) => (byte >= 32 && byte < 127 ? String.fromCharCode(byte) : ".");

/** The characters of each line of a field. */
export function charactersOf(value, bytes) {
  let digits = 0;
  return value
    .split("\n")
    .map((line) => {
      const from = Math.floor(digits / 2);
      digits += digitsIn(line);
      return Array.from(bytes.subarray(from, Math.floor(digits / 2)), printed).join("");
    })
    .join("\n");
}
