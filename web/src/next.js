// The encoding that may have been meant.

import { Encoding } from "../../bindings/javascript/src/index.js";
import { GROUPS } from "./facts.js";

/** Longer texts are not tried. */
const TRIED = 65_536;

const isDecodedBy = (encoding, text) => encoding.decodePartial(text).error === null;

/** Returns the name of another encoding of the same group that decodes the text, or undefined. */
export function nextOf({ name }, text) {
  const group = GROUPS.find(([, encodings]) => Object.hasOwn(encodings, name));
  if (group === undefined || text.length > TRIED) {
    return undefined;
  }
  return Object.keys(group[1]).find((it) => isDecodedBy(Encoding.named(it), text));
}
