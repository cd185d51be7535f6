// The encoding in the address of the page, after `#`. The data is never there.

import { Encoding } from "../../bindings/javascript/src/index.js";

/** The fields of the form as it begins. */
export const FIRST = Object.freeze({
  symbols: "01234567",
  padding: "=",
  ignore: "",
  width: "",
  separator: "",
  from: "",
  to: "",
  order: false,
  check: true,
  concatenate: true,
});

const RULES = ["order", "check", "concatenate"];

/** Returns the name of an encoding or the fields of the form that an address has, or undefined if
 * it has neither. */
export function read(hash) {
  const words = hash.replace(/^#/, "");
  if (Encoding.names().includes(words)) {
    return { name: words };
  }
  const given = new URLSearchParams(words);
  if (!given.has("symbols")) {
    return undefined;
  }
  const fields = { ...FIRST };
  for (const name of Object.keys(FIRST)) {
    const isRule = RULES.includes(name);
    const value = given.get(name) ?? (isRule ? String(FIRST[name]) : "");
    fields[name] = isRule ? value === "true" : value;
  }
  return { fields };
}

/** The address of the fields of the form: those that say something. */
export function ofFields(fields) {
  const said = Object.entries(fields).filter(([name, value]) =>
    RULES.includes(name) ? value !== FIRST[name] : value !== "" || name === "symbols",
  );
  return `#${new URLSearchParams(said)}`;
}

export const ofName = (name) => `#${name}`;
