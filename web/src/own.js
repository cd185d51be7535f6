// The form of an encoding of one's own.

import { Encoding, SpecificationError } from "../../bindings/javascript/src/index.js";
import { FIRST } from "./address.js";

const ESCAPES = { n: "\n", r: "\r", t: "\t", "\\": "\\" };

/** Returns the characters of a field, where `\n`, `\r`, `\t`, `\\` and `\x7f` are escapes. */
export function unescaped(value) {
  return value.replace(/\\(?:x([0-9a-f]{2})|([nrt\\]))/gi, (whole, hex, letter) =>
    hex !== undefined ? String.fromCharCode(parseInt(hex, 16)) : (ESCAPES[letter] ?? whole),
  );
}

const LETTERS = { "\n": "\\n", "\r": "\\r", "\t": "\\t", "\\": "\\\\" };

/** Returns the characters as a field has them: the others than printed ones are escapes. */
function escaped(characters) {
  return characters.replace(/[\\\x00-\x1f\x7f]/g, (character) =>
    LETTERS[character] ?? `\\x${character.charCodeAt(0).toString(16).padStart(2, "0")}`,
  );
}

/** Returns the fields of the form for a specification. */
export function fieldsOf(specification) {
  const { symbols, padding, ignore, wrap, translate } = specification;
  return {
    symbols: escaped(symbols),
    padding: escaped(padding ?? ""),
    // The characters of the separator are ignored by themselves.
    ignore: escaped([...ignore].filter((it) => !wrap?.separator.includes(it)).join("")),
    width: wrap === null ? "" : String(wrap.width),
    separator: escaped(wrap?.separator ?? ""),
    from: escaped(translate?.from ?? ""),
    to: escaped(translate?.to ?? ""),
    order: specification.bitOrder === "least-significant-first",
    check: specification.checkTrailingBits,
    concatenate: specification.concatenate,
  };
}

/** A field with a fault of its own, before it is checked with the others. */
class FieldError extends Error {
  constructor(field, message) {
    super(message);
    this.field = field;
  }
}

function paddingOf(value) {
  const padding = unescaped(value);
  if ([...padding].length > 1) {
    throw new FieldError("padding", "Padding is one character.");
  }
  return padding === "" ? null : padding;
}

function widthOf(value) {
  if (!/^\d*$/.test(value.trim())) {
    throw new FieldError("wrap", "The characters of a line are a number.");
  }
  return Number(value);
}

/** The specification that the fields of the form ask for. */
export function specificationOf(fields) {
  return {
    symbols: unescaped(fields.symbols),
    padding: paddingOf(fields.padding),
    ignore: unescaped(fields.ignore),
    wrap: { width: widthOf(fields.width), separator: unescaped(fields.separator) },
    translate: { from: unescaped(fields.from), to: unescaped(fields.to) },
    bitOrder: fields.order ? "least-significant-first" : "most-significant-first",
    checkTrailingBits: fields.check,
    concatenate: fields.concatenate,
  };
}

const named = (character) => JSON.stringify(character);

const REFUSALS = {
  "symbol-count": (_, { symbols }) =>
    `2, 4, 8, 16, 32 or 64 symbols are needed, and these are ${[...symbols].length}.`,
  "not-ascii": () => "A character is not ASCII.",
  duplicate: (character) => `${named(character)} has two meanings.`,
  "extra-padding": () => "No text of 2, 4 or 16 symbols needs padding.",
  "wrap-length": () => "A line and what comes after it have at most 255 characters.",
  "wrap-width": (multiple) => `A line has a multiple of ${multiple} characters.`,
  "translate-length": () => "Both fields need the same number of characters.",
  undefined: (character) => `${named(character)} has no meaning.`,
};

/** Returns the encoding of the fields, or the field with a fault, and the fault. */
export function encodingOf(fields) {
  try {
    const specification = specificationOf(fields);
    try {
      return { encoding: new Encoding(specification) };
    } catch (error) {
      if (!(error instanceof SpecificationError)) {
        throw error;
      }
      const message = REFUSALS[error.kind](error.detail, specification);
      return { fault: { field: error.field, message } };
    }
  } catch (error) {
    if (!(error instanceof FieldError)) {
      throw error;
    }
    return { fault: { field: error.field, message: error.message } };
  }
}

/** The inputs that a fault of a field belongs to. */
const INPUTS = {
  symbols: ["symbols"],
  padding: ["padding"],
  ignore: ["ignore"],
  wrap: ["width", "separator"],
  translate: ["from", "to"],
};

/** The form on the page. */
export class OwnForm {
  /**
   * @param {HTMLFormElement} form
   * @param {() => void} changed Called when a field changes.
   */
  constructor(form, changed) {
    this.form = form;
    form.addEventListener("input", changed);
    form.addEventListener("submit", (event) => event.preventDefault());
    this.fields = FIRST;
  }

  #input(name) {
    return this.form.querySelector(`#own-${name}`);
  }

  get fields() {
    const entries = Object.keys(FIRST).map((name) => {
      const input = this.#input(name);
      return [name, input.type === "checkbox" ? input.checked : input.value];
    });
    return Object.fromEntries(entries);
  }

  set fields(values) {
    for (const [name, value] of Object.entries(values)) {
      const input = this.#input(name);
      if (input.type === "checkbox") {
        input.checked = value;
      } else {
        input.value = value;
      }
    }
  }

  /** Shows a fault at its field, and none at the others. */
  show(fault) {
    for (const [field, inputs] of Object.entries(INPUTS)) {
      const isHere = fault?.field === field;
      this.form.querySelector(`#own-${field}-fault`).textContent = isHere ? fault.message : "";
      for (const name of inputs) {
        this.#input(name).setAttribute("aria-invalid", String(isHere));
      }
    }
  }
}
