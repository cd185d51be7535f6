// The side of the data: as UTF-8 text, or as hexadecimal digits with addresses.

import { decoded } from "./decoded.js";
import { DIGITS, addressesOf, charactersOf, linesOf } from "./hex.js";
import { Side } from "./side.js";
import { RETURN, characterAt, indexOf, sentenceOf, singled } from "./words.js";

const decoder = new TextDecoder("utf-8", { fatal: true, ignoreBOM: true });
const encoder = new TextEncoder();

const NOT_UTF8 = "These bytes are not UTF-8: they are shown in hex.";
const HAS_RETURN =
  `This text contains ${RETURN}, which means a carriage return in this field: it is shown in hex.`;

/** Returns the text of the data, or the reason why the field can't show it as text. */
function readText(data) {
  try {
    const text = decoder.decode(data);
    return text.includes(RETURN) ? { reason: HAS_RETURN } : { text };
  } catch {
    return { reason: NOT_UTF8 };
  }
}

/** The widths in characters from which a line has sixteen bytes and their characters, and from
 * which eight have theirs. */
const WIDE = 78;
const NARROW = 46;

export class DataSide extends Side {
  /**
   * @param {HTMLElement} section
   * @param {{ changed(data: Uint8Array): void, opened(file: File): void, saved(): void }} events
   */
  constructor(section, events) {
    super(section, {
      typed: (value) => this.#typed(value),
      opened: events.opened,
      saved: events.saved,
      cleared: () => {
        this.show(new Uint8Array());
        events.changed(this.data);
      },
    });
    this.changed = events.changed;
    this.data = new Uint8Array();
    this.addresses = section.querySelector(".addresses");
    this.characters = section.querySelector(".characters");
    this.views = [...section.querySelectorAll("[name=view]")];
    this.chosen = "text";
    for (const view of this.views) {
      view.addEventListener("change", () => {
        this.chosen = view.value;
        this.show(this.data);
      });
    }
    this.area.addEventListener("blur", () => this.#tidy());
    // The height changes with the lines, which depend on the width alone.
    new ResizeObserver(([{ contentRect }]) => {
      if (contentRect.width !== this.width) {
        this.width = contentRect.width;
        this.#tidy();
      }
    }).observe(section);
  }

  get isHex() {
    return this.views.some((it) => it.checked && it.value === "hex");
  }

  /** How many characters of the field have room beside each other. */
  #columns() {
    const probe = document.createElement("span");
    probe.textContent = "0".repeat(100);
    this.characters.append(probe);
    const { width } = probe.getBoundingClientRect();
    probe.remove();
    return width === 0 ? WIDE : (this.field.clientWidth * 100) / width;
  }

  #typed(value) {
    this.note.textContent = "";
    if (this.isHex) {
      const { data, error } = decoded(DIGITS, singled(value));
      this.data = data;
      this.#describe();
      this.#showDigitFault(error, value);
    } else {
      this.data = encoder.encode(value);
      this.#describe();
      this.showFault(null, null);
    }
    this.changed(this.data);
  }

  #showDigitFault(error, value) {
    if (error === null) {
      this.showFault(null, null);
    } else if (error.kind === "length") {
      const sentence = { words: "The last digit is half of a byte" };
      this.showFault(sentence, { from: value.trimEnd().length - 1, to: value.trimEnd().length });
    } else {
      const from = indexOf(value, error.position);
      const character = characterAt(value, from);
      const sentence = sentenceOf(error, "hexadecimal digits", character, value.length);
      this.showFault(sentence, { from, to: from + character.length });
    }
  }

  /** Shows other data in the chosen view, or in hex if the field can't show it as text. */
  show(data) {
    this.data = data;
    const { text, reason } = this.chosen === "text" ? readText(data) : {};
    const isHex = text === undefined;
    for (const view of this.views) {
      view.checked = (view.value === "hex") === isHex;
    }
    this.note.textContent = reason ?? "";
    this.field.classList.toggle("hex", isHex);
    this.addresses.hidden = !isHex;
    this.characters.hidden = !isHex;
    if (isHex) {
      this.#showLines();
    } else {
      this.text = text;
    }
    this.showFault(null, null);
    this.#describe();
  }

  #showLines() {
    const columns = this.#columns();
    this.characters.hidden = columns < NARROW;
    this.text = linesOf(this.data, columns >= WIDE ? 16 : 8);
  }

  /** Goes to the fault. The part that is then shown may be another. */
  go() {
    const went = super.go();
    this.#describe();
    return went;
  }

  /** Lays out the lines of digits again, if they are valid, all shown, and nothing is typed. */
  #tidy() {
    const { area, mark } = this;
    if (this.isHex && mark === null && !area.readOnly && document.activeElement !== area) {
      this.#showLines();
      this.paint();
      this.#describe();
    }
  }

  #describe() {
    this.size.textContent = `${this.data.length} byte${this.data.length === 1 ? "" : "s"}`;
    if (this.isHex) {
      // They are known from the front on.
      const value = this.offset === 0 ? this.area.value : "";
      this.addresses.textContent = addressesOf(value);
      this.characters.textContent = charactersOf(value, this.data);
    }
  }
}
