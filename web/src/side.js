// A side of the page: a field with shades, its size, its fault and its buttons.

import { shade } from "./shades.js";
import { shown, meant } from "./words.js";

/** Has the reader of the screen say it, and clears it after. */
export function say(text) {
  document.querySelector("#said").textContent = text;
}

/** Offers a blob as a file. */
export function download(blob, name) {
  const link = document.createElement("a");
  link.href = URL.createObjectURL(blob);
  link.download = name;
  link.click();
  // The download begins later.
  setTimeout(() => URL.revokeObjectURL(link.href), 60_000);
}

const noShade = () => "";

/** In a longer text nothing is marked: the copy of it that has the shades takes longer to lay out
 * than the text itself. index.html has the number. */
const SHADED = 65_536;

/** Of a longer text only a part is shown, which can't be edited: the browser takes seconds to lay out
 * megabytes. */
const PART = 1 << 18;

/** The pause in typing after which a text longer than that is converted, in milliseconds: in a
 * mebibyte a conversion takes a second. */
const PAUSE = 300;

export class Side {
  /** The timer of a text that waits for a pause in typing. */
  #waiting;

  /** The text, if only a part of it is shown, and the index of the part. */
  #whole;
  offset = 0;

  /**
   * @param {HTMLElement} section
   * @param {{ typed(value: string): void, opened(file: File): void, cleared(): void,
   *   saved(): void }} events Called when something is typed, when a file is opened or
   *   dropped, and by the buttons.
   */
  constructor(section, events) {
    const find = (selector) => section.querySelector(selector);
    this.section = section;
    this.field = find(".field");
    this.area = find("textarea");
    this.shades = find(".shades");
    this.size = find(".size");
    this.note = find(".note");
    this.unshaded = find(".unshaded");
    this.cut = find(".cut");
    this.taken = find(".taken");
    this.fault = find(".fault");
    this.goButton = find(".go");
    this.mark = null;
    this.shadeOf = noShade;
    this.typed = events.typed;
    this.area.addEventListener("input", () => {
      this.taken.textContent = "";
      this.#stopWaiting();
      if (this.area.value.length > PART) {
        this.replace(this.text);
      } else if (this.area.value.length > SHADED) {
        this.#waiting = setTimeout(() => this.settle(), PAUSE);
      } else {
        this.typed(this.text);
      }
    });
    this.area.addEventListener("blur", () => this.settle());
    this.goButton.addEventListener("click", () => this.go());
    this.#takeFiles(events.opened, find(".file"), find(".open"));
    this.#keepReturns();
    find(".copy").addEventListener("click", () => this.copy());
    find(".save").addEventListener("click", events.saved);
    find(".clear").addEventListener("click", () => {
      this.taken.textContent = "";
      events.cleared();
      this.area.focus();
    });
  }

  /** A file is chosen, dropped or pasted. */
  #takeFiles(opened, input, button) {
    const take = (files) => {
      if (files.length > 0) {
        this.taken.textContent =
          files.length > 1 ? `Of ${files.length} files one was taken: ${files[0].name}` : "";
        opened(files[0]);
      }
    };
    button.addEventListener("click", () => input.click());
    input.addEventListener("change", () => {
      take(input.files);
      input.value = "";
    });
    const isOver = (event, over) => {
      if (event.dataTransfer?.types.includes("Files")) {
        event.preventDefault();
        this.section.classList.toggle("over", over);
      }
    };
    this.section.addEventListener("dragover", (event) => isOver(event, true));
    this.section.addEventListener("dragleave", (event) => isOver(event, false));
    this.section.addEventListener("drop", (event) => {
      isOver(event, false);
      take(event.dataTransfer?.files ?? []);
    });
    this.area.addEventListener("paste", (event) => {
      if (event.clipboardData.files.length > 0) {
        event.preventDefault();
        take(event.clipboardData.files);
      }
    });
  }

  /** A field takes a carriage return for the end of a line. The clipboard keeps it. */
  #keepReturns() {
    this.area.addEventListener("paste", (event) => {
      const text = event.clipboardData.getData("text/plain");
      if (text.length > PART && !event.defaultPrevented) {
        const [from, to] = this.selection;
        event.preventDefault();
        this.replace(this.text.slice(0, from) + text + this.text.slice(to));
      } else if (text.includes("\r") && !event.defaultPrevented) {
        event.preventDefault();
        document.execCommand("insertText", false, shown(text));
      }
    });
    for (const kind of ["copy", "cut"]) {
      this.area.addEventListener(kind, (event) => {
        const { selectionStart, selectionEnd, value } = this.area;
        const selected = value.slice(selectionStart, selectionEnd);
        event.preventDefault();
        // All that is shown stands for the whole text.
        event.clipboardData.setData("text/plain", selected === value ? this.text : meant(selected));
        if (kind === "cut") {
          document.execCommand("delete");
        }
      });
    }
  }

  /** The text of the field, with its carriage returns. */
  get text() {
    return this.#whole ?? meant(this.area.value);
  }

  set text(text) {
    this.#stopWaiting();
    this.#whole = text.length > PART ? text : undefined;
    this.#showFrom(0, text);
  }

  /** The first and the last index of the selection, in the whole text. */
  get selection() {
    const { selectionStart, selectionEnd } = this.area;
    return [selectionStart + this.offset, selectionEnd + this.offset];
  }

  /** Shows the text, or a part of a long one from an index on. */
  #showFrom(index, text = this.#whole) {
    const isCut = this.#whole !== undefined;
    const end = Math.min(index + PART, text.length);
    this.offset = index;
    this.area.value = shown(isCut ? text.slice(index, end) : text);
    this.area.readOnly = isCut;
    this.cut.hidden = !isCut;
    this.cut.textContent = isCut
      ? `Characters ${index} to ${end} of ${text.length} are shown, and can't be edited.`
      : "";
  }

  /** Takes another text, as if it had been typed. */
  replace(text) {
    this.taken.textContent = "";
    this.text = text;
    this.typed(this.text);
  }

  #stopWaiting() {
    clearTimeout(this.#waiting);
    this.#waiting = undefined;
  }

  /** Converts the text if it waits for a pause in typing. */
  settle() {
    if (this.#waiting !== undefined) {
      this.#stopWaiting();
      this.typed(this.text);
    }
  }

  /** Shows the fault of the field, or that there is none. */
  showFault(sentence, mark) {
    this.mark = mark;
    this.fault.replaceChildren();
    if (sentence !== null) {
      const { words, word, character, after } = sentence;
      this.fault.append(word === undefined ? words : `${words}: ${word}`);
      if (character !== undefined) {
        const code = document.createElement("code");
        code.textContent = character;
        this.fault.append(": ", code);
      }
      this.fault.append(after ?? "");
    }
    this.field.classList.toggle("faulty", sentence !== null);
    this.area.setAttribute("aria-invalid", String(sentence !== null));
    this.goButton.hidden = mark === null;
    this.paint();
  }

  paint() {
    const { value } = this.area;
    const isLong = value.length > SHADED;
    const isCut = this.area.readOnly;
    // Beside lines of digits are their addresses, which have the same height.
    this.field.classList.toggle("long", isLong && !this.field.classList.contains("hex"));
    this.unshaded.hidden = !isLong || isCut;
    shade(this.shades, isLong ? "" : value, this.shadeOf, isLong ? null : this.mark);
  }

  /** Goes to the fault. Returns false if there is none. */
  go() {
    this.settle();
    if (this.mark === null) {
      return false;
    }
    const { from, to } = this.#markShown();
    this.area.focus({ preventScroll: true });
    this.area.setSelectionRange(from, Math.min(to, from + 1));
    const faulty = this.shades.querySelector(".faulty");
    if (faulty !== null) {
      faulty.scrollIntoView({ block: "center", inline: "nearest" });
    } else {
      this.#scrollTo(from);
    }
    return true;
  }

  /** Returns the mark as indexes of the field, which shows the part of the text that has it. */
  #markShown() {
    const { from, to } = this.mark;
    if (this.#whole !== undefined && (from < this.offset || from >= this.offset + PART)) {
      this.#showFrom(Math.max(0, Math.min(from - PART / 2, this.#whole.length - PART)));
    }
    return { from: from - this.offset, to: to - this.offset };
  }

  /** Scrolls a field without shades: the text before the position is laid out once. */
  #scrollTo(position) {
    const { area, field, shades } = this;
    const scrolled = field.classList.contains("long") ? area : field;
    shades.style.width = `${area.clientWidth}px`;
    shades.textContent = area.value.slice(0, position);
    const height = shades.scrollHeight;
    shades.style.width = "";
    this.paint();
    scrolled.scrollTop = height - scrolled.clientHeight / 2;
  }

  async copy() {
    try {
      await navigator.clipboard.writeText(this.text);
    } catch {
      // The page may be a file, or the browser may ask for a gesture of its own.
      this.area.select();
      document.execCommand("copy");
    }
    say("copied");
  }
}
