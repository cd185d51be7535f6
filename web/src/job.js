// A file that is converted in pieces, so that it may have any length.

import { DecodeError, Decoder, Encoder } from "../../bindings/javascript/src/index.js";
import { download } from "./side.js";
import { blankOf, blankSentence, characterAt, sentenceOf, sized } from "./words.js";

/** The number of bytes that are read at a time. */
const PIECE = 1 << 20;

/** The number of pieces that are joined: the browser may keep a joined one on a disk. */
const JOINED = 16;

/** The result, in parts. */
class Output {
  #parts = [];
  #joined = [];

  add(part) {
    this.#parts.push(part);
    if (this.#parts.length === JOINED) {
      this.#joined.push(new Blob(this.#parts));
      this.#parts = [];
    }
  }

  get blob() {
    return new Blob([...this.#joined, ...this.#parts]);
  }
}

const decoder = new TextDecoder("utf-8", { ignoreBOM: true });

/** Returns a part of a file as text, with a byte order mark if it has one. */
async function textOf(file, from, to) {
  return decoder.decode(await file.slice(from, to).arrayBuffer());
}

/** The number of characters before a fault that are shown, and after it. */
const AROUND = 24;

/** Returns the text before a fault, the faulty character, and the text after it. */
async function around(file, position) {
  const from = Math.max(0, position - AROUND);
  const text = await textOf(file, from, position + AROUND);
  const at = position - from;
  const character = characterAt(text, at);
  return [text.slice(0, at), character, text.slice(at + character.length)];
}

/** The length of a byte order mark, which is longer than a line end. */
const BLANK = 3;

/**
 * Returns the sentence of a fault that is a blank, or undefined. An invalid length may be due to a
 * blank at the start of the text or at its end.
 */
async function ofBlank({ kind, position }, file, encoding) {
  for (const from of kind === "length" ? [0, Math.max(0, file.size - BLANK)] : [position]) {
    const text = await textOf(file, from, from + BLANK);
    const at = blankOf({ kind, position: 0 }, text, encoding);
    if (at !== undefined) {
      return blankSentence(from + at, text[at], encoding);
    }
  }
  return undefined;
}

export class Job {
  #abort = null;

  /** The name of the file that is being converted, or null. */
  #running = null;

  /** @param {HTMLElement} section */
  constructor(section) {
    const find = (selector) => section.querySelector(selector);
    this.section = section;
    this.what = find(".what");
    this.bar = find("progress");
    this.pace = find(".pace");
    this.fault = find(".fault");
    this.around = find(".around");
    this.done = find(".done");
    this.stopButton = find(".stop");
    this.saveButton = find(".save");
    this.closeButton = find(".close");
    this.stopButton.addEventListener("click", () => this.#abort?.abort());
    this.saveButton.addEventListener("click", () => download(this.blob, this.name));
    this.closeButton.addEventListener("click", () => {
      this.section.hidden = true;
      this.blob = null;
    });
  }

  /** Encodes a file. */
  encode(file, encoding) {
    const words = `Encoding ${file.name} by ${encoding.name ?? "your own encoding"}`;
    return this.#run(file, new Encoder(encoding), words, `${file.name}.txt`, encoding);
  }

  /** Decodes a file. */
  decode(file, encoding) {
    const words = `Decoding ${file.name} by ${encoding.name ?? "your own encoding"}`;
    const name = file.name.replace(/\.txt$/i, "");
    const full = name.includes(".") && name !== file.name ? name : `${name}.bin`;
    return this.#run(file, new Decoder(encoding), words, full, encoding);
  }

  #begin(words, file, name) {
    this.#abort?.abort();
    this.#abort = new AbortController();
    const stopped = this.#running === null ? "" : `; ${this.#running} was stopped for it`;
    this.#running = file.name;
    this.name = name;
    this.blob = null;
    this.section.hidden = false;
    this.what.textContent = `${words}: ${sized(file.size)}${stopped}`;
    this.bar.max = Math.max(1, file.size);
    this.bar.value = 0;
    this.pace.textContent = "";
    this.fault.textContent = "";
    this.around.hidden = true;
    this.done.textContent = "";
    this.stopButton.hidden = false;
    this.saveButton.hidden = true;
    this.closeButton.hidden = true;
    this.section.scrollIntoView({ block: "nearest" });
    return this.#abort.signal;
  }

  /** How far it came, and how fast. */
  #show(file, at, began) {
    const seconds = Math.max((performance.now() - began) / 1000, 0.001);
    this.bar.value = at;
    this.pace.textContent = `${sized(at)} of ${sized(file.size)}, ${sized(at / seconds)} a second`;
  }

  async #run(file, converter, words, name, encoding) {
    const signal = this.#begin(words, file, name);
    const output = new Output();
    const began = performance.now();
    try {
      for (let at = 0; at < file.size; at += PIECE) {
        const piece = await file.slice(at, at + PIECE).arrayBuffer();
        signal.throwIfAborted();
        output.add(converter.push(piece));
        this.#show(file, Math.min(at + PIECE, file.size), began);
      }
      output.add(converter.finish());
      this.#show(file, file.size, began);
      this.#end(output, "Done");
    } catch (error) {
      await this.#failed(error, signal, file, output, encoding);
    }
  }

  #end(output, words) {
    this.#running = null;
    this.blob = output.blob;
    this.done.textContent = `${words}: ${sized(this.blob.size)}`;
    this.stopButton.hidden = true;
    this.saveButton.hidden = false;
    this.closeButton.hidden = false;
  }

  async #failed(error, signal, file, output, encoding) {
    if (signal.aborted) {
      if (signal === this.#abort.signal) {
        this.#end(output, "Stopped, after");
        this.saveButton.hidden = true;
      }
      return;
    }
    if (error instanceof DecodeError) {
      output.add(error.data);
      await this.#showFault(error, file, encoding);
      this.#end(output, "Decoded before it");
      return;
    }
    this.fault.textContent = `The file was not read: ${error.message}`;
    this.#end(output, "Converted before that");
    this.saveButton.hidden = true;
  }

  async #showFault(error, file, encoding) {
    const [before, character, after] = await around(file, error.position);
    const { words, word, character: named } =
      (await ofBlank(error, file, encoding)) ??
      sentenceOf(error, encoding.name ?? "your own encoding", character, file.size);
    this.fault.textContent = [words, word ?? named].filter((it) => it !== undefined).join(": ");
    const mark = document.createElement("span");
    mark.className = "faulty";
    mark.textContent = character;
    this.around.replaceChildren(before, mark, after);
    this.around.hidden = false;
  }
}
