// The shades of a field: a copy of its text lies below it, and each run has a ground.

import { meant } from "./words.js";

/** The most runs with a shade. */
const MOST_RUNS = 5000;

/** Returns the rules for the shades of an encoding's texts. */
export function shadesOf({ ignore, padding, wrap }) {
  const ends = new Set(`\r\n${wrap?.separator ?? ""}`);
  const ignored = new Set(ignore);
  return (character) => {
    if (ignored.has(character)) {
      return ends.has(character) ? "end" : "ignored";
    }
    return character === padding ? "padding" : "";
  };
}

/** The positions of the text where a run of one shade begins, with the shade. A line feed is a run
 * of its own. */
function runsOf(text, shadeOf, fault) {
  const runs = [];
  let last;
  for (let at = 0; at < text.length && runs.length < MOST_RUNS; at++) {
    const isFault = fault !== null && at >= fault.from && at < fault.to;
    const shade = isFault ? "faulty" : shadeOf(meant(text[at]));
    const key = text[at] === "\n" && shade !== "" ? `${shade} feed` : shade;
    if (key !== last || text[at] === "\n") {
      runs.push({ at, key });
    }
    last = key;
  }
  return runs;
}

function run(text, key) {
  if (key === "") {
    return document.createTextNode(text);
  }
  const span = document.createElement("span");
  span.className = key;
  span.textContent = text;
  return span;
}

/**
 * Fills the element with the text in its shades.
 *
 * @param {HTMLElement} element
 * @param {string} text As a field shows it, of as many characters as it has.
 * @param {(character: string) => string} shadeOf
 * @param {{ from: number, to: number } | null} fault
 */
export function shade(element, text, shadeOf, fault) {
  const runs = runsOf(text, shadeOf, fault);
  const beyond = fault !== null && runs.length === MOST_RUNS && runs.at(-1).at < fault.from;
  const nodes = runs.map(({ at, key }, index) => {
    const end = index + 1 < runs.length ? runs[index + 1].at : beyond ? fault.from : text.length;
    return run(text.slice(at, end), key);
  });
  if (beyond) {
    nodes.push(run(text.slice(fault.from, fault.to), "faulty"), run(text.slice(fault.to), ""));
  }
  // The last line has a height, also where it is empty.
  element.replaceChildren(...nodes, "\u200b");
}
