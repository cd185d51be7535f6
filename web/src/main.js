// The page: which encoding it has, and which side was typed in last.

import { Encoding } from "../../bindings/javascript/src/index.js";
import { FIRST, ofFields, ofName, read } from "./address.js";
import { DataSide } from "./data.js";
import { decoded } from "./decoded.js";
import { linesOf } from "./elsewhere.js";
import { GROUPS, factsOf } from "./facts.js";
import { Job } from "./job.js";
import { nextOf } from "./next.js";
import { OwnForm, encodingOf, fieldsOf } from "./own.js";
import { shadesOf } from "./shades.js";
import { Side, download, say } from "./side.js";
import {
  blankOf, blankSentence, characterAt, characters, headOf, indexOf, sentenceOf, singled,
  unknownSentence, withNext,
} from "./words.js";

/** A file up to this length is shown, and any other converted in pieces. */
const SHOWN = 1 << 18;

const OWN = "own";
const find = (selector) => document.querySelector(selector);
const choice = find("#encoding");

let encoding = Encoding.named("BASE64");
let isTextLast = false;

const nameOf = () => encoding.name ?? "your own encoding";

/** The side that was typed in last decides if the lines of other languages encode or decode. */
function setTextLast(isText) {
  if (isTextLast !== isText) {
    isTextLast = isText;
    showLines();
  }
}

const data = new DataSide(find("#data"), {
  changed: () => {
    setTextLast(false);
    encode();
  },
  opened: (file) => openData(file),
  saved: () => download(new Blob([data.data]), "data.bin"),
});

const text = new Side(find("#text"), {
  typed: () => {
    setTextLast(true);
    decode();
  },
  opened: (file) => openText(file),
  saved: () => download(new Blob([text.text]), "text.txt"),
  cleared: () => {
    text.text = "";
    setTextLast(true);
    decode();
  },
});

const job = new Job(find("#job"));
const form = new OwnForm(find("#own"), () => takeOwn());

/** Returns the part of the text to mark: one character, or from the position to the end. */
function markOf(value, position, isToEnd) {
  const from = indexOf(value, position);
  return { from, to: isToEnd ? value.length : from + characterAt(value, from).length };
}

function encode() {
  text.text = encoding.encode(data.data);
  text.showFault(null, null);
  text.size.textContent = characters(text.text.length);
}

function decode() {
  const value = text.text;
  const single = singled(value);
  const { data: found, error } = decoded(encoding, single);
  data.show(found);
  text.size.textContent = characters(single.length);
  if (error === null) {
    text.showFault(null, null);
    return;
  }
  const head = headOf(single);
  if (head !== undefined) {
    text.showFault({ words: head.words }, { from: 0, to: head.length });
    return;
  }
  const blank = blankOf(error, single, encoding);
  if (blank !== undefined) {
    text.showFault(blankSentence(blank, single[blank], encoding), markOf(value, blank, false));
    return;
  }
  const { kind, position } = error;
  const character = characterAt(value, indexOf(value, position));
  const sentence = withNext(
    sentenceOf(error, nameOf(), character, single.length), nextOf(encoding, single),
  );
  // At the end of a text the last character is marked.
  const marked = Math.min(position, single.length - 1);
  text.showFault(sentence, value === "" ? null : markOf(value, marked, kind === "length"));
}

/** Converts the side that was typed in last. */
function convert() {
  if (isTextLast) {
    decode();
  } else {
    encode();
  }
}

function termOf([term, said, isCode]) {
  const group = document.createElement("div");
  const name = document.createElement("dt");
  const value = document.createElement("dd");
  const content = document.createElement(isCode ? "code" : "span");
  name.textContent = term;
  content.textContent = said;
  value.append(content);
  group.append(name, value);
  return group;
}

function lineOf([language, line]) {
  const name = document.createElement("dt");
  const value = document.createElement("dd");
  const code = document.createElement("code");
  const button = document.createElement("button");
  name.textContent = language;
  code.textContent = line;
  button.type = "button";
  button.textContent = "Copy";
  button.setAttribute("aria-label", `Copy the line of ${language}`);
  button.addEventListener("click", () => copyLine(code));
  value.append(code, button);
  return [name, value];
}

async function copyLine(code) {
  try {
    await navigator.clipboard.writeText(code.textContent);
  } catch {
    getSelection().selectAllChildren(code);
    document.execCommand("copy");
  }
  say("copied");
}

function showLines() {
  find("#lines dl").replaceChildren(...linesOf(encoding, isTextLast).flatMap(lineOf));
}

/** Takes another encoding. */
function take(other) {
  encoding = other;
  text.shadeOf = shadesOf(encoding.specification());
  find("#facts").replaceChildren(...factsOf(encoding).map(termOf));
  showLines();
  convert();
}

/** Shows the sides and the facts if there is an encoding. */
function setUsable(isUsable) {
  find("#sides").inert = !isUsable;
  find("#facts").hidden = !isUsable;
  find("#lines").hidden = !isUsable;
}

/** Takes the encoding of the form, or shows the fault of a field. */
function takeOwn() {
  const { encoding: made, fault } = encodingOf(form.fields);
  form.show(fault);
  setUsable(made !== undefined);
  history.replaceState(null, "", ofFields(form.fields));
  if (made !== undefined) {
    take(made);
  }
}

/** Takes the encoding that is chosen in the list. */
function choose() {
  const isOwn = choice.value === OWN;
  find("#own").hidden = !isOwn;
  find("#unknown").hidden = true;
  if (isOwn) {
    // It begins with the encoding that was chosen before.
    form.fields = fieldsOf(encoding.specification());
    takeOwn();
  } else {
    setUsable(true);
    history.replaceState(null, "", ofName(choice.value));
    take(Encoding.named(choice.value));
  }
}

/** Says that no encoding has the name in the address, if it has one. */
function showUnknown(isUnknown) {
  const unknown = find("#unknown");
  unknown.hidden = !isUnknown;
  unknown.textContent = isUnknown
    ? unknownSentence(location.hash.slice(1), Encoding.names(), nameOf())
    : "";
}

/** Takes the encoding of the address. */
function readAddress() {
  const found = read(location.hash);
  const said = found ?? { name: "BASE64" };
  choice.value = said.name ?? OWN;
  form.fields = said.fields ?? FIRST;
  find("#own").hidden = said.fields === undefined;
  if (said.fields === undefined) {
    setUsable(true);
    take(Encoding.named(said.name));
  } else {
    takeOwn();
  }
  showUnknown(found === undefined && location.hash.length > 1);
}

async function openData(file) {
  if (file.size > SHOWN) {
    await job.encode(file, encoding);
    return;
  }
  data.show(new Uint8Array(await file.arrayBuffer()));
  setTextLast(false);
  encode();
}

const decoder = new TextDecoder("utf-8", { ignoreBOM: true });

async function openText(file) {
  if (file.size > SHOWN) {
    await job.decode(file, encoding);
    return;
  }
  text.text = decoder.decode(await file.arrayBuffer());
  setTextLast(true);
  decode();
}

function fillChoice() {
  for (const [name, group] of GROUPS) {
    const options = document.createElement("optgroup");
    options.label = name;
    options.append(...Object.keys(group).map((it) => new Option(it)));
    choice.append(options);
  }
  choice.append(new Option("your own", OWN));
}

fillChoice();
data.show(new Uint8Array());
choice.addEventListener("change", choose);
addEventListener("hashchange", readAddress);
document.addEventListener("keydown", (event) => {
  if (event.key === "F8" && (text.go() || data.go())) {
    event.preventDefault();
  }
});
for (const kind of ["dragover", "drop"]) {
  // A file that misses a side does not take the place of the page.
  addEventListener(kind, (event) => event.preventDefault());
}
readAddress();
