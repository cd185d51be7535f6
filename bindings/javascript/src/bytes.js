// Data and texts as the calls take them, and the strings that they return.

const getterOf = (prototype, name) => Object.getOwnPropertyDescriptor(prototype, name).get;

/** The getters of a length that refuse any object but a buffer, of this realm or of another. */
const BUFFER_LENGTHS = [getterOf(ArrayBuffer.prototype, "byteLength")];
if (typeof SharedArrayBuffer !== "undefined") {
  BUFFER_LENGTHS.push(getterOf(SharedArrayBuffer.prototype, "byteLength"));
}

function bufferLength(value) {
  for (const getter of BUFFER_LENGTHS) {
    try {
      return getter.call(value);
    } catch {
      // It is another kind of object.
    }
  }
  return undefined;
}

/** Returns the name of the type of a value. */
export function kindOf(value) {
  return value === null ? "null" : (value?.constructor?.name ?? typeof value);
}

/** Returns a view of the bytes with a fixed length, or undefined if the value has no bytes. */
function viewOf(value) {
  if (ArrayBuffer.isView(value)) {
    return new Uint8Array(value.buffer, value.byteOffset, value.byteLength);
  }
  const length = typeof value === "object" && value !== null ? bufferLength(value) : undefined;
  return length === undefined ? undefined : new Uint8Array(value, 0, length);
}

/** Returns a view of the bytes of a buffer, or of a view of one. */
export function bytesOf(value, what) {
  const view = viewOf(value);
  if (view === undefined) {
    throw new TypeError(`${what} has to be a buffer or a view of one, not ${kindOf(value)}`);
  }
  return view;
}

/** Returns a string, or a view of the bytes of a text. */
export function textOf(value) {
  if (typeof value === "string") {
    return value;
  }
  const view = viewOf(value);
  if (view === undefined) {
    throw new TypeError(
      `a text has to be a string, a buffer or a view of one, not ${kindOf(value)}`,
    );
  }
  return view;
}

const encoder = new TextEncoder();
const decoder = new TextDecoder();

/** Up to this length a loop over characters takes less time than a call of the platform. */
const SHORT = 16;

/** The byte of a character that is not ASCII. It is not a symbol. */
const NO_SYMBOL = 128;

function writeCharacters(text, output) {
  for (let at = 0; at < output.length; at++) {
    const unit = text.charCodeAt(at);
    output[at] = unit < 128 ? unit : NO_SYMBOL;
  }
}

/** Writes a byte for each character of the text to the output, which has the same length. */
export function writeText(text, output) {
  if (typeof text !== "string") {
    output.set(text);
  } else if (text.length <= SHORT) {
    writeCharacters(text, output);
  } else {
    const { read, written } = encoder.encodeInto(text, output);
    // A character that is not ASCII takes more bytes than it has units.
    if (read !== text.length || written !== text.length) {
      writeCharacters(text, output);
    }
  }
}

/** Returns the string of ASCII characters. */
export const stringOf = (bytes) =>
  bytes.length <= SHORT ? String.fromCharCode.apply(null, bytes) : decoder.decode(bytes);

/** Returns the bytes of a string. A character that is not ASCII has several, none of them ASCII. */
export const utf8 = (text) => encoder.encode(text);
