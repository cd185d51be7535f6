// The lines of other languages that make the same encoding.

const MOST_SIGNIFICANT_FIRST = "most-significant-first";

/** A character of a string in the quotes of a language. */
const escaped = (text, quote, other) =>
  Array.from(text, (it) => {
    if (it === quote || it === "\\") {
      return `\\${it}`;
    }
    return it >= " " && it <= "~" ? it : other(it.charCodeAt(0));
  }).join("");

const hex = (code) => code.toString(16).padStart(2, "0");
const SHORT = { 9: "\\t", 10: "\\n", 13: "\\r" };

const otherInRust = (code) => SHORT[code] ?? `\\x${hex(code)}`;
const inRust = (text) => `"${escaped(text, '"', otherInRust)}"`;
const inPython = inRust;
const inJavaScript = inRust;

/** In C the digits after `\x` have no end: three octal digits have. */
const octal = (code) => `\\${code.toString(8).padStart(3, "0")}`;
const otherInC = (code) => SHORT[code] ?? octal(code);
const inC = (text) => `"${escaped(text, '"', otherInC).replaceAll("?", "\\?")}"`;
const characterInC = (it) => `'${escaped(it, "'", otherInC)}'`;
const characterInRust = (it) => `'${escaped(it, "'", otherInRust)}'`;

function rust(asked) {
  const { symbols, padding, ignore, wrap, translate } = asked;
  const parts = [`let mut it = Specification::new(); it.symbols.push_str(${inRust(symbols)});`];
  if (padding !== null) {
    parts.push(`it.padding = Some(${characterInRust(padding)});`);
  }
  if (ignore !== "") {
    parts.push(`it.ignore.push_str(${inRust(ignore)});`);
  }
  if (wrap !== null) {
    parts.push(`it.wrap.width = ${wrap.width};`);
    parts.push(`it.wrap.separator.push_str(${inRust(wrap.separator)});`);
  }
  if (translate !== null) {
    parts.push(`it.translate.from.push_str(${inRust(translate.from)});`);
    parts.push(`it.translate.to.push_str(${inRust(translate.to)});`);
  }
  if (asked.bitOrder !== MOST_SIGNIFICANT_FIRST) {
    parts.push("it.bit_order = BitOrder::LeastSignificantFirst;");
  }
  if (!asked.checkTrailingBits) {
    parts.push("it.check_trailing_bits = false;");
  }
  return asked.concatenate
    ? [...parts, "let it = it.encoding().unwrap();"].join(" ")
    : "// A Specification of Rust has no field for texts that may not follow each other.";
}

function python(asked) {
  const { symbols, padding, ignore, wrap, translate } = asked;
  const words = [inPython(symbols)];
  if (padding !== null) {
    words.push(`padding=${inPython(padding)}`);
  }
  if (ignore !== "") {
    words.push(`ignore=${inPython(ignore)}`);
  }
  if (wrap !== null) {
    words.push(`wrap=(${wrap.width}, ${inPython(wrap.separator)})`);
  }
  if (translate !== null) {
    words.push(`translate=(${inPython(translate.from)}, ${inPython(translate.to)})`);
  }
  if (asked.bitOrder !== MOST_SIGNIFICANT_FIRST) {
    words.push("least_significant_first=True");
  }
  if (!asked.checkTrailingBits) {
    words.push("check_trailing_bits=False");
  }
  if (!asked.concatenate) {
    words.push("concatenate=False");
  }
  return `Encoding(${words.join(", ")})`;
}

function javaScript(asked) {
  const { symbols, padding, ignore, wrap, translate } = asked;
  const words = [`symbols: ${inJavaScript(symbols)}`];
  if (padding !== null) {
    words.push(`padding: ${inJavaScript(padding)}`);
  }
  if (ignore !== "") {
    words.push(`ignore: ${inJavaScript(ignore)}`);
  }
  if (wrap !== null) {
    words.push(`wrap: { width: ${wrap.width}, separator: ${inJavaScript(wrap.separator)} }`);
  }
  if (translate !== null) {
    const [from, to] = [translate.from, translate.to].map(inJavaScript);
    words.push(`translate: { from: ${from}, to: ${to} }`);
  }
  if (asked.bitOrder !== MOST_SIGNIFICANT_FIRST) {
    words.push(`bitOrder: "${asked.bitOrder}"`);
  }
  if (!asked.checkTrailingBits) {
    words.push("checkTrailingBits: false");
  }
  if (!asked.concatenate) {
    words.push("concatenate: false");
  }
  return `new Encoding({ ${words.join(", ")} })`;
}

function c(asked) {
  const { symbols, padding, ignore, wrap, translate } = asked;
  const parts = ["de_specification it = DE_SPECIFICATION;"];
  const field = (name, text) =>
    parts.push(`it.${name} = ${inC(text)};`, `it.${name}_len = ${text.length};`);
  field("symbols", symbols);
  if (padding !== null) {
    parts.push(`it.padding = ${characterInC(padding)};`);
  }
  if (ignore !== "") {
    field("ignore", ignore);
  }
  if (wrap !== null) {
    parts.push(`it.wrap_width = ${wrap.width};`);
    field("wrap_separator", wrap.separator);
  }
  if (translate !== null) {
    field("translate_from", translate.from);
    field("translate_to", translate.to);
  }
  if (asked.bitOrder !== MOST_SIGNIFICANT_FIRST) {
    parts.push("it.least_significant_first = true;");
  }
  if (!asked.checkTrailingBits) {
    parts.push("it.check_trailing_bits = false;");
  }
  if (!asked.concatenate) {
    parts.push("it.concatenate = false;");
  }
  return [...parts, "de_status status = de_encoding_new(&encoding, &it, NULL);"].join(" ");
}

/** The program has the eighteen alone: another encoding is one line of Python. */
function shell(asked, isDecoding) {
  const call = isDecoding ? "decode_stream" : "encode_stream";
  const program = [
    "import sys; from data_encoding import Encoding;",
    `${python(asked)}.${call}(sys.stdin.buffer, sys.stdout.buffer)`,
  ].join(" ");
  return `python3 -c '${program.replaceAll("'", "'\\''")}'`;
}

const ENCODING = (name) => [
  ["Rust", `data_encoding::${name}.encode(&data)`],
  ["Python", `data_encoding.${name}.encode(data)`],
  ["JavaScript", `${name}.encode(data)`],
  ["C", `de_encode(DE_${name}, data, len, text, sizeof text, &text_len)`],
  ["Shell", `basecode encode ${name}`],
];

const DECODING = (name) => [
  ["Rust", `data_encoding::${name}.decode(text.as_bytes())`],
  ["Python", `data_encoding.${name}.decode(text)`],
  ["JavaScript", `${name}.decode(text)`],
  ["C", `de_decode(DE_${name}, text, text_len, data, sizeof data, &decoded)`],
  ["Shell", `basecode decode ${name}`],
];

/** The lines of an encoding: the language, and the line, which encodes, decodes, or makes an
 * encoding that is none of the eighteen. */
export function linesOf(encoding, isDecoding) {
  const { name } = encoding;
  if (name !== null) {
    return (isDecoding ? DECODING : ENCODING)(name);
  }
  const asked = encoding.specification();
  return [
    ["Rust", rust(asked)],
    ["Python", python(asked)],
    ["JavaScript", javaScript(asked)],
    ["C", c(asked)],
    ["Shell", shell(asked, isDecoding)],
  ];
}
