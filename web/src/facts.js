// The facts of the eighteen.

/** The groups, and the document that states each encoding. */
export const GROUPS = [
  ["Hexadecimal", {
    HEXLOWER: "RFC 4648, section 8, in lower case",
    HEXLOWER_PERMISSIVE: "RFC 4648, section 8, in lower case",
    HEXUPPER: "RFC 4648, section 8",
    HEXUPPER_PERMISSIVE: "RFC 4648, section 8",
  }],
  ["Base32", {
    BASE32: "RFC 4648, section 6",
    BASE32_NOPAD: "RFC 4648, section 6",
    BASE32_NOPAD_NOCASE: "RFC 4648, section 6",
    BASE32_NOPAD_VISUAL: "RFC 4648, section 6",
    BASE32HEX: "RFC 4648, section 7",
    BASE32HEX_NOPAD: "RFC 4648, section 7",
    BASE32_DNSSEC: "RFC 5155, in lower case",
    BASE32_DNSCURVE: "DNSCurve",
  }],
  ["Base64", {
    BASE64: "RFC 4648, section 4",
    BASE64_NOPAD: "RFC 4648, section 4",
    BASE64_MIME: "RFC 2045, section 6.8",
    BASE64_MIME_PERMISSIVE: "RFC 2045, section 6.8",
    BASE64URL: "RFC 4648, section 5",
    BASE64URL_NOPAD: "RFC 4648, section 5",
  }],
];

const STATED = Object.assign({}, ...GROUPS.map(([, group]) => group));

/** Runs of characters that ascend by one, as `A-Z`. */
export function ranges(symbols) {
  const runs = [];
  for (const symbol of symbols) {
    const last = runs.at(-1);
    if (last !== undefined && symbol.charCodeAt(0) === last.at(-1).charCodeAt(0) + 1) {
      last.push(symbol);
    } else {
      runs.push([symbol]);
    }
  }
  return runs.map((run) => (run.length > 2 ? `${run[0]}-${run.at(-1)}` : run.join(""))).join("");
}

const yesOrNo = (holds) => (holds ? "yes" : "no");

/** Returns true if texts without lines sort as their data do: the symbols ascend, padding comes
 * before each, and the most significant bit comes first. */
function isOrdered({ symbols, padding, bitOrder }) {
  const row = [...(padding ?? ""), ...symbols];
  const ascends = row.every((it, at) => at === 0 || row[at - 1] < it);
  return ascends && bitOrder === "most-significant-first";
}

/** Returns the facts of an encoding as terms with texts. A text is code if the last is true. */
export function factsOf(encoding) {
  const asked = encoding.specification();
  const { symbols, padding, ignore, wrap, translate } = asked;
  const facts = [
    ["Stated by", STATED[encoding.name] ?? "you"],
    ["Symbols", ranges(symbols), true],
    ["Padding", padding ?? "none", padding !== null],
  ];
  if (wrap !== null) {
    facts.push(["Lines", `${wrap.width} characters, then ${JSON.stringify(wrap.separator)}`]);
  }
  if (ignore !== "") {
    facts.push(["Ignored", JSON.stringify(ignore), true]);
  }
  if (translate !== null) {
    facts.push(["Also reads", `${ranges(translate.from)} as ${ranges(translate.to)}`, true]);
  }
  facts.push(["Canonical", yesOrNo(encoding.isCanonical())]);
  if (wrap === null) {
    facts.push(["Ordered", yesOrNo(isOrdered(asked))]);
  }
  return facts;
}
