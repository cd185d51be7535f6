// Uses of the declarations, for a compiler: nothing of this is run.

import {
  BASE64,
  DecodeError,
  type Data,
  Decoder,
  Encoder,
  Encoding,
  type Partial as PartialBefore,
  type PartialDecode,
  SpecificationError,
  version,
} from "../src/index.js";
import { DecoderStream, EncoderStream } from "../src/streams.js";

const text: string = BASE64.encode(new Uint8Array([1, 2, 3]));
const data: Uint8Array = BASE64.decode(text);
const shared: string = BASE64.encode(new SharedArrayBuffer(3));
const written: number = BASE64.encodeInto(data, new ArrayBuffer(8));
const partial: PartialDecode = BASE64.decodePartial(data);
const before: PartialBefore = partial;
const { error, read }: { error: DecodeError | null; read: number } = before;
const optional: Partial<PartialDecode> = { read };
const json: string | { symbols: string } = BASE64.toJSON();
const kind: "length" | "symbol" | "trailing" | "padding" | undefined = error?.kind;
const octal = new Encoding({ symbols: "01234567", wrap: { width: 8, separator: "\n" } });
const lines = new Encoding({ ...octal.specification(), wrap: [8, "\n"] });
const width: number | undefined = lines.specification().wrap?.width;
const found: Data = BASE64.decode("Zm9v");
// From TypeScript 5.9 on these refuse a view of shared memory.
const blob = new Blob([found, BASE64.layout, new Decoder(octal).finish()]);
const digest: Promise<ArrayBuffer> = crypto.subtle.digest("SHA-256", found);
const order: "most-significant-first" | "least-significant-first" = octal.specification().bitOrder;
const piece: string = new Encoder(octal).push(data) + new Encoder(octal).finish();
const bytes: Uint8Array = new Decoder(octal).push(piece);
const texts: ReadableStream<string> = new EncoderStream(octal).readable;
const parts: ReadableStream<Uint8Array> = texts.pipeThrough(new DecoderStream(octal));

// @ts-expect-error: a text is not data.
BASE64.encode("text");
// @ts-expect-error: there are no such fields.
new Encoding({ symbols: "01", ingore: " " });
// @ts-expect-error: an encoding never changes.
BASE64.name = "other";

export default [
  text, shared, written, optional, kind, json, width, blob, digest, order, bytes, parts, version,
  SpecificationError,
];
