// Times of calls of the package in nanoseconds, beside those of Node's Buffer. Each call is in a loop
// of its own, as in programs. For each the median is printed, and their ratio.
//
// usage: node calls.js DIR: where build.sh left the package

import { resolve } from "node:path";
import { pathToFileURL } from "node:url";

const { BASE64 } = await import(pathToFileURL(resolve(process.argv[2], "src/index.js")));

/** The median time of a call, over rounds of `count` calls. As many rounds come before. */
function timeOf(call, rounds, count) {
  const found = [];
  for (let round = 0; round < 2 * rounds; round++) {
    const began = process.hrtime.bigint();
    for (let time = 0; time < count; time++) {
      call();
    }
    found.push(Number(process.hrtime.bigint() - began) / count);
  }
  return found.slice(rounds).sort((one, other) => one - other)[rounds >> 1];
}

console.log("bytes: encode, Buffer, ratio; decode, Buffer, ratio");
for (const size of [16, 64, 1024, 65_536, 1 << 20]) {
  const data = Buffer.from(Uint8Array.from({ length: size }, (_, at) => at * 7 + (at >> 8)));
  const text = data.toString("base64");
  const rounds = size > 100_000 ? 101 : 201;
  const count = Math.max(1, Math.floor(40_000 / (size + 100)));
  const [encode, toString, decode, from] = [
    () => BASE64.encode(data),
    () => data.toString("base64"),
    () => BASE64.decode(text),
    () => Buffer.from(text, "base64"),
  ].map((call) => timeOf(call, rounds, count));
  const cell = (here, there) =>
    `${here.toFixed()} ${there.toFixed()} ${(here / there).toFixed(1)}`;
  console.log(`${size}: ${cell(encode, toString)}; ${cell(decode, from)}`);
}
