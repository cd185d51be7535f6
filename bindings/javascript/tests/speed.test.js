// How many times the time of Node's Buffer a call on long data takes.

import assert from "node:assert/strict";
import test from "node:test";

import { BASE64 } from "../src/index.js";
import { bytes } from "./common.js";

/** Half as much again as is measured. By lanes, which are taken apart, a module takes over 20. */
const MOST = 12;

const ROUNDS = 21;

/** The time of the processor that this process has used, in microseconds: other programs that run
 * don't add to it. */
function used() {
  const { user, system } = process.cpuUsage();
  return user + system;
}

function timeOf(call) {
  const began = used();
  call();
  return used() - began;
}

const medianOf = (times) => times.sort((one, other) => one - other)[times.length >> 1];

/** Returns the median time of a call, divided by the other's. The calls alternate, so that other
 * processes slow both down. */
function ratioOf(call, other) {
  const times = Array.from({ length: ROUNDS }, () => [timeOf(call), timeOf(other)]);
  return medianOf(times.map(([here]) => here)) / medianOf(times.map(([, there]) => there));
}

/** The first ratio that is low enough, or the least in a minute: the engine compiles a module again
 * while it runs, for as long as a busy machine makes that take. */
function leastRatioOf(call, other) {
  const end = Date.now() + 60_000;
  let least = Infinity;
  while (least > MOST && Date.now() < end) {
    least = Math.min(least, ratioOf(call, other));
  }
  return least;
}

test(`1 MiB takes at most ${MOST} times what it takes Buffer`, (context) => {
  const data = Buffer.from(bytes(1 << 20).buffer);
  const text = data.toString("base64");
  const encoding = leastRatioOf(() => BASE64.encode(data), () => data.toString("base64"));
  const decoding = leastRatioOf(() => BASE64.decode(text), () => Buffer.from(text, "base64"));
  context.diagnostic(`${encoding.toFixed(1)} to encode, ${decoding.toFixed(1)} to decode`);
  assert.ok(encoding <= MOST, `${encoding} to encode`);
  assert.ok(decoding <= MOST, `${decoding} to decode`);
});
