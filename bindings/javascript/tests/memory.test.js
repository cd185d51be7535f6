// The memory of the module, and where there is none.

import assert from "node:assert/strict";
import { constants } from "node:buffer";
import { execFileSync, spawnSync } from "node:child_process";
import { readFileSync } from "node:fs";
import test from "node:test";
import { Worker } from "node:worker_threads";

import { BASE64, BASE64_MIME, HEXLOWER, version } from "../src/index.js";
import { calls } from "../src/machine.js";
import { Encoder, Encoding, bytes } from "./common.js";

const index = new URL("../src/index.js", import.meta.url);

test("64 MiB", () => {
  const data = Buffer.alloc(64 << 20, bytes(65_537));
  const text = BASE64.encode(data);
  assert.ok(text === data.toString("base64"));
  assert.ok(data.equals(BASE64.decode(text)));
  const lines = BASE64_MIME.encode(data);
  assert.equal(lines.length, BASE64_MIME.encodeLen(data.length));
  assert.ok(data.equals(BASE64_MIME.decode(lines)));
  assert.equal(BASE64.encode(bytes(3)), Buffer.from(bytes(3)).toString("base64"));
});

test("a text that is too long for a string", () => {
  const separator = "-".repeat(247);
  const encoding = new Encoding({ symbols: "01", wrap: { width: 8, separator }, ignore: "-" });
  const data = new Uint8Array(Math.ceil(constants.MAX_STRING_LENGTH / 255));
  const length = encoding.encodeLen(data.length);
  const error = {
    name: "RangeError",
    message: `no string has ${length} characters here: encodeInto writes to a buffer`,
  };
  const before = calls.memory.buffer.byteLength;
  assert.throws(() => encoding.encode(data), error);
  assert.throws(() => new Encoder(encoding).push(data), error);
  assert.equal(calls.memory.buffer.byteLength, before, "nothing is copied");
  assert.equal(encoding.encodeInto(data, new Uint8Array(length)), length);
});

test("calls of all sizes take turns in one memory", () => {
  for (const size of [5, 5 << 20, 0, 70_000, 1, 6 << 20, 12]) {
    const data = Buffer.alloc(size, bytes(991));
    const text = HEXLOWER.encode(data);
    assert.ok(text === data.toString("hex"));
    assert.ok(data.equals(HEXLOWER.decode(text)));
  }
});

test("a platform that has no buffers of Node", () => {
  const source = `
    delete globalThis.Buffer;
    const { BASE64 } = await import(${JSON.stringify(index.href)});
    for (const length of [3, 30, 3071, 3072, 100_000]) {
      const data = new Uint8Array(length).map((_, at) => (at * 7) % 251);
      const text = BASE64.encode(data);
      const same = BASE64.decode(text).every((byte, at) => byte === data[at]);
      console.log(text.length, text === btoa(String.fromCharCode(...data)), same);
    }`;
  assert.equal(
    execFileSync(process.execPath, [...process.execArgv.filter((it) => it.includes("wasm")),
      "--input-type=module", "-e", source], { encoding: "utf8" }),
    [4, 40, 4096, 4096, 133_336].map((length) => `${length} true true\n`).join(""),
  );
});

test("a memory that can't grow says so, and serves on", () => {
  const source = `
    const { grow } = WebAssembly.Memory.prototype;
    WebAssembly.Memory.prototype.grow = function (pages) {
      if (pages > 100) throw new RangeError("no");
      return grow.call(this, pages);
    };
    const { BASE64 } = await import(${JSON.stringify(index.href)});
    try {
      BASE64.encode(new Uint8Array(32 << 20));
    } catch (error) {
      console.log(String(error).replace(/[0-9]+/, "N"));
    }
    console.log(BASE64.encode(new Uint8Array(3)));`;
  assert.equal(
    execFileSync(process.execPath, [...process.execArgv.filter((it) => it.includes("wasm")),
      "--input-type=module", "-e", source], { encoding: "utf8" }),
    "RangeError: the memory of the module can't grow to N bytes\nAAAA\n",
  );
});

test("a worker has a memory of its own", async () => {
  const source = `
    import { parentPort } from "node:worker_threads";
    import(${JSON.stringify(index.href)}).then(({ BASE64 }) => {
      parentPort.postMessage(BASE64.encode(new Uint8Array(6)));
    });`;
  const url = new URL(`data:text/javascript,${encodeURIComponent(source)}`);
  const worker = new Worker(url);
  const text = await new Promise((resolve, reject) => {
    worker.once("message", resolve);
    worker.once("error", reject);
  });
  assert.equal(text, "AAAAAAAA");
});

const needsFlag = process.execArgv.includes("--experimental-wasm-memory64");

test("one sentence where there is no 64-bit memory", { skip: !needsFlag }, () => {
  const run = spawnSync(process.execPath, ["--input-type=module", "-e", `import "${index.href}"`], {
    encoding: "utf8",
  });
  assert.equal(run.status, 1);
  const words = [
    "Error: WebAssembly has no 64-bit memory here:",
    "Chromium from 133 on, Firefox from 134 on and Node from 24 on have it,",
    "and Node 20 and 22 by the flag --experimental-wasm-memory64",
  ];
  assert.ok(run.stderr.split("\n").includes(words.join(" ")), run.stderr);
});

test("the version", () => {
  const { version: wanted } = JSON.parse(readFileSync(new URL("../package.json", import.meta.url)));
  assert.equal(version, wanted);
});
