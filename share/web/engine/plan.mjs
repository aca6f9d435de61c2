// Runs plan.wasm under Node with the words of the command line, as bin/plan does:
//
//     node share/web/engine/plan.mjs cpm examples/six.sm
//
// A word, or the value of an option, that names a file gives the module that file. Files that the
// module writes are written when it ends.

import { webcrypto } from "node:crypto";
import { existsSync, readFileSync, statSync, writeFileSync } from "node:fs";
import { load, run } from "./runtime.js";

globalThis.crypto ??= webcrypto;
const folder = new URL("..", import.meta.url);
const words = process.argv.slice(2);
const digest = readFileSync(new URL("plan.wasm.sha256", folder), "utf8").slice(0, 64);
const module = await load(readFileSync(new URL("plan.wasm", folder)), digest);

const values = words.flatMap((word) => [word, word.slice(word.indexOf("=") + 1)]);
const names = values.filter((name) => existsSync(name) && statSync(name).isFile());
const files = new Map(names.map((name) => [name, readFileSync(name)]));
const input = values.includes("-") ? readFileSync(0) : new Uint8Array(0);

const wrote = (file, bytes) => writeFileSync(file, bytes);
const call = { words: ["plan", ...words], input, files, variables: process.env, wrote };
const done = run(module, call);
process.exitCode = done.status;
for (const [name, bytes] of done.files) {
  if (files.has(name) && Buffer.compare(files.get(name), bytes) === 0) continue;
  try {
    writeFileSync(name, bytes);
  } catch (error) {
    process.stderr.write(`plan.mjs: ${name} can't be written: ${error.message}\n`);
    process.exitCode = 1;
  }
}
