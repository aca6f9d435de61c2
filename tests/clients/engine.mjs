// Runs the module plan.wasm of the folder in PLAN_WEB for tests/clients/engine. Each line of
// standard input is a call as JSON: words, the bytes of standard input, named files and variables of
// the environment. Each line of standard output is its result: the status, both outputs, the files,
// and the milliseconds of processor time that it took. Bytes are in base64.

import { webcrypto } from "node:crypto";
import { readFileSync } from "node:fs";
import { createInterface } from "node:readline";

const { load, run } = await import(process.env.PLAN_RUNTIME ?? "../../share/web/engine/runtime.js");

globalThis.crypto ??= webcrypto;
const folder = process.env.PLAN_WEB;
const digest = readFileSync(`${folder}/plan.wasm.sha256`, "utf8").slice(0, 64);
const module = await load(readFileSync(`${folder}/plan.wasm`), digest);
const bytesOf = (text) => new Uint8Array(Buffer.from(text, "base64"));
const textOf = (bytes) => Buffer.from(bytes).toString("base64");

for await (const line of createInterface({ input: process.stdin })) {
  const call = JSON.parse(line);
  const files = Object.entries(call.files).map(([name, text]) => [name, bytesOf(text)]);
  const began = process.cpuUsage();
  const done = run(module, { ...call, input: bytesOf(call.input), files });
  const used = process.cpuUsage(began);
  const took = (used.user + used.system) / 1000;
  const kept = Object.fromEntries([...done.files].map(([name, bytes]) => [name, textOf(bytes)]));
  const result = { status: done.status, output: textOf(done.output), errors: textOf(done.errors) };
  process.stdout.write(`${JSON.stringify({ ...result, files: kept, took })}\n`);
}
