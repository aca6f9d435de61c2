// The program: plan.wasm, which runs the commands on files in a worker. It is loaded once, when it is
// first needed, and refused if it has another SHA-256 than digest.js.

import { Refusal } from "./api.js";
import { DIGEST } from "./digest.js";
import { load } from "./engine/runtime.js";

// the status of a module that was stopped
const MODULE_STOPPED = 134;

const textOf = (bytes) => new TextDecoder().decode(bytes);

// plan.html has the module and the worker inside
const inside = (name) => globalThis.document?.getElementById(name);

let address = "worker.js";
if (inside("worker-text")) {
  const text = new Blob([inside("worker-text").textContent], { type: "text/javascript" });
  address = URL.createObjectURL(text);
}

// the policy passes the address of the worker, and in a plan.html that is served also that of the
// script that keeps the page for later
const addresses = { worker: address };
const isServed = globalThis.location?.protocol.startsWith("http");
if (inside("worker-text") && isServed) addresses.cache = "plan-cache.js";

function passed(name) {
  if (!Object.hasOwn(addresses, name)) throw new TypeError(`no script has the name ${name}`);
  return addresses[name];
}

const policy = globalThis.trustedTypes?.createPolicy("program", { createScriptURL: passed });
const addressOf = (name) => policy?.createScriptURL(name) ?? passed(name);

/** Lets the browser keep plan.html if it is served, so that it opens without a network. */
export async function keepPage() {
  if (!addresses.cache) return;
  const link = document.createElement("link");
  document.head.append(Object.assign(link, { rel: "manifest", href: "plan.webmanifest" }));
  const options = { scope: location.pathname, updateViaCache: "none" };
  // without the two files beside it, the page isn't kept
  await navigator.serviceWorker?.register(addressOf("cache"), options).catch(() => {});
}

async function moduleBytes() {
  const packed = inside("packed-module");
  if (!packed) {
    const response = await fetch("plan.wasm", { redirect: "error" })
      .catch(() => { throw new Error("plan.wasm can't be fetched"); });
    if (!response.ok) throw new Error(`the server answers ${response.status} for plan.wasm`);
    return response.arrayBuffer();
  }
  const bytes = Uint8Array.from(atob(packed.textContent), (letter) => letter.charCodeAt(0));
  const stream = new Blob([bytes]).stream().pipeThrough(new DecompressionStream("gzip"));
  return new Response(stream).arrayBuffer();
}

let module = null;

const loaded = () => (module ??= moduleBytes().then((bytes) => load(bytes, DIGEST)).catch((fault) => {
  module = null;
  const other = inside("packed-module") ? "get it again" : "tell the office";
  throw new Refusal(`Reload the page, or ${other}: the program can't be loaded, because ${
    fault.message}.`);
}));

const newWorker = () => new Worker(addressOf("worker"),
  { type: inside("worker-text") ? "classic" : "module" });

const contentOf = (content) =>
  (typeof content === "string" ? new TextEncoder().encode(content) : content);

// one call in a worker; `told` gets what the program writes to standard error
async function called(worker, words, files, { isTerminal = false, told = () => {} } = {}) {
  const call = {
    words: ["plan", ...words], input: new Uint8Array(0), isTerminal, variables: { PLAN_HINTS: "0" },
    files: Object.entries(files).map(([name, content]) => [name, contentOf(content)]),
  };
  const compiled = await loaded();
  return new Promise((resolve, reject) => {
    worker.onmessage = ({ data }) => (data.done ? resolve(data.done)
      : told(textOf(data.wrote)));
    worker.onerror = ({ message = "no worker" }) =>
      reject(new Refusal(`Reload the page: the program can't run, because of "${message}".`));
    worker.postMessage({ module: compiled, call });
  });
}

// the line of an error, which may be printed as JSON, without the progress before it
function lineOf(errors) {
  const told = textOf(errors).split("\x1b[K").at(-1).trim();
  return told.startsWith("{") ? JSON.parse(told).text : told;
}

function outputOf({ status, output, errors }) {
  if (status === MODULE_STOPPED) {
    throw new Refusal("Close other pages, and try again: the program was stopped, perhaps because "
      + "memory ran out.");
  }
  if (status !== 0) throw new Refusal(lineOf(errors));
  return textOf(output);
}

let common = null;
let waiting = Promise.resolve();

/** Runs a command with named files, after all earlier ones. Returns what it prints, and its line on
 * standard error; its error is a refusal. */
export async function printedWith(words, files = {}) {
  const answer = waiting.then(() => called(common ??= newWorker(), words, files));
  waiting = answer.catch(() => {
    common?.terminate();
    common = null;
  });
  const done = await answer;
  return { text: outputOf(done), note: lineOf(done.errors) };
}

/** Runs a command with named files. Returns what it prints; its error is a refusal. */
export const printed = async (words, files) => (await printedWith(words, files)).text;

/** Runs a command that takes long, in a worker of its own. `told` gets its lines of progress.
 * Returns null if `signal` ends it. */
export async function searched(words, files, told, signal) {
  if (signal.aborted) return null;
  const worker = newWorker();
  const stopped = new Promise((resolve) => {
    signal.onabort = () => resolve(null);
  });
  const line = (text) => told(text.replaceAll(/[\r\n]|\x1b\[K/g, ""));
  try {
    const done = called(worker, words, files, { isTerminal: true, told: line });
    const answer = await Promise.race([done, stopped]);
    return answer && outputOf(answer);
  } finally {
    worker.terminate();
  }
}
