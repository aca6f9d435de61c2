// Calls functions of the page's modules, which are in the folder of this file: reads a list of
// [module, function, arguments] from standard input, and writes the list of results, both as JSON.
// A value {"bytes": [..]} is a list of bytes, {"map": [..]} a Map; a Map is written as a list.

import { readFileSync } from "node:fs";

const given = (_, value) => (value?.bytes ? Uint8Array.from(value.bytes)
  : value?.map && !Array.isArray(value) ? new Map(value.map) : value);
const plain = (_, value) => (value instanceof Map ? [...value] : value);

const results = [];
for (const [module, name, words] of JSON.parse(readFileSync(0, "utf8"), given)) {
  const functions = await import(`./${module}.js`);
  try {
    results.push({ value: functions[name](...words) ?? null });
  } catch (fault) {
    if (!/Fault$/.test(fault.constructor.name)) throw fault;
    results.push({ fault: fault.message, line: fault.line, column: fault.column });
  }
}
process.stdout.write(JSON.stringify(results, plain));
