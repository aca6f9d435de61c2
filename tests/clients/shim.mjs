// Compares the functions of share/web/engine/shim.c, in the module that the first word names, with
// models: products and shifts of BigInt, copies of arrays, blocks of memory that must not overlap, and
// a page that notes each call. Prints the first difference, and exits with status 1.

import { readFileSync } from "node:fs";

const [CASES, STEPS] = [3000, 30000];
const WORD = 1n << 128n;
const encoder = new TextEncoder();

let state = 12345;
function drawn(limit) {
  state = (Math.imul(state, 1103515245) + 12345) >>> 0;
  return Math.floor((state / 4294967296) * limit);
}
const pick = (list) => list[drawn(list.length)];
const drawnBytes = (count) => Uint8Array.from({ length: count }, () => pick([0, 255, drawn(256)]));

function same(what, found, wanted) {
  const [a, b] = [found, wanted].map((value) => JSON.stringify(value, (_, it) =>
    (typeof it === "bigint" ? `${it}n` : it)));
  if (a === b) return;
  console.log(`${what}\n  gave    ${a}\n  and not ${b}`);
  process.exit(1);
}

// the page answers each call with `answer`, and notes its words
let answer = 0;
let noted = [];
const memory = () => new Uint8Array(shim.memory.buffer);
const textAt = (at, length) => new TextDecoder().decode(memory().slice(at >>> 0, (at >>> 0) + length));
const named = { variable: 1, open: 1, rename: 2, remove: 1, status: 1 };
const NAMES = ["arguments", "argument", "variable", "open", "close", "read", "write", "seek", "rename",
  "remove", "status", "random", "clock", "terminal"];
const page = Object.fromEntries(NAMES.map((name) => [name, (...words) => {
  const texts = Array.from({ length: named[name] ?? 0 }, (_, k) => textAt(words[2 * k], words[2 * k + 1]));
  noted = [name, ...texts, ...words.slice(2 * texts.length)];
  return answer;
}]));
const bytes = readFileSync(process.argv[2]);
const { exports: shim } = new WebAssembly.Instance(new WebAssembly.Module(bytes), { page });
same("the status", shim.start(), 7);
const room = Number(shim.room());

const write = (place, content) => memory().set(content, room + place);
const read = (place, count) => memory().slice(room + place, room + place + count);
const at = (place) => BigInt(room + place);

// -- numbers

const bytesOf = (value) => Uint8Array.from({ length: 16 }, (_, k) => Number((value >> BigInt(8 * k)) & 255n));
const valueOf = (list) => list.reduceRight((value, byte) => (value << 8n) | BigInt(byte), 0n);
const number = () => {
  const whole = valueOf(drawnBytes(16));
  const power = 1n << BigInt(drawn(128));
  return pick([whole, whole >> 64n, power, power - 1n, WORD - power, BigInt(drawn(10))]);
};

for (let k = 0; k < CASES; k += 1) {
  const [a, b, count] = [number(), number(), k % 128];
  const [first, second] = [bytesOf(a), bytesOf(b)];
  const result = (name, ...words) => {
    write(0, first);
    write(16, second);
    shim[name](at(0), ...words);
    return read(32, 16);
  };
  same(`${a} * ${b}`, valueOf(result("product")), (a * b) % WORD);
  same(`${a} << ${count}`, valueOf(result("left", count)), (a << BigInt(count)) % WORD);
  same(`${a} >> ${count}`, valueOf(result("right", count)), a >> BigInt(count));
  same("a shuffle", [...result("shuffle")], [...second].map((to) => (to & 128 ? 0 : first[to & 15])));
}
same("a number behind a fence", shim.fence(0.1), 0.1);
same("features", [0n, 7n].map((k) => shim.leaf(k)), [-1n, -1n]);

// -- bytes

for (let k = 0; k < CASES; k += 1) {
  const count = pick([drawn(20), drawn(300), drawn(2000)]), from = drawn(64), to = drawn(64);
  const content = drawnBytes(4096), wanted = Uint8Array.from(content);
  write(0, content);
  if (k % 3 === 0) {
    same("the answer of memcpy", shim.copy(at(2048 + to), at(from), BigInt(count)), at(2048 + to));
    wanted.set(content.slice(from, from + count), 2048 + to);
  } else if (k % 3 === 1) {
    same("the answer of memmove", shim.move(at(to), at(from), BigInt(count)), at(to));
    wanted.set(content.slice(from, from + count), to);
  } else {
    same("the answer of memset", shim.set(at(to), from - 32, BigInt(count)), at(to));
    wanted.fill(from - 32, to, to + count);
  }
  same(`${count} bytes from ${from} to ${to}`, Buffer.compare(read(0, 4096), wanted), 0);
  const other = Uint8Array.from(wanted.slice(0, count));
  if (count && k % 2) other[drawn(count)] = drawn(256);
  write(8192 + to, other);
  const order = Buffer.compare(wanted.slice(0, count), other);
  same("memcmp", Math.sign(shim.compare(at(0), at(8192 + to), BigInt(count))), order);
  same("bcmp", shim.differ(at(0), at(8192 + to), BigInt(count)) !== 0, order !== 0);
}

// -- memory

const blocks = new Map();
const size = () => pick([drawn(140), 16 * drawn(40), drawn(3000), drawn(60) ? drawn(9000) : drawn(900000)]);

// the content of a block: its number, again and again
function mark(block, tag, count) {
  memory().fill(tag & 255, block, block + count);
  blocks.set(block, { tag: tag & 255, count });
}
function check(block, count) {
  const { tag } = blocks.get(block);
  const part = memory().subarray(block, block + count);
  same("the content of a block", part.every((byte) => byte === tag), true);
}
function makeBlock(tag) {
  const count = size(), block = Number(shim.take(BigInt(count)));
  same("a block", [block > 0, block % 16, blocks.has(block)], [true, 0, false]);
  mark(block, tag, count);
}
function resizeBlock(tag) {
  const block = pick([...blocks.keys()]), { count } = blocks.get(block), next = size();
  const other = Number(shim.resize(BigInt(block), BigInt(next)));
  same("another size", [other > 0, other % 16, other === block || !blocks.has(other)], [true, 0, true]);
  blocks.set(other, blocks.get(block));
  check(other, Math.min(count, next));
  if (other !== block) blocks.delete(block);
  mark(other, tag, next);
}
function giveBlock() {
  const block = pick([...blocks.keys()]);
  check(block, blocks.get(block).count);
  shim.give(BigInt(block));
  blocks.delete(block);
}
for (let step = 0; step < STEPS; step += 1) {
  const act = blocks.size < 60 ? makeBlock : pick([makeBlock, resizeBlock, giveBlock, giveBlock]);
  act(step);
}
for (const block of blocks.keys()) check(block, blocks.get(block).count);
const before = memory().length;
for (let step = 0; step < 20000; step += 1) {
  const block = shim.take(1000n);
  const between = shim.take(100000n);
  shim.give(shim.resize(block, 5000n));
  shim.give(between);
}
same("the memory that is used again", memory().length, before);
same("more memory than there is", [0xf0000001n, 1n << 40n].map((count) => shim.take(count)), [0n, 0n]);
same("a block of no size", shim.take(0n) > 0n, true);
const largest = shim.take(3000000n);
same("a large block", Number(largest) + 3000000 <= memory().length, true);

// -- what the page is asked

const put = (place, text) => write(place, encoder.encode(`${text}\0`));
const asked = (name, words, given, result, call) => {
  answer = given;
  same(`the answer of ${name} for ${given}`, shim[name](...words), result);
  same(`the call of ${name}`, noted, call);
};
put(0, "five.sm");
put(64, "six.sm");
for (const given of [0, 3, 1073741824]) {
  const wide = BigInt(given);
  asked("word", [3n, at(128), 9n], given, wide, ["argument", 3, room + 128, 9]);
  asked("variable", [at(0), at(128), 9n], given, wide, ["variable", "five.sm", room + 128, 9]);
  asked("open", [at(0), 0o1101], given, given, ["open", "five.sm", 0o1101]);
  asked("close", [4], given, given, ["close", 4]);
  asked("read", [4, at(128), 9n], given, wide, ["read", 4, room + 128, 9]);
  asked("write", [4, at(128), 9n], given, wide, ["write", 4, room + 128, 9]);
  asked("read", [4, at(128), 5n << 32n], given, wide, ["read", 4, room + 128, 1 << 30]);
  asked("seek", [4, 5n << 32n, 2], given * 8, wide * 8n, ["seek", 4, 5 * 2 ** 32, 2]);
  asked("rename", [at(0), at(64)], given, given, ["rename", "five.sm", "six.sm"]);
  asked("remove", [at(64)], given, given, ["remove", "six.sm"]);
  asked("status", [at(64), at(128)], given, given, ["status", "six.sm", room + 128]);
  asked("random", [at(128), 16n], given, given, ["random", room + 128, 16]);
}
asked("count", [], 5, 5n, ["arguments"]);
for (const given of [-1, -2]) {
  asked("word", [9n, at(128), 2n], given, BigInt(given), ["argument", 9, room + 128, 2]);
  asked("variable", [at(0), at(128), 2n], given, BigInt(given), ["variable", "five.sm", room + 128, 2]);
}
const failing = { open: [at(0), 0], close: [4], read: [4, at(128), 9n], write: [4, at(128), 9n],
  seek: [4, 0n, 0], rename: [at(0), at(64)], remove: [at(0)], status: [at(0), at(128)] };
for (const [index, [name, words]] of Object.entries(failing).entries()) {
  answer = -2 - index;
  same(`${name} that fails`, Number(shim[name](...words)), -1);
  same(`the error of ${name}`, shim.error(), 2 + index);
}
answer = 1;
same("a terminal", shim.terminal(2), 1);
answer = 0;
same("no terminal", [shim.terminal(2), shim.error()], [0, 25]);
same("a file that is made shorter", [shim.shorten(3), shim.error()], [-1, 38]);
same("a path", [shim.path(at(0), at(256)) === at(256), textAt(room + 256, 8)], [true, "five.sm\0"]);
for (const time of [0, 1234567.25, 1764420000123.5]) {
  answer = time;
  same("the clock", shim.clock(1, at(512)), 0);
  same("its number", noted, ["clock", 1]);
  const [seconds, rest] = new BigInt64Array(read(512, 16).buffer);
  same(`the time ${time}`, Math.abs(Number(seconds) * 1e3 + Number(rest) / 1e6 - time) < 1e-3, true);
  same("nanoseconds", rest >= 0n && rest < 1000000000n, true);
}
