// The state of the page, and what this browser remembers of plans: files, titles, names, and the
// changes that were made here. Keys are never stored. With the switch off, nothing outlasts the
// page.

import { isAlone } from "./local.js";

const SWITCH = "plan/forget";
const STORE = "plans";
// the page of 0.6.0 and earlier kept records in localStorage, as plan/of/DESK/NUMBER
const EARLIER = "plan/of/";

const blankPage = () => ({
  desk: "", key: "", plans: [], codes: [], published: new Map(),
  // by plan number: what files and this browser's changes tell, kept in memory only
  projects: new Map(), records: new Map(),
  file: null, plan: null, isUnsure: false, waiting: Promise.resolve(),
});

export let page = blankPage();

/** Replaces the state by a blank one, so that no key stays in memory, and returns it. */
export function newPage() {
  page.key = "";
  page = blankPage();
  return page;
}

export const RULES = {
  project: ["lft", "slk", "spt", "mts", "num"], shop: ["mwkr", "spt", "fcfs"] };
export const CODE_KINDS = { project: "crew", shop: "machine" };
export const WORDS_OF_KIND = { project: "project", shop: "job shop" };

// the browser's memory may be closed, full or damaged: the page goes on without it
function withSwitch(action) {
  try {
    return isAlone() ? undefined : action(localStorage);
  } catch {
    return undefined;
  }
}

export const isRemembering = () => withSwitch((memory) => memory.getItem(SWITCH)) !== "1";

const resultOf = (request) => new Promise((resolve, reject) => {
  request.onsuccess = () => resolve(request.result);
  request.onerror = () => reject(request.error);
});

let database = null;

function opened() {
  const request = indexedDB.open("plan", 1);
  request.onupgradeneeded = () => request.result.createObjectStore(STORE);
  return resultOf(request);
}

const endOf = (transaction) => new Promise((resolve, reject) => {
  transaction.oncomplete = resolve;
  transaction.onabort = () => reject(transaction.error);
});

// returns the result of the action's request after the transaction, or undefined if it failed
async function withStore(action) {
  try {
    if (isAlone()) return undefined;
    const transaction = (await (database ??= opened())).transaction(STORE, "readwrite");
    const request = action(transaction.objectStore(STORE));
    await endOf(transaction);
    return request.result;
  } catch {
    return undefined;
  }
}

const write = (n, record, { desk } = page) =>
  isRemembering() && withStore((store) => store.put({ n, record }, [desk, n]));

const earlierKeys = () =>
  withSwitch((memory) => Object.keys(memory).filter((key) => key.startsWith(EARLIER))) ?? [];

const removeEarlier = (keys) =>
  withSwitch((memory) => keys.forEach((key) => memory.removeItem(key)));

// returns null for a damaged entry
function earlierEntry(key) {
  const [, desk, n] = key.match(/^plan\/of\/([^/]+)\/(\d+)$/) ?? [];
  const record = withSwitch((memory) => JSON.parse(memory.getItem(key)));
  return desk && record ? { place: [desk, Number(n)], record } : null;
}

function putMissing(store, entries) {
  const request = store.getAllKeys();
  request.onsuccess = () => {
    const present = request.result.map(String);
    for (const { place, record } of entries) {
      if (!present.includes(`${place}`)) store.put({ n: place[1], record }, place);
    }
  };
  return request;
}

/** Moves the records in localStorage to the store. Those that are in the store already stay as
 * they are. */
export async function moveEarlier() {
  const keys = earlierKeys();
  if (!keys.length) return;
  const entries = isRemembering() ? keys.map(earlierEntry).filter(Boolean) : [];
  // without the store they stay, for the next start of the page
  const isMoved = !entries.length || await withStore((store) => putMissing(store, entries));
  if (isMoved) removeEarlier(keys);
}

/** Switches the memory of this computer; switching it off forgets all desks. */
export function setRemembering(isOn) {
  withSwitch((memory) => (isOn ? memory.removeItem(SWITCH) : memory.setItem(SWITCH, "1")));
  if (isOn) {
    page.records.forEach((record, n) => write(n, record));
  } else {
    removeEarlier(earlierKeys());
    withStore((store) => store.clear());
  }
}

/** Reads what this browser remembers of the plans of the desk. */
export async function readRecords() {
  const asking = page, { desk } = page;
  const all = IDBKeyRange.bound([desk], [desk, []]);
  const kept = isRemembering() ? await withStore((store) => store.getAll(all)) : [];
  for (const { n, record } of kept ?? []) asking.records.set(n, record);
}

/** Returns the record of a plan: { title, names, resources, shape, makespan, set, file, list }. */
export const recordOf = (n) => page.records.get(n) ?? {};

export function remember(n, members) {
  const record = { ...recordOf(n), ...members };
  page.records.set(n, record);
  write(n, record);
}

export function forget(n, { desk } = page) {
  page.records.delete(n);
  withStore((store) => store.delete([desk, n]));
}

/** Returns a text that is the same for plans of the same rows. */
export const shapeOf = (rows) => rows.map(({ d, mach = "" }) => `${d}:${mach}`).join();

export function rememberChange(n, kind, value) {
  const now = new Date();
  const { set } = recordOf(n);
  const made = { ...value, on: now.toLocaleDateString("en-CA"), time: now.getTime() };
  const all = "at" in value ? { ...set?.[kind], [value.at]: made } : made;
  remember(n, { set: { ...set, [kind]: all } });
}
