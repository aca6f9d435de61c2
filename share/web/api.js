// Requests to the office: one at a time, with the key in a field, and the tables that come back.

import { answered, isAlone } from "./local.js";
import { page } from "./state.js";

const MOST_MILLISECONDS = 90000;
const WORDS_IN_FRONT = {
  403: "Open this page from a computer that the office admits: it isn't open from here (403).",
  404: "Reload the page: there is no such address (404).",
  413: "Split the file: an office takes at most 1,048,576 bytes (413).",
  429: "Wait a moment, and try again: too many requests came in a short time (429).",
};

export class Refusal extends Error {}

export class Lost extends Error {}

let hooks = {};

export function listenTo(functions) {
  hooks = functions;
}

function judged(response, text) {
  const type = (response.headers.get("Content-Type") ?? "").split(";")[0];
  if (response.ok && type === "application/json") return JSON.parse(text);
  if (response.ok && type === "text/plain") return text;
  if (type === "text/plain") throw new Refusal(text.trim());
  const words = WORDS_IN_FRONT[response.status];
  if (words) throw new Refusal(words);
  throw new Lost(`The server in front of the office answers ${response.status}.`);
}

async function exchange(key, method, path, body) {
  if (isAlone()) return answered(method, path, body);
  let response, text;
  try {
    response = await fetch(path, {
      method, headers: { "Desk-Key": key }, body, signal: AbortSignal.timeout(MOST_MILLISECONDS),
      cache: "no-store", credentials: "omit", redirect: "error",
    });
    text = await response.text();
  } catch {
    throw new Lost("No answer came.");
  }
  return judged(response, text);
}

/** Sends a request after all earlier ones were answered. */
export async function ask(path, method = "GET", body = undefined) {
  const { key } = page;
  const answer = page.waiting.then(() => exchange(key, method, path, body));
  page.waiting = answer.catch(() => {});
  try {
    await answer;
    hooks.answered();
  } catch (fault) {
    if (fault instanceof Lost) hooks.lost(fault.message, method);
    throw fault;
  }
  return answer;
}

/** Sends a command. While the effect of an earlier one is unknown it asks, and sends nothing. */
export async function command(path, method, body) {
  if (page.isUnsure) {
    await hooks.unsure();
    throw new Refusal("Look first whether it has been done already: nothing was sent.");
  }
  return ask(path, method, body instanceof Blob ? body : body && JSON.stringify(body));
}

export const deskPath = (...parts) =>
  `/desks/${[page.desk, ...parts].map(encodeURIComponent).join("/")}`;
export const planPath = (n, ...parts) => deskPath("plans", n, ...parts);

/** Returns the path that imports an instance; null if an address can't contain its name. */
export function shopPath(instance) {
  const isPlain = /^[\w\-.~!$&'()*+,;=:@]+$/.test(instance);
  return isPlain && !/^\.\.?$/.test(instance) ? `${deskPath("shops")}/${instance}` : null;
}

export async function orRefusal(asking) {
  try {
    return await asking;
  } catch (fault) {
    if (fault instanceof Refusal) return fault;
    throw fault;
  }
}

export const byHead = (heads, cells) =>
  Object.fromEntries(heads.map((head, place) => [head, cells[place]]));

/** Reads a table that `plan` prints, with the lines around it. */
export function tableOf(text) {
  const lines = text.split("\n").filter((line) => line.trim()).map((line) =>
    line.trim().split(/\s+/).map((word) => (/^\d+$/.test(word) ? Number(word) : word)));
  const at = lines.findIndex(([first]) => first === "act" || first === "job");
  const heads = lines[at] ?? [];
  const isRow = ([first]) => typeof first === "number";
  const rows = lines.slice(at + 1).filter(isRow).map((words) => ({
    ...byHead(heads, words), isCritical: words.length > heads.length,
  }));
  const last = lines.at(-1) ?? [0];
  return { heads, rows, verdict: at > 0 ? lines[0][0] : "", total: isRow(last) ? null : last[1] };
}

export async function askTable(path) {
  const text = await orRefusal(ask(path));
  return text instanceof Refusal ? text : tableOf(text);
}
