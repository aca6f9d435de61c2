// The lists of a desk: its plans and the published capacities, asked for at sign-in and when the
// window gets the focus; the office's own forms; and what is done when a connection is lost.

import { ask, askTable, command, deskPath, Lost, orRefusal, planPath, Refusal } from "./api.js";
import { all, byId, during, fill, make, onSubmit, put, say, tableNode } from "./dom.js";
import { openPlan, leavePlan } from "./plan.js";
import { showPlace } from "./place.js";
import { forget, page, recordOf, remember, RULES, WORDS_OF_KIND } from "./state.js";

const MOST_MAKESPANS = 20;
const LEAST_PAUSE = 1000;
let asked = -LEAST_PAUSE;

const numbers = () => page.plans.map(({ n }) => n);

const isSame = (a, b) => JSON.stringify(a) === JSON.stringify(b);

/** Asks for both lists. Plans that are the same stay, because a click that gives the window the
 * focus would miss a new button. */
export async function askLists() {
  const { plans } = await ask(deskPath("plans"));
  const isOld = isSame(plans, page.plans);
  page.plans = plans;
  if (!isOld || !byId("plans").firstChild) showPlans();
  page.codes = (await ask(deskPath("capacities"))).capacities;
  fill("codes", codesTable(page.codes, "The office has published nothing yet."));
}

export function showPlans() {
  const { value } = byId("plans").contains(document.activeElement) ? document.activeElement : {};
  const rows = page.plans.map(({ n, kind }) => {
    const button = make("button", { value: n }, `Plan ${n}`);
    button.onclick = () => during(button, byId("plans-answer"), () => openPlan(n));
    const { title = "", makespan = "" } = recordOf(n);
    return [button, title, WORDS_OF_KIND[kind], makespan];
  });
  const heads = ["Number", "Title", "Kind", "Makespan"];
  fill("plans", rows.length ? tableNode({ label: "Plans", heads, rows })
    : say("No plans yet. Drop a file, or start with an example."));
  byId("start").classList.toggle("alone", rows.length > 0);
  byId("save-all").hidden = !rows.length;
  if (value) byId("plans").querySelector(`[value="${value}"]`)?.focus();
  markOpen();
}

export function markOpen() {
  for (const button of all("#plans button")) {
    button.ariaCurrent = Number(button.value) === page.plan?.n ? "true" : null;
  }
  showPlace();
}

function codesTable(codes, none) {
  if (!codes.length) return say(none);
  const rows = codes.map(({ code, kind, capacity }) => [code, kind, capacity]);
  return tableNode({ label: "Capacities", heads: ["Code", "Kind", "Capacity"], rows });
}

export async function askMakespans() {
  const asking = page;
  for (const { n, kind } of page.plans.slice(0, MOST_MAKESPANS)) {
    const table = await askTable(planPath(n, "schedule", RULES[kind][0])).catch((fault) => fault);
    if (asking !== page || table instanceof Lost) return;
    remember(n, { makespan: table.total ?? "" });
  }
  showPlans();
}

/** Asks for the lists, and for the open plan if they have changed. */
export async function refresh() {
  const now = performance.now();
  if (byId("desk").hidden || page.isUnsure || now - asked < LEAST_PAUSE) return;
  asked = now;
  const asking = page;
  const before = [page.plans, page.codes];
  try {
    await askLists();
  } catch (fault) {
    if (fault instanceof Lost || fault instanceof Refusal) return;
    throw fault;
  }
  if (asking !== page || isSame(before, [page.plans, page.codes])) return;
  await showAgain();
}

async function showAgain() {
  const n = page.plan?.n;
  if (numbers().includes(n)) await openPlan(n);
  else leavePlan();
}

export function dropPlan(n) {
  page.plans = page.plans.filter((plan) => plan.n !== n);
  page.projects.delete(n);
  forget(n);
}

// -- the office

/** Sends a body that no office takes: `E03` shows that the key is right, and nothing changes. */
export async function tryOfficeKey() {
  const answer = await orRefusal(ask("/office/capacities", "POST", "{}"));
  if (answer.message !== "E03 body") throw answer;
}

async function publish(fields) {
  const made = await command("/office/capacities", "POST",
    { ...fields, capacity: Number(fields.capacity) });
  page.published.set(made.code, made);
  showPublished();
  return `${made.code} is a ${made.kind} of ${made.capacity}.`;
}

export function showPublished() {
  const codes = [...page.published.values()];
  fill("published", codesTable(codes, "Nothing was published here yet."));
}

async function openDesk(fields) {
  await command("/office/desks", "POST", fields);
  return `Desk ${fields.desk} is open.`;
}

async function setKey({ desk, key }) {
  await command(`/office/desks/${encodeURIComponent(desk)}/key`, "POST", { key }).catch((fault) => {
    fault.meaning = fault.message === "E02 not found"
      ? ["Check the name of the desk.", "There is no such desk."] : undefined;
    throw fault;
  });
  return `Desk ${desk} has another key.`;
}

export function letOfficeAct() {
  onSubmit("publish", publish);
  onSubmit("open", openDesk);
  onSubmit("rekey", setKey);
}

// -- a lost connection

export function noteLost(words, method) {
  if (!byId("door").hidden) return;
  page.isUnsure ||= method !== "GET";
  const meaning = page.isUnsure
    ? "A command was on its way, and it isn't known whether it was carried out. "
      + "Nothing is sent again before the office has been asked."
    : "Nothing has changed. The page shows what was answered before.";
  const advice = "Ask again, once the network is back: the connection is lost.";
  put("lost-words", `${advice} ${words} ${meaning}`);
  byId("lost").hidden = false;
  put("news", "");
}

export function noteAnswered() {
  byId("lost").hidden ||= !page.isUnsure;
}

export async function askAgain() {
  const before = numbers();
  const isOffice = byId("desk").hidden;
  await (isOffice ? tryOfficeKey() : askLists());
  page.isUnsure = false;
  byId("lost").hidden = true;
  all(".unanswered").forEach((node) => node.remove());
  await showAgain();
  const missing = (from, list) => from.filter((n) => !list.includes(n));
  const changes = [
    ...missing(numbers(), before).map((n) => `Plan ${n} is new in the list.`),
    ...missing(before, numbers()).map((n) => `Plan ${n} isn't in the list any more.`),
  ];
  put("news", `The office has answered. ${
    isOffice ? "Each command of this page can safely be sent again."
      : changes.join(" ") || "The list has the same plans as before."}`);
}
