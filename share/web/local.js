// The office of plan.html, which has no server: it keeps plans in memory, and asks the program for
// their tables. It answers those requests of docs/api.md that a desk sends, in the same form.

import { Refusal } from "./api.js";
import { printed } from "./program.js";

/** Whether this is plan.html. */
export const isAlone = () => Boolean(document.getElementById("packed-module"));

const PLAN_FILE = "plan.txt";

// number: { kind, bytes, instance, calendar }
let kept = new Map();
let isChanged = false;

/** Whether there are plans or changes that no saved file has. */
export const isUnsaved = () => isChanged;

const instanceOf = ({ kind, instance }) => (kind === "shop" ? [instance] : []);

const tableBy = (plan, ...words) =>
  printed([...words, PLAN_FILE, ...instanceOf(plan)], { [PLAN_FILE]: plan.bytes });

function dayTable(plan, rule) {
  const { start, days, holidays = "" } = plan.calendar ?? {};
  if (!start) throw new Refusal("G4 no calendar");
  const words = ["days", ...(holidays ? ["--holidays", "holidays"] : []), rule, start, days];
  return printed([...words, PLAN_FILE, ...instanceOf(plan)], { [PLAN_FILE]: plan.bytes, holidays });
}

async function planFrom(kind, instance, body) {
  const plan = { kind, instance, bytes: new Uint8Array(await body.arrayBuffer()) };
  await (kind === "shop" ? tableBy(plan, "shop", "spt") : tableBy(plan, "cpm"));
  const n = Math.max(0, ...kept.keys()) + 1;
  kept.set(n, plan);
  return { kind, n };
}

async function keptCalendar(plan, calendar) {
  const before = plan.calendar;
  plan.calendar = calendar;
  try {
    await dayTable(plan, "spt");
  } catch (fault) {
    plan.calendar = before;
    throw fault;
  }
  return calendar;
}

function ofPlan(n, method, [part, word], body) {
  const plan = kept.get(n);
  if (method === "DELETE") kept.delete(n);
  if (method === "DELETE") return { n };
  if (part === "calendar") return keptCalendar(plan, JSON.parse(body));
  if (part === "dates") return tableBy(plan, "cpm");
  if (part === "days") return dayTable(plan, word);
  if (part === "best") return tableBy(plan, "solve", "--seconds", "10");
  return tableBy(plan, plan.kind === "shop" ? "shop" : "schedule", word);
}

/** Answers a request: a table as a text, else an object. */
export async function answered(method, path, body) {
  const [, , , list, name, ...rest] = path.split("/").map(decodeURIComponent);
  isChanged ||= method !== "GET";
  if (list === "capacities") return { capacities: [] };
  if (list === "projects") return planFrom("project", "-", body);
  if (list === "shops") return planFrom("shop", name, body);
  if (name) return ofPlan(Number(name), method, rest, body);
  return { plans: [...kept].map(([n, { kind }]) => ({ kind, n })) };
}

// -- one file with everything

const packed = (bytes) => btoa(Array.from(bytes, (byte) => String.fromCharCode(byte)).join(""));
const unpacked = (text) => Uint8Array.from(atob(text), (letter) => letter.charCodeAt(0));

const MARK = "plan.html";

/** Returns plans as the text of a file. */
export const fileOf = (plans) => `${JSON.stringify({ page: MARK,
  plans: plans.map(({ bytes, ...plan }) => ({ ...plan, bytes: packed(bytes) })) })}\n`;

/** Returns the plans of a saved file, or null for another text. */
export function plansIn(text) {
  if (!text.startsWith(`{"page":"${MARK}"`)) return null;
  try {
    return JSON.parse(text).plans
      .map(({ bytes, ...plan }) => ({ ...plan, bytes: unpacked(bytes) }));
  } catch {
    throw new Refusal("Drop another saved file: this one is damaged. It isn't JSON, or a plan's "
      + "file is missing.");
  }
}

/** Returns all plans as the text of a file; `recordOf` gives what the page knows of one. */
export function savedFile(recordOf) {
  isChanged = false;
  return fileOf([...kept].map(([n, plan]) => ({ n, ...plan, record: recordOf(n) })));
}

/** Opens the plans of a saved file, which replace those that are open. */
export function keepPlans(plans) {
  kept = new Map(plans.map(({ n, kind, bytes, instance, calendar }) =>
    [n, { kind, bytes, instance, calendar }]));
}

/** Puts another file in the place of a plan's. */
export function replaceFile(n, file) {
  isChanged = true;
  kept.set(n, { ...kept.get(n), ...file });
}
