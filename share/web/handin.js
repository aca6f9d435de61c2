// The files of a schedule to hand in: CSV, JSON in the form of `plan --format json`, start times.

import { page } from "./state.js";
import { namesIn } from "./view.js";

// a text that a spreadsheet would take for a formula gets a quote sign; a signed number doesn't
function cellOf(value) {
  const isFormula = /^[=@\t\r]/.test(value) || /^[+-](?!\d+([.,]\d+)?$)/.test(value);
  const text = isFormula ? `'${value}` : String(value);
  return /[",;\n\r]/.test(text) ? `"${text.replaceAll('"', '""')}"` : text;
}

export const csvText = (rows) =>
  [Object.keys(rows[0]), ...rows.map(Object.values)]
    .map((cells) => `${cells.map((cell) => cellOf(String(cell ?? ""))).join(",")}\n`).join("");

export const startsText = ({ starts }) => starts.map((start) => `${start}\n`).join("");

// with ids as `plan schedule` prints them, whose activities have resources and predecessors
const rowsFor = ({ rows, isNamed, dates }, nameOf, keysOf) => rows.map((row) => {
  const { d, start, end, first, last, resources, predecessors } = row;
  return {
    ...keysOf(row), d, start, end, ...(isNamed && { name: nameOf(row) }),
    ...(resources !== undefined && { resources, predecessors }), ...(dates && { first, last }),
  };
});

const keysOf = ({ id, number: act, job, step, machine: mach }) =>
  (id ? { id } : act ? { act } : { job, step, mach });
const allKeysOf = ({ id, number: act, ...row }) =>
  (id ? { act, id } : keysOf({ number: act, ...row }));

// a cell also has a name in words
const WORDS = { act: "activity", mach: "machine", d: "duration", first: "first_day", last: "last_day" };
const inWords = (row) => ({ ...row, ...Object.fromEntries(
  Object.entries(row).filter(([head]) => WORDS[head]).map(([head, cell]) => [WORDS[head], cell])) });

// the members of an object in the order of their bytes, and null for an empty cell
function settled(name, value) {
  if (value === "") return /^(resources|predecessors)$/.test(name) ? "" : null;
  const isObject = value instanceof Object && !Array.isArray(value);
  return isObject ? Object.fromEntries(Object.entries(value).sort()) : value;
}

function handedIn(view) {
  const { plan, total, rows } = view;
  const { n, drawn, schedules } = plan;
  const { verdict, lower } = schedules.get(drawn);
  // as in `plan`, the name of a step is that of its order
  const nameOf = ({ name, jobName = name }) => jobName;
  return {
    desk: page.desk, plan: n, schedule: drawn, title: namesIn(plan).title, makespan: total,
    ...(drawn === "best" && { status: verdict, upper_bound: total }),
    ...(verdict === "optimal" && { lower_bound: total }),
    ...(drawn === "best" && lower && { lower_bound: lower }),
    rows: rowsFor({ ...view, isNamed: rows.some(nameOf) }, nameOf, allKeysOf).map(inWords),
  };
}

export const jsonText = (view) => `${JSON.stringify(handedIn(view), settled)}\n`;

export const TEXTS = {
  csv: (view) => csvText(rowsFor(view, ({ name }) => name, keysOf)),
  json: jsonText,
  "starts.txt": startsText,
};
