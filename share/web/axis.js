// The working days of a calendar, as the program prints them. The number of a day in their list is
// the time at which it begins.

import { printed } from "./program.js";

// the activities of a project of one unit each, and the greatest number of calls
const COUNT = 500;
const MOST_CALLS = 20;

const units = Array.from({ length: COUNT }, (_, at) => at);
const UNITS = `projects: 1
jobs: ${COUNT}
- renewable: 1
- nonrenewable: 0
- doubly constrained: 0
PRECEDENCE RELATIONS:
job, modes, count
${units.map((at) => `${at + 1} 1 0\n`).join("")}REQUESTS/DURATIONS:
job, mode, duration, needs
${units.map((at) => `${at + 1} 1 1 0\n`).join("")}RESOURCEAVAILABILITIES:
capacity
1
`;

/** Returns working days from a date on, behind the first `skipped` ones. */
export async function daysFrom(date, marks, holidays, skipped) {
  const words = ["days", "--format", "json", ...(holidays ? ["--holidays", "holidays"] : []),
    "--starts", "starts", date, marks, "units.sm"];
  const starts = units.map((at) => `${skipped + at}\n`).join("");
  const { rows } = JSON.parse(await printed(words, { "units.sm": UNITS, starts, holidays }));
  return rows.map(({ first }) => first);
}

/** Returns the working days of a calendar up to a date, or up to the first one behind it. */
export async function daysUpTo(last, { start, days, holidays = "" }) {
  const found = [];
  for (let call = 0; call < MOST_CALLS && !(found.at(-1) >= last); call += 1) {
    found.push(...await daysFrom(start, days, holidays, call * COUNT));
  }
  return found;
}
