// A list that is planned by its dates, as `plan solve` does: what is done stays done, absences take
// their part of a crew, and the rest begins now or later. The schedule becomes a project whose
// activities wait for their starts, so that every rule gives it. The program reads all dates.

import { Refusal, tableOf } from "./api.js";
import { cellsOf, listText } from "./cells.js";
import { make } from "./dom.js";
import { isOfDates } from "./messages.js";
import { printed, searched } from "./program.js";
import { absenceId, arcsOverWaits, isWait, readProject } from "./project.js";
import { capacitiesOf, projectText } from "./subject.js";

const MOST_SECONDS = 10;
const ID_HEAD = /^(?:(?:activity |task )?id|n[ro]\.?|number)$/i;
// the ids of the row of the capacities, as the program knows them
const CAPACITY_WORDS = ["capacity", "kapazit\u00e4t", "kapazitaet", "capacit\u00e9", "capacite", "capacidad"];
const NO_DATES = { now: "", goal: "makespan", start: "", days: "1111100", holidays: "" };
const GOALS = { makespan: "the shortest plan", tardiness: "the least delay" };
const WORKING = { 1111100: "Mo\u2013Fr", 1111110: "Mo\u2013Sa", 1111111: "all days" };

// a text with its ASCII letters in lower case
const asciiLower = (text) => text.replace(/[A-Z]/g, (letter) => letter.toLowerCase());

/** Returns a list without its dates, in which each absence has an id of its own, and the cells with
 * the begins of the absences; null if a list has neither. */
export function withoutDates(list, given) {
  const [heads, ...rows] = cellsOf(list).map((row) => row.map((cell) => cell.trim()));
  const at = heads.findIndex((head) => ID_HEAD.test(head));
  const rowsOf = (words) => rows.filter((row) => words.includes(asciiLower(row[at] ?? "")));
  const [capacities = []] = rowsOf(CAPACITY_WORDS), absences = rowsOf(["absence"]);
  const dates = heads.map((head, place) =>
    isOfDates(head) && !capacities[place] && !given.has(head));
  if (!dates.includes(true) && !absences.length) return null;
  const earliest = heads.findIndex((head) => head.toLowerCase() === "earliest");
  const begins = absences.map((row) => row[earliest] ?? "");
  absences.forEach((row, number) => { row[at] = absenceId(number); });
  const text = listText([heads, ...rows].map((row) => row.filter((_, place) => !dates[place])));
  return { text, begins };
}

/** Returns the fields of what a list with dates is planned by. */
export function dateNodes(file) {
  const dates = (file.dates ??= { ...NO_DATES });
  const field = (name, words, node) => {
    Object.assign(node, { name, value: dates[name], autocomplete: "off",
      onchange: () => { dates[name] = node.value.trim(); } });
    return make("label", {}, words, node);
  };
  const choice = (options) => make("select", {}, ...Object.entries(options)
    .map(([value, words]) => make("option", { value }, words)));
  return [
    field("now", "Now: an instant or a date", make("input")),
    field("goal", "Goal", choice(GOALS)),
    field("start", "First date, if the list has dates", make("input", { type: "date" })),
    field("days", "Working days", choice(WORKING)),
    field("holidays", "Holidays, one per line", make("textarea", { rows: 2 })),
  ];
}

const calendarOf = ({ start, days, holidays }) => [
  ...(start ? ["--start", start, "--days", days] : []),
  ...(start && holidays ? ["--holidays", "holidays"] : []),
];

// the instants of cells with instants or dates; an empty one is 0
async function instantsOf(cells, dates) {
  const rows = cells.map((cell, at) => [`d-${at}`, "1", cell || "0"]);
  const words = ["solve", "--format", "json", "--conflicts", "1", ...calendarOf(dates), "dates"];
  const files = { dates: listText([["id", "duration", "fixed"], ...rows]), holidays: dates.holidays };
  return JSON.parse(await printed(words, files)).rows.map(({ start }) => start);
}

function checkNow({ now, start }) {
  const isDate = /^\d{4}-\d\d-\d\d$/.test(now);
  if (isDate && !start) throw new Refusal("Enter the first date, too: Now is a date.");
  if (!isDate && !/^\d{0,8}$/.test(now)) {
    throw new Refusal("Write Now as a whole number, or as a date such as 2027-05-11.");
  }
}

async function foundBy({ bytes, dates, given }, told) {
  checkNow(dates);
  const words = ["solve", "--format", "json", "--seconds", `${MOST_SECONDS}`, "--goal", dates.goal,
    ...(dates.now ? ["--now", dates.now] : []), ...calendarOf(dates),
    ...capacitiesOf({ given: [...given] }), "list"];
  const { signal } = new AbortController();
  return JSON.parse(await searched(words, { list: bytes, holidays: dates.holidays }, told, signal));
}

const OTHER = "Save this list, and plan it with plan solve: the page can't draw it.";

// by their places in a project the rows of a schedule of it, which has no waits and no absences
function rowsBy({ ids, durations }, rows, away) {
  const places = [...durations.keys()].slice(1, -1).filter((at) => {
    const id = ids.get(at + 1);
    return !isWait(id) && !away.has(id);
  });
  const isSame = places.length === rows.length
    && rows.every(({ id }, place) => (ids.get(places[place] + 1) ?? id) === id);
  if (!isSame) throw new Refusal(OTHER);
  return new Map(rows.map((row, place) => [places[place], row]));
}

// by the place in a project the id, and the first and the last instant of what is left of it from now
// on; null for what is done and for waits
function spansOf(project, { rows, makespan }, [now, ...begins]) {
  const away = new Map(begins.map((begin, number) => [absenceId(number), begin]));
  const found = rowsBy(project, rows, away);
  return project.durations.map((duration, at) => {
    const own = project.ids.get(at + 1), begin = away.get(own);
    const { id = own, start = null, end } = away.has(own)
      ? { start: begin, end: Math.min(begin + duration, makespan) } : found.get(at) ?? {};
    const first = Math.max(start, now);
    return start === null || end < first || (away.has(own) && end === first) ? null
      : { id, first, end };
  });
}

// adds an activity that needs nothing between others, and returns its place
function addWait({ durations, arcs }, duration, from, followers) {
  const own = durations.push(duration) - 1;
  arcs.push({ from, to: own, lag: 0 }, ...followers.map((to) => ({ from: own, to, lag: 0 })));
  return own;
}

// adds the links of a list that its schedule keeps; a lag is a wait
function addLinks(model, project, spans, numberOf) {
  for (const { from, to, lag } of arcsOverWaits(project)) {
    const isKept = spans[from] && spans[to] && spans[from].end + lag <= spans[to].first;
    if (isKept && lag) addWait(model, lag, numberOf.get(from), [numberOf.get(to)]);
    else if (isKept) model.arcs.push({ from: numberOf.get(from), to: numberOf.get(to), lag: 0 });
  }
}

// the project of what is left: between a start and an end, each activity behind a wait up to its start
function waitingModel(project, spans) {
  const kept = spans.flatMap((span, at) => (span ? [at] : []));
  const numberOf = new Map(kept.map((at, number) => [at, number + 1]));
  const durations = [0, ...kept.map((at) => spans[at].end - spans[at].first)], arcs = [];
  const model = { durations, arcs, capacities: project.capacities };
  addLinks(model, project, spans, numberOf);
  const lags = durations.length - 1 - kept.length;
  const instants = [...new Set(kept.map((at) => spans[at].first))].filter((instant) => instant > 0)
    .sort((a, b) => a - b);
  instants.reduce(([from, before], instant) => [addWait(model, instant - before, from,
    kept.filter((at) => spans[at].first === instant).map((at) => numberOf.get(at))), instant],
  [0, 0]);
  const last = durations.push(0) - 1, free = project.capacities.map(() => 0);
  arcs.push(...kept.map((at) => ({ from: numberOf.get(at), to: last, lag: 0 })));
  model.needs = durations.map((_, number) => project.needs[kept[number - 1]] ?? free);
  return { kept, model, lags };
}

// the ids and names of what is left, and the ids of its lags as `plan import` gives them; waits up to
// a start have none, so that no output has them
function labelsFor({ names, resources }, spans, { kept, lags }) {
  const own = (textOf) => Object.fromEntries(kept.map((at, number) => [number + 2, textOf(at)])
    .filter(([, text]) => text));
  const waits = Array.from({ length: lags }, (_, at) => [kept.length + 2 + at, `wait+${at}`]);
  return { ids: { ...own((at) => spans[at].id), ...Object.fromEntries(waits) },
    names: own((at) => names.get(at + 1)), resources: Object.fromEntries(resources) };
}

function wordsOn({ status, makespan, lower_bound: lower, rows, ...found }) {
  const { tardiness_upper_bound: most, tardiness_lower_bound: least } = found;
  const late = rows.filter((row) => row.late > 0).map(({ id, late: by }) => `${id} by ${by}`);
  const done = rows.filter(({ start }) => start === null).map(({ id }) => id);
  return [
    status === "optimal" ? `It ends at ${makespan}, and none is shorter.`
      : `It ends at ${makespan}, and none ends before ${lower}.`,
    ...(most === undefined ? [] : [most === least ? `The greatest delay is ${most}, the least one.`
      : `The greatest delay is ${most}, and none has less than ${least}.`]),
    ...(late.length ? [`Late: ${late.join(", ")}.`] : []),
    ...(done.length ? [`Done: ${done.join(", ")}.`] : []),
  ].join(" ");
}

/** Returns the project of what a found schedule has left, as its text, with the starts of its
 * activities and its names. `instants` are those of now and of the begins of absences. */
export function waitingProject(list, found, instants) {
  const project = readProject(list), spans = spansOf(project, found, instants);
  const own = waitingModel(project, spans), labels = labelsFor(project, spans, own);
  const firsts = own.kept.map((at) => spans[at].first);
  return { text: projectText(own.model, labels), firsts, labels };
}

/** Plans a list by its dates. Returns the plan as that of a saved file, and words on it. */
export async function plannedBy(file, told) {
  const { name, text, given, dates, list } = file, found = await foundBy(file, told);
  const own = waitingProject(list.text, found,
    await instantsOf([dates.now, ...list.begins], dates));
  const { firsts, labels } = own;
  if (!firsts.length) throw new Refusal("Open another list: all activities of this one are done.");
  const { rows } = tableOf(await printed(["schedule", "num", "plan.sm"], { "plan.sm": own.text }));
  if (!firsts.every((first, number) => rows[number + 1].start === first)) {
    throw new Refusal(OTHER);
  }
  const { start, days, holidays } = dates;
  return { words: wordsOn(found), plan: {
    kind: "project", instance: "-", bytes: new TextEncoder().encode(own.text),
    record: { title: name.replace(/\.[^.]*$/, ""), names: labels.names, resources: labels.resources,
      list: { name, text, given: [...given], dates },
      set: start ? { calendar: { start, days, holidays } } : {} },
  } };
}
