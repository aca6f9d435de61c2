// The file of the open plan, as the program gets it, and what the program says of its schedules:
// slack, verdicts and calendar days. A lag becomes an activity that needs nothing, behind all others.

import { Refusal, tableOf } from "./api.js";
import { printed, searched } from "./program.js";
import { page, recordOf } from "./state.js";

const rowLines = (rows) => rows.map((row) => `${row.join(" ")}\n`).join("");

const nameLines = (word, names) =>
  Object.entries(names).map(([number, name]) => `${word} ${number} ${name}\n`).join("");

/** Returns a project file of a model. */
export function projectText(model, { ids = {}, names = {}, resources = {} } = {}) {
  const { durations, arcs, needs, capacities } = model;
  const lagged = arcs.filter(({ lag }) => lag > 0);
  const direct = arcs.filter(({ lag }) => !lag);
  const after = durations.map((_, at) => direct.filter(({ from }) => from === at)
    .map(({ to }) => to + 1));
  lagged.forEach(({ from }, at) => after[from].push(durations.length + at + 1));
  const waiting = lagged.map(({ to, lag }) =>
    ({ duration: lag, after: [to + 1], needs: capacities.map(() => 0) }));
  const jobs = [...durations.map((duration, at) =>
    ({ duration, after: after[at], needs: needs[at] })), ...waiting];
  return `projects: 1
jobs: ${jobs.length}
- renewable: ${capacities.length}
- nonrenewable: 0
- doubly constrained: 0
PRECEDENCE RELATIONS:
job, modes, count, successors
${rowLines(jobs.map((job, at) => [at + 1, 1, job.after.length, ...job.after]))
}REQUESTS/DURATIONS:
job, mode, duration, needs
${rowLines(jobs.map((job, at) => [at + 1, 1, job.duration, ...job.needs]))
}RESOURCEAVAILABILITIES:
capacities
${capacities.join(" ")}
PROJECT INFORMATION:
${nameLines("id", ids)}${nameLines("name", names)}${nameLines("resource", resources)}`;
}

/** Returns a job shop file of the rows of a schedule, whose instance is `shop`. */
export function shopText(rows, names = {}, resources = {}) {
  const jobs = rows.at(-1).job;
  const steps = Array.from({ length: jobs }, () => []);
  for (const { job, mach, d } of rows) steps[job - 1].push(mach, d);
  return `instance shop\n${nameLines("+ machine", resources)}${nameLines("+ job", names)}a plan
${jobs} ${rows.length / jobs}\n${rowLines(steps)}`;
}

/** Returns the model of a job shop: a machine is a resource of 1; each step waits for the one before
 * it. */
export function shopModel(rows) {
  const machines = [...Array(Math.max(...rows.map(({ mach }) => mach)) + 1).keys()];
  return {
    durations: rows.map(({ d }) => d),
    arcs: rows.flatMap(({ step }, to) => (step > 1 ? [{ from: to - 1, to, lag: 0 }] : [])),
    needs: rows.map(({ mach }) => machines.map((machine) => Number(machine === mach))),
    capacities: machines.map(() => 1),
  };
}

/** Returns the model of a project with the lags and binds that were set here; null without its
 * file. */
export function projectModel(plan) {
  const project = page.projects.get(plan.n);
  if (!project) return null;
  const { lag: lags = {}, bind: binds = {} } = recordOf(plan.n).set ?? {};
  const arcs = project.arcs.map((arc) =>
    ({ ...arc, lag: lags[`${arc.from + 1}-${arc.to + 1}`]?.lag ?? 0 }));
  const bound = (code) => page.codes.find((found) => found.code === code)?.capacity;
  const capacities = project.capacities.map((capacity, place) =>
    bound(binds[place + 1]?.code) ?? capacity);
  const isChanged = arcs.some(({ lag }) => lag > 0) || capacities.join() !== project.capacities.join();
  return { ...project, arcs, capacities, isChanged };
}

/** Returns the files of a plan for the program, and the words that name the one to schedule. */
export function subjectOf({ kind, model }, rows, { title, ids, names, resources }) {
  const project = kind === "project" && !model.isChanged && model.bytes ? model.bytes
    : projectText(model, kind === "project" ? { ids, names, resources } : { resources });
  const shop = kind === "shop" && { "plan.txt": shopText(rows, names, resources) };
  return {
    files: { "plan.sm": project, ...shop }, title,
    words: kind === "shop" ? ["plan.txt", "shop"] : ["plan.sm"],
  };
}

// -- start times

const lagged = ({ arcs }) => arcs.filter(({ lag }) => lag > 0);

const startLines = (starts) => starts.map((start) => `${start}\n`).join("");

/** Returns start times as a text; the activity of a lag begins as early as it can. */
export const earlyStarts = (model, starts) => startLines([...starts,
  ...lagged(model).map(({ from }) => starts[from] + model.durations[from])]);

/** Returns start times as a text; the activity of a lag begins as late as it can. */
export const lateStarts = (model, starts) => startLines([...starts,
  ...lagged(model).map(({ to, lag }) => Math.max(0, starts[to] - lag))]);

// null for an error of the program, whose line begins with its code
async function orNull(asking) {
  try {
    return await asking;
  } catch (fault) {
    if (fault instanceof Refusal && /^[A-Z]\d/.test(fault.message)) return null;
    throw fault;
  }
}

/** Returns the slack of each activity or step in a schedule; null if it isn't feasible, or if the
 * plan is beyond the limits of a project. */
export async function slackOf({ model, subject: { files } }, starts) {
  const words = ["slack", "plan.sm", "starts"];
  const text = await orNull(printed(words, { ...files, starts: lateStarts(model, starts) }));
  return text && tableOf(text).rows.slice(0, starts.length).map(({ slack }) => slack);
}

// in JSON the activities without an id would be left out
async function comparedTo({ words: [file, ...instance], files }, starts) {
  const words = ["compare", file, "starts", "starts", ...instance];
  const text = await printed(words, { ...files, starts });
  const [, total, line] = text.match(/^A makespan (\d+): (.*)$/m);
  return { line, total: Number(total), starts: tableOf(text).rows.map(({ A }) => A) };
}

/** Returns a model without links, whose capacities are doubled until start times keep to them; and by
 * the place of a resource the first verdict that more of it is needed than there is. */
export async function loosened(model, starts) {
  const over = new Map();
  let loose = { ...model, arcs: [] };
  for (;;) {
    const files = { "plan.sm": projectText(loose) };
    const { line } = await comparedTo({ words: ["plan.sm"], files }, startLines(starts));
    const place = line.match(/ more of resource (\d+) /)?.[1] - 1;
    if (!(place >= 0)) return { loose, over };
    if (!over.has(place)) over.set(place, line);
    const { capacities } = loose;
    loose = { ...loose, capacities: capacities.with(place, 2 * capacities[place] || 1) };
  }
}

const withoutLags = (model, names) =>
  projectText({ ...model, arcs: model.arcs.map((arc) => ({ ...arc, lag: 0 })) }, names);

/** Returns by the number of each activity that is printed its resources and predecessors in the ids of
 * its file, as the program prints them; null without ids. */
export async function describedBy(model, names) {
  if (!Object.keys(names.ids).length) return null;
  const words = ["schedule", "num", "--format", "json", "plan.sm"];
  const { rows } = JSON.parse(await printed(words, { "plan.sm": withoutLags(model, names) }));
  return new Map(rows.map(({ act, resources, predecessors }) =>
    [act, { resources, predecessors }]));
}

/** Returns a verdict with the activity before a lag in the place of the lag's own. */
export function plainLine(line, model) {
  const count = model.durations.length;
  return line.replace(/(?<=before )\d+/, (number) =>
    (number > count ? lagged(model)[number - count - 1].from + 1 : number));
}

/** Returns the verdict of `plan check` on start times in any form that it reads, with the starts and
 * the makespan. */
export async function verdictOf({ model, subject, labels }, text) {
  if (!lagged(model).length) return comparedTo(subject, text);
  const files = { "plan.sm": withoutLags(model, labels) };
  const { starts, total } = await comparedTo({ ...subject, files }, text);
  const { line } = await comparedTo(subject, earlyStarts(model, starts));
  return { line: plainLine(line, model), total, starts };
}

/** Returns whether the office's dates and schedules are those of the plan's file with the changes
 * that were made here. */
export async function agrees(plan) {
  const { model, subject, dates, schedules } = plan;
  const heads = ["d", "ES", "EF", "LS", "LF"];
  const cells = ({ rows }) => rows.slice(0, model.durations.length)
    .map((row) => heads.map((head) => row[head]).join(" ")).join();
  if (dates?.rows) {
    const own = await orNull(printed(["cpm", "plan.sm"], subject.files));
    if (!own || cells(tableOf(own)) !== cells(dates)) return false;
  }
  for (const { rows } of schedules.values()) {
    if (rows.map(({ d }) => d).join() !== model.durations.join()) return false;
    const verdict = await orNull(verdictOf(plan, startLines(rows.map(({ start }) => start))));
    if (verdict?.line !== "active") return false;
  }
  return true;
}

const freeOf = ({ holidays }) => (holidays ? ["--holidays", "holidays"] : []);

/** Returns the first and the last day of each activity or step, null if it takes no time. */
export async function daysOf({ model, subject: { files, words } }, starts, calendar) {
  const { start, days, holidays = "" } = calendar;
  const given = ["days", ...freeOf(calendar), "--starts", "starts", start, days];
  const text = await printed([...given, ...words],
    { ...files, holidays, starts: earlyStarts(model, starts) });
  return tableOf(text).rows.slice(0, starts.length)
    .map(({ first, last }) => (first === "-" ? null : { first, last }));
}

/** Returns the days of a schedule as a text, to compare them. */
export const dayCells = (rows) =>
  rows.map((row) => (row && row.first !== "-" ? `${row.first} ${row.last}` : "-")).join();

/** Returns the seconds of each slice of a search: 1, 2, 4 .., and the rest. */
export function slicesOf(seconds) {
  const slices = [];
  for (let rest = seconds, slice = 1; rest > 0; rest -= slices.at(-1), slice *= 2) {
    slices.push(rest < 3 * slice ? rest : slice);
  }
  return slices;
}

async function solvedIn({ model, subject: { files, words } }, limits, told, signal) {
  const text = await searched(["solve", ...limits, ...words], files, told, signal);
  if (!text) return null;
  const { verdict, rows, total } = tableOf(text);
  const lower = Number(text.split(/\s/, 2)[1]);
  return { rows: rows.slice(0, model.durations.length), verdict, lower, total };
}

/** Searches for a short schedule, and returns it as a table with the verdict and the bound. The
 * search runs in slices, each longer than the one before it. When `signal` ends it, the best
 * schedule of the slices that had ended is returned; null if there is none. */
export async function solved(plan, seconds, told, signal) {
  let best = null;
  const limits = slicesOf(seconds).map((slice) => ["--seconds", `${slice}`]);
  for (const limit of [["--conflicts", "1", ...limits[0]], ...limits]) {
    const found = await solvedIn(plan, limit, told, signal);
    if (found && !(found.total > best?.total)) best = found;
    if (!found || found.verdict === "optimal") break;
  }
  return best;
}

/** Returns the list that a plan's file comes from, as its `text` with the capacities `given`; null
 * if it has none, if binds or lags changed the plan, or if it was planned by its dates. */
export function ownList({ n, kind, model }) {
  const { list } = recordOf(n);
  return kind === "project" && model && !model.isChanged && list && !list.dates ? list : null;
}

/** Returns the options for the capacities that were given to a list. */
export const capacitiesOf = (list) =>
  (list?.given ?? []).flatMap(([name, amount]) => ["--capacity", `${name}=${amount}`]);

/** Returns a file to save: the list, `report`, `ics` or `svg`. */
export function savedText(plan, form, starts, calendar) {
  const { model, subject: { files, words, title } } = plan;
  const { start, days, holidays = "" } = calendar ?? {}, list = ownList(plan);
  const early = earlyStarts(model, starts);
  const given = { ...files, holidays, starts: early, "list.csv": list?.text ?? "" };
  const free = freeOf({ holidays });
  const dates = start ? ["--start", start, "--days", days, ...free] : [];
  const commands = {
    "list.csv": ["days", "--format", "list", ...free, ...capacitiesOf(list), "--starts", "starts",
      start, days, "list.csv"],
    html: ["report", `--title=${title}`, ...dates, "--starts", "starts", ...words],
    ics: ["days", "--format", "ics", ...free, "--starts", "starts", start, days, ...words],
    svg: ["chart", "--svg", "--starts", "starts", ...words],
  };
  return printed(commands[form], given);
}
