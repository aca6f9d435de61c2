// The state of the open plan: its model and what the program says of its schedules, if the office's
// tables agree with its file; and the rows, bars and texts of the schedule that is drawn.

import { Refusal } from "./api.js";
import { byId } from "./dom.js";
import { drawingsOf, isLinked, looseDays, shownOf, todayDrawing, usualWeek } from "./drawing.js";
import { activityLabel, named, resourceLabel } from "./labels.js";
import { coloursOf, today } from "./layout.js";
import { isAlone } from "./local.js";
import { arcsOverWaits, isAbsence, mostNeeded } from "./project.js";
import { page, recordOf, shapeOf } from "./state.js";
import { RULE_NAMES } from "./words.js";
import {
  agrees, dayCells, daysOf, describedBy, projectModel, shopModel, slackOf, subjectOf,
} from "./subject.js";

const SEARCHED = { optimal: "shortest, proved" };
const STARRED = "critical by dates alone (crews not counted)";

export const startsOf = (table) => table.rows.map(({ start }) => start);

/** Returns what an error S1 means in names; nothing if the plan's file, with the changes that were
 * made here, has no such need, or the page hasn't read it. */
export function needWords(plan, line) {
  const [, activity, resource] =
    line.match(/\bS1 activity (\d+) resource (\d+)/)?.map(Number) ?? [];
  const model = activity ? projectModel(plan) : null;
  const need = model?.needs[activity - 1]?.[resource - 1];
  const capacity = model?.capacities[resource - 1];
  if (!(need > capacity)) return "";
  const name = model.resources.get(resource) ?? `resource ${resource}`;
  return `Activity ${activityLabel(namesIn(plan), activity)} needs ${need} of ${name}, which has `
    + `${capacity}, so it can never start.`;
}

async function learnTimes(plan, rule) {
  const table = plan.schedules.get(rule);
  const starts = startsOf(table);
  const isSound = plan.model && !table.isInfeasible;
  plan.slacks.set(rule, isSound ? await slackOf(plan, starts) : null);
  if (!plan.days.has(rule) && plan.calendar) {
    const asked = table.isInfeasible ? looseDays(table.rows, plan.calendar)
      : daysOf(plan, starts, plan.calendar);
    plan.days.set(rule, { rows: await asked.catch(() => null) });
  }
}

// the lines of a chart: activities, or machines or jobs
const linesBy = ({ kind }) => (kind === "shop" ? ["machine", "job"] : [""]);

async function learnDrawings(plan, rule) {
  const dates = datesIn(plan, rule);
  const calendar = dates && (plan.calendar ?? plan.week);
  for (const by of linesBy(plan)) {
    const place = `${rule} ${by}`;
    plan.drawings.set(place, await drawingsOf(plan, rule, calendar, by).catch((fault) => ({ fault })));
  }
  const last = (dates ?? []).map((row) => row?.last ?? "").sort().at(-1);
  const { total } = plan.schedules.get(rule);
  const isLater = calendar && last >= today();
  plan.todays.set(rule, isLater && await todayDrawing(calendar, total).catch(() => null));
}

/** Asks the program for the slack, the days and the drawings of a schedule of the plan. */
export async function learn(plan, rule) {
  await learnTimes(plan, rule);
  await learnDrawings(plan, rule);
}

/** Settles the model of a plan, and asks the program for all that is shown of its schedules. */
export async function settle(plan) {
  Object.assign(plan, { model: null, described: null, note: "", calendar: null,
    slacks: new Map(), drawings: new Map(), todays: new Map(), labels: namesIn(plan) });
  await settleFile(plan);
  const dated = [...plan.schedules].map(([rule, { rows }]) => [rows, datesIn(plan, rule)])
    .filter(([, days]) => days);
  plan.week = plan.calendar ? null : await usualWeek(dated).catch(() => null);
  for (const rule of plan.schedules.keys()) await learnDrawings(plan, rule);
}

async function settleFile(plan) {
  const [table] = plan.schedules.values();
  if (!table) return;
  plan.model = plan.kind === "shop" ? shopModel(table.rows) : projectModel(plan);
  if (!plan.model) {
    plan.note = "Add the file of this plan below to see slack: this page hasn't read it.";
    return;
  }
  const { labels } = plan;
  labels.lags = Object.fromEntries(plan.model.arcs.map(({ from, to, lag }) =>
    [`${from + 1}-${to + 1}`, lag]));
  const title = labels.title || `Plan ${plan.n}`;
  plan.subject = subjectOf(plan, table.rows, { ...labels, title });
  try {
    await settleModel(plan);
  } catch (fault) {
    if (!(fault instanceof Refusal)) throw fault;
    Object.assign(plan, { model: null, calendar: null, note: fault.message });
  }
}

async function settleModel(plan) {
  if (!(await agrees(plan))) {
    plan.model = null;
    plan.note = "Bind or set the lag here too to see slack: the office's plan differs from the "
      + "file, because somebody bound a resource or set a lag elsewhere.";
    return;
  }
  plan.described = await describedBy(plan.model, plan.labels);
  await settleCalendar(plan);
  for (const rule of plan.schedules.keys()) await learnTimes(plan, rule);
}

// the calendar that was set here, if the office's days are those that the program has by it; at a
// desk the days are then those that also skip holidays
async function settleCalendar(plan) {
  const set = recordOf(plan.n).set?.calendar;
  const told = [...plan.days].filter(([, days]) => days.rows);
  if (!set || !told.length) return;
  const holidays = isAlone() ? set.holidays : "";
  for (const [rule, days] of told) {
    const own = await daysOf(plan, startsOf(plan.schedules.get(rule)), { ...set, holidays });
    if (dayCells(own) !== dayCells(days.rows)) return;
  }
  plan.calendar = { start: set.start, days: set.days, holidays: set.holidays };
  if (set.holidays && !isAlone()) plan.days.clear();
}

// the office's dates, or else those of the program, if the calendar is known
function datesIn(plan, rule) {
  const rows = plan.days.get(rule)?.rows;
  return rows ? rows.map((row) => (row && row.first !== "-" ? row : null)) : null;
}

// -- the schedule that is drawn

export function nameOf(plan, rule) {
  const { verdict, total } = plan.schedules.get(rule);
  if (rule === "best") return `${SEARCHED[verdict] ?? "shortest found"} ${total}`;
  return `${RULE_NAMES[rule] ?? rule} ${total}${verdict}`;
}

/** Returns the title, ids and names of a plan; none if they were remembered of other rows. */
export function namesIn({ n, schedules }) {
  const { title = "", names = {}, resources = {}, shape } = recordOf(n);
  const [table] = schedules.values(), project = page.projects.get(n);
  const count = (table?.rows ?? project?.durations)?.length;
  const isOther = shape && table && shape !== shapeOf(table.rows);
  if (isOther) return { title: "", ids: {}, names: {}, resources: {}, count };
  return { title, ids: Object.fromEntries(project?.ids ?? []), names, resources, count };
}

function rowsOf(plan, table, dates, slack) {
  const { ids, names, resources } = namesIn(plan);
  return table.rows.map(({ act, job, step, mach, d, start, end }, index) => {
    const { TF: float, isCritical = false } = plan.dates?.rows?.[index] ?? {};
    const { first = "", last = "" } = dates?.[index] ?? {};
    const both = { index, start, end, d, first, last, slack: slack?.[index] ?? "", isCritical };
    if (act) {
      const described = plan.described?.get(act);
      const id = ids[act] ?? "", name = names[act] ?? "";
      const own = isAbsence(id) ? { slack: "", float: "", isCritical: false } : { float };
      return { ...both, number: act, id, label: id || act, name, ...own, ...described };
    }
    const jobName = names[job] ?? "", machineName = resources[mach] ?? "";
    const name = [jobName, machineName].filter(Boolean).join(", ");
    return { ...both, job, step, machine: mach, jobName, machineName, name };
  });
}

/** Returns whether the program prints an activity of a plan with ids: not the start and the end, and
 * perhaps no waits. */
export const isPrinted = ({ described, labels: { ids } }, number) =>
  (described ? described.has(number) : Boolean(ids[number]));

function timesOf({ start, end, first, last, slack, isCritical }, needed = "") {
  const dates = first && `, ${first} to ${last}`;
  const known = slack === "" ? "" : `; ${slack ? `slack ${slack}` : "no slack"} in this schedule`;
  return `: ${start} to ${end}${dates}${needed}${isCritical ? `; ${STARRED}` : ""}${known}`;
}

function projectBars({ plan, rows, slack }) {
  const { model } = plan;
  const labels = namesIn(plan);
  const isByResource = byId("colours").value === "resource" && model;
  const resourceName = (place) => resourceLabel(labels, place);
  return rows.map((row) => {
    const needs = model?.needs[row.index] ?? [];
    const most = model ? mostNeeded(needs, model.capacities) : 0;
    const needed = needs.map((need, place) =>
      (need ? `; needs ${need} of ${resourceName(place + 1)}` : "")).join("");
    const bySlack = slack ? (row.slack ? "loose" : "tight") : "plain";
    return {
      ...row, line: row.number, isAlone: true,
      labels: [`${row.label}${row.isCritical ? "*" : ""}`],
      ...(isAbsence(row.id) ? { colour: "absent", legend: isByResource && "absent" } : {
        colour: isByResource ? `c${most ? (most - 1) % 16 : "none"}` : bySlack,
        legend: isByResource && (most ? resourceName(most) : "no resource") }),
      words: `Activity ${named(row.label, row.name)}${timesOf(row, needed)}`,
    };
  });
}

// a schedule that isn't feasible has a line for each step
function shopBars({ plan, rows }) {
  const isAlone = !isLinked(plan, plan.drawn);
  const bars = rows.map((row) => {
    const { job, step, machine, jobName, machineName } = row;
    const words =
      `Job ${named(job, jobName)}, step ${step}, machine ${named(machine, machineName)}`;
    const bar = byId("lines").value === "machine"
      ? { line: machine, key: job, labels: [jobName, `${job}.${step}`, `${job}`],
        legend: jobName || `job ${job}` }
      : { line: job, key: machine, labels: [machineName, `M${machine}`, `${machine}`],
        legend: machineName || `machine ${machine}` };
    const line = isAlone ? row.index : bar.line;
    return { ...row, ...bar, line, isAlone, words: words + timesOf(row) };
  });
  bars.sort((a, b) => a.line - b.line || a.start - b.start || a.index - b.index);
  const colours = coloursOf(bars);
  return bars.map((bar) => ({ ...bar, colour: `c${colours.get(bar.key)}` }));
}

export function viewOf(plan) {
  const table = plan.schedules.get(plan.drawn);
  const starts = startsOf(table);
  const slack = plan.slacks.get(plan.drawn) ?? null;
  const dates = datesIn(plan, plan.drawn);
  const all = rowsOf(plan, table, dates, slack);
  const hasIds = all.some(({ id }) => id);
  const rows = hasIds ? all.filter(({ number }) => isPrinted(plan, number)) : all;
  const shown = shownOf(plan, rows);
  const bars = plan.kind === "project" ? projectBars({ plan, rows: shown, slack })
    : shopBars({ plan, rows: shown });
  const by = plan.kind === "shop" ? byId("lines").value : "";
  return {
    plan, starts, slack, rows, shown, bars, total: Math.max(...all.map(({ end }) => end)),
    hasIds, isNamed: rows.some(({ name }) => name),
    dates, calendar: dates && plan.calendar, isDated: dates && (plan.calendar ?? plan.week),
    drawings: plan.drawings.get(`${plan.drawn} ${by}`), today: plan.todays.get(plan.drawn),
  };
}

export function legendOf({ bars, slack, plan, drawings }) {
  const colours = new Map(bars.filter((bar) => bar.legend).map((bar) => [bar.legend, bar.colour]));
  const items = [...colours].sort(([a], [b]) => a.localeCompare(b, "en", { numeric: true }))
    .map(([legend, colour]) => [`bar ${colour}`, legend]);
  if (plan.kind === "project" && !items.length && slack) {
    items.push(["bar tight", "no slack in this schedule"],
      ["bar loose", "slack: it can slip by itself, up to the end of the thin line"],
      ["", "slack by the plan's file and the changes set here"]);
  }
  if (items.at(-1)?.[0] === "" && bars.some(({ colour }) => colour === "absent")) {
    items.push(["bar absent", "absent"]);
  }
  if (bars.some(({ isCritical }) => isCritical)) items.push(["", `* ${STARRED}`]);
  if (drawings.over?.size) items.push(["over", "more of a resource than there is"]);
  return items;
}

/** Returns the pairs of bars that are linked to one, by arcs or by their machine. */
export function linksOf({ plan, rows }, index) {
  const links = (plan.model ? arcsOverWaits(plan.model) : [])
    .filter(({ from, to }) => from === index || to === index).map(({ from, to }) => [from, to]);
  if (plan.kind !== "shop") return links;
  const order = rows.filter((row) => row.machine === rows[index].machine && row.d > 0)
    .sort((a, b) => a.start - b.start).map((row) => row.index);
  const at = order.indexOf(index);
  if (at > 0) links.push([order[at - 1], index]);
  if (at >= 0 && at + 1 < order.length) links.push([index, order[at + 1]]);
  return links;
}
