// The plan that is open: asks for its pages, shows its schedules as a chart and as tables, searches,
// saves, and checks start times from elsewhere. The program gives slack, days and verdicts.

import { ask, askTable, planPath, Refusal, tableOf } from "./api.js";
import { showChanges } from "./changes.js";
import { fillPaper, showChart } from "./chart.js";
import {
  all, byId, clear, download, during, faultNodes, fill, letTake, make, onSubmit, put, refusalNode,
  say, tableNode, tell,
} from "./dom.js";
import { isLinked } from "./drawing.js";
import { showEditable } from "./edit.js";
import { TEXTS } from "./handin.js";
import { sentFile } from "./import.js";
import { keptPlan } from "./keep.js";
import { verdictWords } from "./messages.js";
import { visitPlace } from "./place.js";
import { markOpen, showPlans } from "./plans.js";
import { isWait } from "./project.js";
import { searchWords, shorterOf } from "./search.js";
import { page, recordOf, remember, RULES, shapeOf, WORDS_OF_KIND } from "./state.js";
import { ownList, savedText, solved, verdictOf } from "./subject.js";
import { showTable } from "./table.js";
import { learn, nameOf, namesIn, needWords, settle, viewOf } from "./view.js";
import { letAskWhatIf, showWhatIf } from "./whatif.js";
import { bringBack, wholeText } from "./whole.js";
import { COLUMN_WORDS, RULE_NAMES, RULE_WORDS } from "./words.js";

let view = null;
// ends the search that is on
let searching = null;

/** Opens a plan. If only its calendar has changed, `before` is the plan as it was. */
export async function openPlan(n, before = null) {
  const { kind } = page.plans.find((plan) => plan.n === n);
  const isNew = page.plan?.n !== n;
  const drawn = !isNew && RULES[kind].includes(page.plan.drawn) ? page.plan.drawn : RULES[kind][0];
  const plan = { n, kind, drawn, schedules: new Map(), days: new Map() };
  page.plan = plan;
  byId("desk").removeAttribute("data-list");
  visitPlace(n);
  markOpen();
  awaitPlan(isNew);
  try {
    if (kind === "project") plan.dates = await askTable(planPath(n, "dates"));
    await askSchedules(plan);
    if (page.plan === plan) await showPlan();
    if (page.plan === plan && before && !plan.fault) await keepOthers(plan, before);
  } catch (fault) {
    if (page.plan === plan) fill("plan-answer", ...faultNodes(fault));
  }
  if (page.plan === plan) byId("plan").ariaBusy = null;
}

async function askSchedules(plan) {
  for (const rule of RULES[plan.kind]) {
    const table = await askTable(planPath(plan.n, "schedule", rule));
    if (table instanceof Refusal) {
      plan.fault = table;
      return;
    }
    plan.schedules.set(rule, table);
  }
  for (const rule of RULES[plan.kind]) {
    plan.days.set(rule, await askTable(planPath(plan.n, "days", rule)));
    if (plan.days.get(rule) instanceof Refusal) return;
  }
}

// keeps the schedules that no rule made, and the one that is drawn
async function keepOthers(plan, { schedules, drawn }) {
  const others = [...schedules].filter(([rule]) => !RULES[plan.kind].includes(rule));
  for (const [rule, table] of others) {
    plan.schedules.set(rule, table);
    await learn(plan, rule);
  }
  if (page.plan !== plan || !others.length) return;
  plan.drawn = drawn;
  showSchedules();
}

const headOf = ({ n, kind }) => `Plan ${n}, a ${WORDS_OF_KIND[kind]}`;

function awaitPlan(isNew) {
  view = null;
  searching?.abort();
  put("plan-head", headOf(page.plan));
  fill("plan-answer", tell("Asking the office …"));
  byId("plan-body").hidden = true;
  byId("plan").hidden = false;
  byId("plan").ariaBusy = "true";
  fill("best-answer");
  if (!isNew) return;
  clear("#changes .answer, #handin .answer, #import-answer, #plans-answer, #names-answer, #news");
  byId("tab-table").click();
  byId("plan-head").focus();
}

export function leavePlan() {
  searching?.abort();
  page.plan = view = null;
  byId("plan").hidden = true;
  fill("paper");
  markOpen();
}

export async function showPlan() {
  const { plan } = page;
  const faults = [plan.fault, plan.dates].filter((part) => part instanceof Refusal);
  const [table] = plan.schedules.values();
  if (table) noteTable(plan, table);
  await settle(plan);
  if (page.plan !== plan) return;
  for (const fault of faults) {
    Object.assign(fault, { why: needWords(plan, fault.message), labels: namesIn(plan) });
  }
  fill("plan-answer", ...faults.flatMap(faultNodes));
  byId("plan-body").hidden = false;
  for (const part of all("#plan .drawn")) part.hidden = !table;
  showPlans();
  showParts(plan);
  showChanges(plan);
  showWhatIf(plan);
  showDates(plan);
  showEditable(plan);
  put("handin-words", "Mend the plan first: there is no schedule to hand in.");
  if (table) showSchedules();
}

function noteTable({ n }, table) {
  const { names, shape } = recordOf(n);
  const own = names && !shape ? { shape: shapeOf(table.rows) } : {};
  remember(n, { makespan: table.total, ...own });
}

function showParts(plan) {
  const { kind, model, note } = plan;
  const { title, names } = namesIn(plan);
  const isProject = kind === "project";
  put("plan-head", headOf(plan) + (title && `: ${title}`));
  byId("lines-label").hidden = isProject;
  byId("colours-label").hidden = !isProject || !model;
  byId("note").hidden = !note;
  put("note", note);
  byId("names-zone").hidden = isProject ? Boolean(model) : Object.keys(names).length > 0;
  if (!model) byId("colours").value = "slack";
}

// returns the function that points at a row
function showSchedules() {
  showChoice(page.plan);
  showRules(page.plan);
  return showDrawn();
}

function showDrawn() {
  const { plan } = page;
  view = viewOf(plan);
  const point = showChart(view);
  byId("note").hidden = !plan.note || plan.note === view.drawings.fault?.message;
  showTable(view, `Schedule by ${nameOf(plan, plan.drawn)}`);
  showSaves(view);
  showDayNote(plan);
  byId("keep-row").hidden = !isKeepable(plan);
  put("handin-words", `The schedule that is drawn: ${nameOf(plan, plan.drawn)}.`);
  return point;
}

export function redraw() {
  if (view) showChart(view);
}

export const showPaper = () => (view ? fillPaper(view)
  : fill("paper", say("Make a plan or open one, and print that.")));

function showDayNote(plan) {
  const refusal = [...plan.days.values()].find((days) => days instanceof Refusal);
  const words = !refusal ? "Set the calendar under Changes to see dates of this schedule: it "
    + "wasn't set on this computer."
    : refusal.message.endsWith("G4 no calendar")
      && "Set a calendar under Changes to see dates: times are units of working time, from 0 on.";
  fill("days", ...(view.dates ? [] : words ? [say(words)] : faultNodes(refusal)));
}

function showChoice(plan) {
  const choices = [...plan.schedules.keys()].map((rule) => {
    const input = make("input", { type: "radio", name: "drawn", value: rule });
    input.checked = rule === plan.drawn;
    input.onchange = () => {
      plan.drawn = rule;
      showDrawn();
    };
    return make("label", { title: RULE_WORDS[rule] }, input, ` ${nameOf(plan, rule)}`);
  });
  fill("drawn", byId("drawn").firstElementChild, ...choices);
}

const titled = (words) =>
  make("abbr", { title: COLUMN_WORDS[words] ?? RULE_WORDS[words] }, RULE_NAMES[words] ?? words);

// the heads of a table with the rows of activities that have an id, if some have one
function withIds(plan, { heads, rows }) {
  const { ids } = namesIn(plan);
  if (!rows.some(({ act }) => ids[act])) return { heads, rows };
  return { heads: ["id", ...heads.slice(1)],
    rows: rows.map((row) => ({ ...row, id: ids[row.act] })).filter(({ id }) => id && !isWait(id)) };
}

function showDates(plan) {
  const { dates } = plan;
  byId("dates-fold").hidden = !dates?.rows;
  if (!dates?.rows) return;
  const { heads, rows } = withIds(plan, dates);
  fill("dates", tableNode({
    caption: `Earliest and latest dates, crews not counted; the whole takes ${dates.total}`,
    heads: [...heads.map(titled), ""],
    rows: rows.map((row) => [...heads.map((head) => row[head]), row.isCritical ? "*" : ""]),
    marks: rows.map((row) => row.isCritical),
  }));
}

function showRules(plan) {
  const { schedules } = plan;
  const rules = [...schedules.keys()], own = [...schedules.values()];
  const tables = own.map((table) => ({ ...table, ...withIds(plan, table) }));
  const fixed = tables[0].heads.slice(0, -2);
  const rows = tables[0].rows.map((row, index) => [
    ...fixed.map((head) => row[head]),
    ...tables.map(({ rows: ends }) => `${ends[index].start}–${ends[index].end}`),
  ]);
  const names = rules.map((rule) =>
    (rule === "best" ? `search (${schedules.get(rule).verdict})` : titled(rule)));
  const foot = ["makespan", ...fixed.slice(1).map(() => ""), ...tables.map(({ total }) => total)];
  fill("rules", tableNode({
    caption: "Schedules by rule: start–end", heads: [...fixed.map(titled), ...names], rows, foot,
  }));
}

// -- search

async function searchBest({ seconds }) {
  const { plan } = page;
  searching = new AbortController();
  byId("cancel").hidden = !plan.model;
  const told = (line) => page.plan === plan && fill("best-answer", tell(line));
  try {
    const { signal } = searching;
    const table = await (plan.model ? solved(plan, Number(seconds), told, signal) : askBest(plan));
    if (!table) throw new Refusal("Search again, for longer: no schedule was found yet.");
    table.isCancelled = signal.aborted;
    plan.schedules.set("best", { ...[...plan.schedules.values()][0], ...table });
    plan.days.delete("best");
    await learn(plan, "best");
  } catch (fault) {
    if (page.plan === plan) throw fault;
  } finally {
    byId("cancel").hidden = true;
  }
  if (page.plan !== plan) return "";
  plan.drawn = shorterOf(plan);
  showSchedules();
  return searchWords(plan);
}

// a schedule by a rule is that of its plan already
const isKeepable = ({ model, drawn, schedules }) =>
  model && !RULES.project.concat(RULES.shop).includes(drawn) && !schedules.get(drawn).isInfeasible;

const keep = async () => bringBack([await keptPlan(view)], sentFile);

// without the plan's file the office searches
const askBest = async (plan) => tableOf(await ask(planPath(plan.n, "best", OFFICE_BUDGET)));

const OFFICE_BUDGET = 200000;

// -- hand in and check

async function save(form) {
  if (!view) return;
  const { plan, starts } = view;
  const name = `${page.desk}-plan-${plan.n}-${plan.drawn}.${form}`;
  try {
    const text = form === "all.json" ? wholeText(view) : TEXTS[form] ? TEXTS[form](view)
      : await savedText(plan, form, starts, view.calendar);
    download(name, text);
    fill("save-answer");
  } catch (fault) {
    fill("save-answer", ...faultNodes(fault));
  }
}

function showSaves({ plan, calendar }) {
  for (const button of all("#saves button")) {
    const { value } = button;
    const isAble = value === "all.json" ? recordOf(plan.n).file
      : TEXTS[value] || (isLinked(plan, plan.drawn)
        && (value === "list.csv" ? calendar && ownList(plan) : value !== "ics" || calendar));
    button.hidden = !isAble;
  }
}

// the activity or step that a verdict names first, counted from 0; -1 for none
function placeIn(line, rows) {
  const [, step, job] = line.match(/^step (\d+) of job (\d+)/) ?? [];
  const [, activity] = line.match(/^activity (\d+)/) ?? [];
  return rows.findIndex((row) => (activity ? row.act === Number(activity)
    : row.job === Number(job) && row.step === Number(step)));
}

async function checkStarts(text) {
  const { plan } = page, { model, note, schedules } = plan;
  if (!model) throw new Refusal(note || "Mend the plan first: it has no schedule.");
  const [{ heads, rows }] = schedules.values();
  const { line, total, starts } = await verdictOf(plan, text);
  const isFeasible = line === "active" || line.endsWith("can start earlier");
  schedules.set("own", {
    heads, total, isInfeasible: !isFeasible, verdict: isFeasible ? "" : " (not feasible)",
    wrong: isFeasible ? "" : line,
    rows: rows.map((row, at) => ({ ...row, start: starts[at], end: starts[at] + row.d })),
  });
  plan.days.delete("own");
  await learn(plan, "own");
  if (page.plan !== plan) return null;
  plan.drawn = "own";
  const point = showSchedules();
  const place = placeIn(line, rows);
  if (place >= 0) point(place);
  return { isFeasible, total, line };
}

async function showVerdict(text) {
  try {
    const found = await checkStarts(text);
    if (!found) return;
    const { line, isFeasible, total } = found;
    const [first, second] = verdictWords(line, page.plan?.labels);
    const lead = isFeasible ? "Feasible" : "Not feasible";
    fill("check-answer", make("div", { class: isFeasible ? "verdict" : "refusal", role: "status" },
      make("strong", {}, first), say(`${second} ${lead}, makespan ${total}.`),
      make("p", { class: "hint" }, make("code", {}, line))));
  } catch (fault) {
    if (!(fault instanceof Refusal)) throw fault;
    // `compare` gets the starts as both A and B
    fill("check-answer", refusalNode(fault.message.replace(/(of the starts) A$/, "$1"),
      { labels: page.plan?.labels }));
  }
  byId("check-answer").scrollIntoView({ block: "nearest" });
}

export async function takeStarts(text) {
  byId("tab-handin").click();
  await showVerdict(text);
}

export function letPlanAct() {
  letAskWhatIf();
  onSubmit("best", searchBest);
  onSubmit("check", ({ starts }) => showVerdict(starts));
  byId("cancel").onclick = () => searching?.abort();
  byId("keep").onclick = () => during(byId("keep"), byId("keep-answer"), keep);
  letTake(byId("check-zone"), async (file) => takeStarts(await file.text()));
  byId("saves").onclick = ({ target: { value } }) => value && save(value);
  byId("colours").onchange = byId("lines").onchange = showDrawn;
}
