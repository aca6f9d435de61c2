// Everything about a plan of a desk as one file, and its way back: the file and the list, binds,
// lags, the calendar, and the schedule that was drawn. It has the form of what plan.html saves. A
// schedule that is kept becomes a new plan in the same way.

import { command, orRefusal, planPath, Refusal } from "./api.js";
import { fill, put, refusalNode } from "./dom.js";
import { activityLabel, machineLabel, resourceLabel } from "./labels.js";
import { fileOf, isAlone } from "./local.js";
import { sentencesOf } from "./messages.js";
import { openPlan, takeStarts } from "./plan.js";
import { page, recordOf, rememberChange, remember } from "./state.js";
import { startsText } from "./handin.js";
import { counted } from "./words.js";

/** Returns everything about the plan of a view as the text of a file; null without the plan's
 * file. */
export function wholeText({ plan: { n, kind, drawn }, starts }) {
  const { file, ...record } = recordOf(n);
  if (!file) return null;
  const schedule = { name: drawn, starts: startsText({ starts }) };
  const { instance, bytes } = file;
  return fileOf([{ n, kind, instance, bytes, calendar: record.set?.calendar, record, schedule }]);
}

function changesIn({ bind = {}, lag = {}, calendar }) {
  const binds = Object.values(bind).map(({ at, code }) => ({ part: "bind", value: { at, code },
    body: { place: at, code } }));
  const lags = Object.values(lag).map(({ at, lag: time }) => {
    const [from, to] = at.split("-").map(Number);
    return { part: "lag", value: { at, lag: time }, body: { from, to, lag: time } };
  });
  const { start, days, holidays } = calendar ?? {};
  const dates = { part: "calendar", value: { start, days, holidays },
    body: { start, days, ...(holidays && isAlone() && { holidays }) } };
  return [...binds, ...lags, ...(calendar ? [dates] : [])];
}

async function setAgain(n, changes) {
  const refused = [];
  for (const { part, value, body } of changes) {
    const answer = await orRefusal(command(planPath(n, part), "POST", body));
    if (answer instanceof Refusal) refused.push([part, body, answer]);
    else rememberChange(n, part, value);
  }
  return refused;
}

// a change of a plan that the office refused, in the names of the open plan
function lostNode(n, [part, { place, code, from, to, lag }, { message }]) {
  const labels = page.plan.labels;
  const label = page.plan.kind === "shop" ? machineLabel : resourceLabel;
  const arc = [from, to].map((number) => activityLabel(labels, number, labels.count));
  const words = {
    bind: () => `Bind ${label(labels, place)} under Changes: ${code} was refused.`,
    lag: () => `Set the lag ${lag} from ${arc.join(" to ")} under Changes: it was refused.`,
    calendar: () => "Set the calendar under Changes: it was refused.",
  };
  const [first, second = ""] = sentencesOf(message, labels);
  return refusalNode(message, { meaning: [words[part](), `Plan ${n}. ${first} ${second}`] });
}

/** Brings the plans of a file back as new plans of the desk; `imported` sends the file of one and
 * returns its number. */
export async function bringBack(plans, imported) {
  const told = [], refused = [];
  for (const { record: { set = {}, ...record }, schedule, ...file } of plans) {
    const n = await imported(file);
    remember(n, { title: record.title, names: record.names, resources: record.resources,
      list: record.list });
    const changes = changesIn(set);
    const lost = await setAgain(n, changes);
    const count = counted(changes.length - lost.length, "change");
    told.push(`${record.title} is plan ${n}${changes.length ? `, with ${count}` : ""}.`);
    await openPlan(n);
    refused.push(...lost.map((change) => lostNode(n, change)));
    if (/^(best|own)$/.test(schedule?.name)) await takeStarts(schedule.starts);
  }
  put("news", told.join(" "));
  fill("import-answer", ...refused);
}
