// Changes of a plan: binds, the calendar, lags, and deleting it. The fields are filled with the
// last values that this browser set, because the office has no route that returns them.

import { command, planPath } from "./api.js";
import { daysFrom } from "./axis.js";
import { all, byId, make, onSubmit, put } from "./dom.js";
import { activityLabel, machineLabel, resourceLabel } from "./labels.js";
import { isAlone } from "./local.js";
import { visitPlace } from "./place.js";
import { leavePlan, openPlan } from "./plan.js";
import { dropPlan, showPlans } from "./plans.js";
import { CODE_KINDS, page, recordOf, rememberChange } from "./state.js";
import { namesIn } from "./view.js";

const notHere = () =>
  (isAlone() ? "Not set." : "Not set on this computer. The page can't see what is set elsewhere.");
const setOn = ({ on }) =>
  (isAlone() ? `Set on ${on}.` : `Set here on ${on}. The page can't see what is set elsewhere.`);
const DAYS = ["Mo", "Tu", "We", "Th", "Fr", "Sa", "Su"];

const daysIn = (marks) => DAYS.filter((_, at) => marks[at] === "1").join(", ");

const boxes = () => all("#marks input");

// the form leaves one reason for E03: the plan has no such place or arc
async function changePlan(part, body, valueOf, words, lacking) {
  const { n } = page.plan;
  const made = await command(planPath(n, part), "POST", body).catch((fault) => {
    if (fault.message === "E03 body" && lacking) fault.meaning = lacking;
    throw fault;
  });
  rememberChange(n, part, valueOf(made));
  if (page.plan?.n === n) await openPlan(n, part === "calendar" ? page.plan : null);
  return words(made);
}

const isProject = (plan) => plan.kind === "project";

const placeLabel = (plan, place) =>
  (isProject(plan) ? resourceLabel : machineLabel)(namesIn(plan), place);

const lastOf = ({ dates }) => dates?.rows?.length ?? 0;

const arcLabels = (plan, from, to) =>
  [from, to].map((number) => activityLabel(namesIn(plan), Number(number), lastOf(plan)));

function bind({ place, code }) {
  const { plan } = page;
  const kind = isProject(plan) ? "resource" : "machine";
  return changePlan("bind", { place: Number(place), code },
    (made) => ({ at: made.place, code: made.code }),
    (made) => `The capacity of ${placeLabel(plan, made.place)} is now that of ${made.code}.`,
    [`Choose a ${kind} of this plan.`, `It has no ${kind} ${place}.`]);
}

// the office knows no holidays: at a desk they are kept in this browser
async function setCalendar({ start, holidays: lines }) {
  const days = boxes().map(({ checked }) => Number(checked)).join("");
  const holidays = lines.trim() ? `${lines.trim()}\n` : "";
  if (holidays && start && days.includes("1")) await daysFrom(start, days, holidays, 0);
  return changePlan("calendar", { start, days, ...(holidays && isAlone() && { holidays }) },
    (made) => ({ ...made, holidays }),
    (made) => `From ${made.start} on; working days ${daysIn(made.days)}.`);
}

function setLag({ from, to, lag }) {
  const [first, second] = arcLabels(page.plan, from, to);
  return changePlan("lag", { from: Number(from), to: Number(to), lag: Number(lag) },
    (made) => ({ at: `${made.from}-${made.to}`, lag: made.lag }),
    (made) => `At least ${made.lag} between ${first} and ${second}.`,
    [`Choose a direct successor of ${first}.`, `The plan has no arc from it to ${second}.`]);
}

function isDeleteMeant() {
  const dialog = byId("question"), { desk, plan: { n } } = page;
  dialog.firstElementChild.textContent = `Delete plan ${n} of desk ${desk} for good?`;
  dialog.returnValue = "no";
  dialog.showModal();
  return new Promise((answer) => {
    dialog.onclose = () => answer(dialog.returnValue === "yes");
  });
}

async function deletePlan() {
  const { n } = await command(planPath(page.plan.n), "DELETE");
  dropPlan(n);
  leavePlan();
  visitPlace(0);
  showPlans();
  byId("plans-head").focus();
  put("news", `Plan ${n} is deleted.`);
}

function showSet(place, changes, words) {
  const made = Object.values(changes ?? {}).sort((a, b) => a.time - b.time);
  const told = made.map((change) => `${words(change)} (set here on ${change.on})`);
  put(place, told.join("; ") || notHere());
  return made.at(-1) ?? {};
}

const optionNodes = (count, least, wordsOf) => Array.from({ length: count }, (_, at) =>
  make("option", { value: at + least }, wordsOf(at + least)));

function showBind(plan, binds) {
  const isResource = isProject(plan);
  const { place, code } = byId("bind").elements;
  const count = plan.model?.capacities.length ?? (isResource ? 16 : 20);
  put("place-word", isResource ? "Resource" : "Machine");
  place.replaceChildren(...optionNodes(count, isResource ? 1 : 0, (at) => placeLabel(plan, at)));
  code.replaceChildren(...page.codes.filter(({ kind }) => kind === CODE_KINDS[plan.kind])
    .map((found) => make("option", { value: found.code }, `${found.code} (${found.capacity})`)));
  const bound = showSet("bind-set", binds,
    (made) => `${placeLabel(plan, made.at)} is ${made.code}`);
  place.value = bound.at ?? "";
  if (bound.code) code.value = bound.code;
}

// the successors of an activity are known from the plan's file
function showLag(plan, lags) {
  const delayed = showSet("lag-set", lags,
    ({ at, lag }) => `${arcLabels(plan, ...at.split("-")).join(" to ")}: ${lag}`);
  const { from, to, lag } = byId("lag").elements;
  const labels = namesIn(plan), last = lastOf(plan);
  const options = () => optionNodes(last, 1, (at) => activityLabel(labels, at, last));
  const isAfter = ({ value }) => !plan.model || plan.model.arcs.some((arc) =>
    arc.from + 1 === Number(from.value) && arc.to + 1 === Number(value));
  from.onchange = () => to.replaceChildren(...options().filter(isAfter));
  from.replaceChildren(...options());
  const [first, second] = (delayed.at ?? "-").split("-");
  from.value = first;
  from.onchange();
  to.value = second;
  lag.value = delayed.lag ?? "";
}

function showCalendar(calendar) {
  const { start, holidays } = byId("calendar").elements;
  start.value = calendar?.start ?? "";
  holidays.value = calendar?.holidays ?? "";
  boxes().forEach((box, at) => { box.checked = (calendar?.days ?? "1111100")[at] === "1"; });
  put("calendar-set", calendar ? setOn(calendar) : notHere());
}

export function showChanges(plan) {
  const { bind: binds, calendar, lag: lags } = recordOf(plan.n).set ?? {};
  byId("lag").hidden = !isProject(plan);
  showBind(plan, binds);
  showLag(plan, lags);
  showCalendar(calendar);
}

export function letChange() {
  byId("marks").append(...DAYS.map((day) =>
    make("label", {}, make("input", { type: "checkbox" }), ` ${day}`)));
  onSubmit("bind", bind);
  onSubmit("calendar", setCalendar);
  onSubmit("lag", setLag);
  onSubmit("delete", deletePlan, isDeleteMeant);
}
