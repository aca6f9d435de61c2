// The drawings of a schedule, which the program makes: those of `plan report`, a chart in images of
// 40 lines and an image of the use of each resource. They are texts.

import { Refusal } from "./api.js";
import { daysUpTo } from "./axis.js";
import { today } from "./layout.js";
import { stepLabels } from "./labels.js";
import { printed } from "./program.js";
import { isWait } from "./project.js";
import { recordOf } from "./state.js";
import { dayCells, daysOf, lateStarts, loosened, projectText } from "./subject.js";

const USES = "<h2>Resource use</h2>";
const WEEKS = ["1111100", "1111110", "1111111"];
const TOO_LARGE = "Correct the start times: a schedule of more than 502 steps is drawn if it is feasible.";

const imagesIn = (text) => text.match(/<svg xmlns[^]*?(?=\s<\/figure>)/g) ?? [];

async function reportOf({ model, files, words }, starts, calendar, options = []) {
  const { start, days, holidays = "" } = calendar ?? {};
  const free = holidays ? ["--holidays", "holidays"] : [];
  const dates = start ? ["--start", start, "--days", days, ...free] : [];
  const given = { ...files, holidays, starts: lateStarts(model, starts) };
  const text = await printed(["report", ...dates, ...options, "--starts", "starts", ...words], given);
  const [charts, uses = ""] = text.split(USES);
  return { charts: imagesIn(charts), uses: imagesIn(uses) };
}

const subjectFor = (model, labels) =>
  ({ model, files: { "plan.sm": projectText(model, labels) }, words: ["plan.sm"] });

const withoutNeeds = (durations) =>
  ({ durations, arcs: [], needs: durations.map(() => [0]), capacities: [1] });

// the program refuses a schedule that isn't feasible, so it is drawn without links: each activity
// or step has a line of its own, and a resource has the capacity that is used
async function looseSubject({ kind, model, labels }, rows, starts) {
  if (kind === "project" && model) {
    const { loose, over } = await loosened(model, starts);
    return { ...subjectFor(loose, labels), over };
  }
  const { ids, names } = kind === "shop" ? stepLabels(labels, rows) : labels;
  return subjectFor(withoutNeeds(rows.map(({ d }) => d)), { ids, names });
}

/** Returns the rows of a schedule without waits, and of a list of orders without steps of time 0: an
 * order has one on each machine that it doesn't use. */
export function shownOf({ n, kind }, rows) {
  if (kind === "project") return rows.filter(({ id }) => !isWait(id));
  const used = rows.filter(({ d }) => d > 0);
  return recordOf(n).list && used.length ? used : rows;
}

/** Returns whether a schedule is drawn with the links of its plan. */
export const isLinked = ({ model, schedules }, rule) =>
  Boolean(model) && !schedules.get(rule).isInfeasible;

/** Returns the drawings of a schedule, as { charts, uses, capacities, over }: the images, and what
 * `loosened` returns. `by` names the lines of a job shop: "machine" or "job". */
export async function drawingsOf(plan, rule, calendar, by) {
  const linked = isLinked(plan, rule), all = plan.schedules.get(rule).rows;
  const rows = linked ? all : shownOf(plan, all);
  const starts = rows.map(({ start }) => start);
  const subject = linked ? { ...plan.subject, model: plan.model }
    : await looseSubject(plan, rows, starts);
  const options = linked && plan.kind === "shop" ? ["--by", by] : [];
  const drawings = await reportOf(subject, starts, calendar, options).catch((fault) => {
    throw linked || !fault.message.startsWith("F10 ") ? fault : new Refusal(TOO_LARGE);
  });
  return { ...drawings, capacities: subject.model.capacities, over: subject.over ?? new Map() };
}

/** Returns the drawing of an activity on the present day, beside one that takes as long as a plan;
 * null if the present day isn't on the axis. */
export async function todayDrawing(calendar, total) {
  const now = today();
  const days = now < calendar.start ? [] : await daysUpTo(now, calendar);
  const at = days.findIndex((day) => day >= now);
  if (at < 0 || at >= total) return null;
  const { charts } = await reportOf(subjectFor(withoutNeeds([total, 1])), [0, at], calendar);
  return charts[0];
}

/** Returns the days of a schedule that needn't be feasible. */
export function looseDays(rows, calendar) {
  const model = withoutNeeds(rows.map(({ d }) => d));
  return daysOf({ model, subject: subjectFor(model) }, rows.map(({ start }) => start), calendar);
}

/** Returns a calendar of a usual week that gives the days of schedules, as pairs of the rows of a
 * schedule and its days; null if there is none. */
export async function usualWeek(schedules) {
  const [start] = schedules.flatMap(([, days]) => days.map((row) => row?.first ?? "-")).sort()
    .filter((first) => first !== "-");
  const fits = async (calendar) => {
    for (const [rows, days] of schedules) {
      if (dayCells(await looseDays(rows, calendar)) !== dayCells(days)) return false;
    }
    return true;
  };
  for (const days of start ? WEEKS : []) if (await fits({ start, days })) return { start, days };
  return null;
}
