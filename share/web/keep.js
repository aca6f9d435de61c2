// Keeping the drawn schedule, and asking what another capacity would change. A kept schedule is a
// new plan with more links: each activity that waited for a crew now follows one that ends then, so
// every rule gives that schedule. The program confirms it before the plan is made.

import { Refusal, tableOf } from "./api.js";
import { activityLabel, stepLabels } from "./labels.js";
import { printed } from "./program.js";
import { page, recordOf } from "./state.js";
import { projectText } from "./subject.js";

/** Returns the links that a schedule needs beside those of its model; an activity that begins later
 * than it must is { late }. */
export function linksFor({ durations, arcs }, starts) {
  const ends = starts.map((start, at) => start + durations[at]);
  const links = [];
  for (const [to, start] of starts.entries()) {
    const before = arcs.filter((arc) => arc.to === to).map(({ from, lag }) => ends[from] + lag);
    if (Math.max(0, ...before) === start) continue;
    const from = ends.findIndex((end, at) => durations[at] > 0 && end === start);
    if (from < 0) return { late: to };
    links.push({ from, to, lag: 0 });
  }
  return { links };
}

/** Returns the drawn schedule as a plan of a saved file. */
export async function keptPlan({ plan, starts }) {
  const { n, kind, model, labels } = plan;
  const [{ rows }] = plan.schedules.values();
  const names = kind === "shop" ? stepLabels(labels, rows) : labels;
  const { links, late } = linksFor(model, starts);
  if (!links) {
    throw new Refusal(`Keep another schedule: ${activityLabel(names, late + 1, starts.length)} `
      + "begins later than it must, and no link says so.");
  }
  const linked = { ...model, arcs: [...model.arcs, ...links] };
  const text = await printed(["schedule", "num", "plan.sm"],
    { "plan.sm": projectText(linked, names) });
  const found = tableOf(text).rows.map(({ start }) => start);
  if (!starts.every((start, at) => found[at] === start)) {
    throw new Refusal("Save the start times: this schedule can't be kept as a plan.");
  }
  // a project's file has its own capacities and no lags: binds and lags are set again
  const base = kind === "shop" ? model : page.projects.get(n);
  const arcs = [...base.arcs, ...links];
  const { set, title } = recordOf(n);
  return {
    kind: "project", instance: "-", calendar: set?.calendar,
    bytes: new TextEncoder().encode(projectText({ ...base, arcs }, names)),
    record: {
      title: `${title || `Plan ${n}`} (kept)`, names: names.names, resources: names.resources,
      set: kind === "shop" ? { calendar: set?.calendar } : set,
    },
  };
}
