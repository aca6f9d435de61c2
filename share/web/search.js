// The result of a search for the best schedule, beside the schedules of the rules.

import { RULES } from "./state.js";
import { RULE_NAMES } from "./words.js";

const totalOf = ({ schedules }, name) => schedules.get(name).total;

function leastRule(plan) {
  const rules = RULES[plan.kind].filter((rule) => plan.schedules.has(rule));
  return rules.reduce((a, b) => (totalOf(plan, b) < totalOf(plan, a) ? b : a));
}

/** Returns the schedule to draw after a search: `best`, or the rule whose schedule is shorter. */
export function shorterOf(plan) {
  const least = leastRule(plan);
  return totalOf(plan, least) < totalOf(plan, "best") ? least : "best";
}

function comparedWords(plan) {
  const least = leastRule(plan);
  const gain = totalOf(plan, least) - totalOf(plan, "best");
  if (gain > 0) return `It is ${gain} shorter than the shortest by a rule (${RULE_NAMES[least]}).`;
  if (gain === 0) return `The rule "${RULE_NAMES[least]}" is as good.`;
  return `The schedule by the rule "${RULE_NAMES[least]}" is ${-gain} shorter, so it is drawn.`;
}

/** Returns the words on a search, whose schedule is `best`. */
export function searchWords(plan) {
  const { verdict, total, lower, isCancelled } = plan.schedules.get("best");
  const lead = isCancelled
    ? "The search was cancelled, and the best schedule so far is kept. " : "";
  const meaning = verdict === "optimal" ? "no schedule of this plan is shorter"
    : `the shortest that was found${lower ? `; no schedule is shorter than ${lower}` : ""}`;
  return `${lead}${verdict} ${total}: ${meaning}. ${comparedWords(plan)}`;
}
