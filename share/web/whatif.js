// Searches for a schedule with another capacity of a resource. The plan stays as it is.

import { byId, fill, make, onSubmit, tell } from "./dom.js";
import { resourceLabel } from "./labels.js";
import { page } from "./state.js";
import { solved, subjectOf } from "./subject.js";

const SECONDS = 10;

const isPossible = ({ kind, model }) => kind === "project" && model?.capacities.length > 0;

/** Shows the resources whose capacity can be another one. */
export function showWhatIf(plan) {
  byId("whatif").hidden = !isPossible(plan);
  if (!isPossible(plan)) return;
  const { place, capacity } = byId("whatif").elements;
  const own = plan.model.capacities;
  place.replaceChildren(...own.map((amount, at) =>
    make("option", { value: at }, `${resourceLabel(plan.labels, at + 1)} (${amount})`)));
  place.onchange = () => { capacity.value = own[place.value]; };
  place.onchange();
}

function withCapacity(plan, place, capacity) {
  const capacities = plan.model.capacities.with(place, capacity);
  const model = { ...plan.model, capacities, isChanged: true };
  return { ...plan, model, subject: subjectOf({ kind: plan.kind, model }, [], plan.labels) };
}

function comparedWith(plan, total) {
  const shown = plan.schedules.get(plan.drawn).total;
  const gain = shown - total;
  const word = gain > 0 ? "shorter" : "longer";
  return gain ? `${Math.abs(gain)} ${word} than the schedule that is drawn (${shown})`
    : "as long as the schedule that is drawn";
}

async function searchWith({ place, capacity }) {
  const { plan } = page;
  const words = `${capacity} of ${resourceLabel(plan.labels, Number(place) + 1)}`;
  const told = (line) => page.plan === plan && fill("whatif-answer", tell(line));
  const { signal } = new AbortController();
  const other = withCapacity(plan, Number(place), Number(capacity));
  const found = await solved(other, SECONDS, told, signal);
  if (page.plan !== plan) return "";
  fill("whatif-answer");
  if (!found) return `No schedule was found within ${SECONDS} seconds.`;
  const { verdict, total, lower } = found;
  const bound = verdict === "optimal" ? "no schedule is shorter" : `none is shorter than ${lower}`;
  return `With ${words}: ${total}, ${comparedWith(plan, total)}; ${bound}.`;
}

export const letAskWhatIf = () => onSubmit("whatif", searchWith);
