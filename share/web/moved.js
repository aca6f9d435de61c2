// The activities that a changed list moves. `plan compare --old` compares the drawn schedule of the
// plan with one of the changed list, by the same rule or by a search of a second.

import { Refusal, tableOf } from "./api.js";
import { make, say, tableNode, wideNode } from "./dom.js";
import { printed } from "./program.js";
import { readProject } from "./project.js";
import { page, RULES } from "./state.js";
import { earlyStarts } from "./subject.js";
import { nameOf, startsOf } from "./view.js";
import { RULE_NAMES } from "./words.js";

function movedTable({ rows }, { ids, names }) {
  const nameFor = Object.fromEntries([...ids].map(([number, id]) => [id, names.get(number)]));
  const moved = rows.map(({ id, old, new: now, shift }) => [id, nameFor[id] ?? "", old ?? "-",
    now ?? "-", shift > 0 ? `+${shift}` : shift ?? "-"]);
  const heads = ["id", "name", "old", "new", "shift"];
  return wideNode("What moves", tableNode({ caption: "The starts", heads, rows: moved,
    marks: rows.map(({ shift }) => shift !== 0) }));
}

// orders have no ids, and not all activities
async function movesOf({ kind, model, subject, schedules, drawn, labels }, text, schedule) {
  if (kind === "shop" || !Object.keys(labels.ids).length) return [""];
  const given = { "old.sm": subject.files["plan.sm"], "new.sm": text, new: schedule,
    old: earlyStarts(model, startsOf(schedules.get(drawn))) };
  const words = ["compare", "--format", "json", "--old", "old.sm", "new.sm", "old", "new"];
  const moves = JSON.parse(await printed(words, given));
  const { moved, compared, added, removed } = moves;
  const also = (word, ids) => (ids.length ? `; ${word}: ${ids.join(", ")}` : "");
  return [`; ${moved} of ${compared} move${also("new", added)}${also("gone", removed)}`,
    make("details", { class: "moved" }, make("summary", {}, "What moves"), movedTable(moves, readProject(text)))];
}

/** Returns the sentence and the table of the moved activities, if a list is the changed one of a
 * plan; nothing for a list with dates, or if no schedule of it is found. */
export async function movedNodes({ from, list: { text, begins } }) {
  const { plan } = page;
  if (!from || plan?.n !== from || !plan.model || begins) return [];
  const { kind, drawn } = plan, isShop = kind === "shop";
  const rule = RULES[kind].includes(drawn) ? drawn : RULES[kind][0];
  const [words, by] = drawn === "best" ? [["solve", "--seconds", "1"], "the search"]
    : [[isShop ? "shop" : "schedule", rule], RULE_NAMES[rule]];
  try {
    const schedule = await printed([...words, "new", ...(isShop ? ["shop"] : [])], { new: text });
    const [told, ...nodes] = await movesOf(plan, text, schedule);
    return [say(`Plan ${plan.n} now: ${nameOf(plan, drawn)}. With this list, by ${by}: ${
      tableOf(schedule).total}${told}.`), ...nodes];
  } catch (fault) {
    if (fault instanceof Refusal) return [];
    throw fault;
  }
}
