// The table of a schedule: one row per activity or step, sorted by any of its columns.

import { byId, fill, make } from "./dom.js";
import { named } from "./labels.js";
import { COLUMN_WORDS } from "./words.js";

let sorting = { n: 0, head: "", isDown: false };

const headName = (head) => ({ first: "first day", last: "last day" })[head] ?? head;

// the columns are the members of a row that are known
const columnsOf = ({ plan: { kind, dates }, hasIds, isNamed, dates: days, slack }) => [
  ...(kind === "shop" ? ["job", "step", "machine"] : [hasIds ? "id" : "number"]),
  ...(kind === "project" && isNamed ? ["name"] : []), "start", "end",
  ...(days ? ["first", "last"] : []), ...(dates?.rows ? ["float"] : []),
  ...(slack ? ["slack"] : []),
];

function wordsOf(row, head) {
  if (/^(id|number)$/.test(head)) return `${row[head]}${row.isCritical ? "*" : ""}`;
  return named(row[head], row[`${head}Name`]);
}

/** Returns the order of two cells: numbers as numbers, texts by the alphabet, empty ones last. */
export function compare(a, b) {
  if (typeof a === "number" && typeof b === "number") return a - b;
  if (!a || !b) return (a === "") - (b === "");
  return a.localeCompare(b, "en", { numeric: true });
}

function scheduleTable(view, rows, titleOf, words) {
  const columns = columnsOf(view);
  const isText = (head) => head === "id" || (view.isNamed && /^(name|job|machine)$/.test(head));
  const classOf = (head) => isText(head) && "words";
  const cells = (row) => columns.map((head, at) =>
    make(at ? "td" : "th", { class: classOf(head), scope: !at && "row" }, wordsOf(row, head)));
  return make("table", {}, make("caption", {}, words),
    make("thead", {}, make("tr", {}, ...columns.map((head) =>
      make("th", { scope: "col", class: classOf(head), "data-head": head }, titleOf(head))))),
    make("tbody", {}, ...rows.map((row) =>
      make("tr", { class: row.isCritical && "critical" }, ...cells(row)))));
}

export function showTable(view, words) {
  const { n } = view.plan;
  if (sorting.n !== n) sorting = { n, head: "", isDown: false };
  const { head, isDown } = sorting;
  const isSorted = columnsOf(view).includes(head);
  const sign = isDown ? -1 : 1;
  const rows = isSorted
    ? [...view.shown].sort((a, b) => sign * compare(a[head], b[head]) || a.index - b.index)
    : view.shown;
  const headNode = (column) => byId("table").querySelector(`[data-head=${column}]`);
  const buttonOf = (column) => {
    const title = COLUMN_WORDS[column] ?? `the ${headName(column)}`;
    const button = make("button", { title }, headName(column));
    button.onclick = () => {
      sorting = { n, head: column, isDown: column === head && !isDown };
      showTable(view, words);
      headNode(column).firstChild.focus();
    };
    return button;
  };
  fill("table", scheduleTable(view, rows, buttonOf, words));
  if (isSorted) headNode(head).ariaSort = isDown ? "descending" : "ascending";
}

/** Returns the table in the order of the plan, without buttons. */
export const paperTable = (view, words) => scheduleTable(view, view.shown, headName, words);
