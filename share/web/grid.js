// A list as a table whose cells are fields: change a cell, add or remove a row, add a column.

import { all, byId, fill, make } from "./dom.js";

const LONGEST = 24;

// the rows that are shown, and what gets them after a change
let rows = [];
let changed = () => {};
let last = 0;

const fieldAt = (row, column) =>
  byId("grid").querySelector(`[data-row="${row}"][data-column="${column}"]`);

function change(next, row, column) {
  rows = next;
  drawGrid();
  (fieldAt(row, column) ?? byId("add-row")).focus();
  changed(rows);
}

function cellNode(row, column, size) {
  const head = rows[0][column];
  const input = make("input", { value: rows[row][column] ?? "", size, autocomplete: "off",
    "data-row": row, "data-column": column, "aria-label": `${head}, row ${row}` });
  input.onfocus = () => { last = row; };
  input.onchange = () => {
    while (rows[row].length <= column) rows[row].push("");
    rows[row][column] = input.value.trim();
    changed(rows);
  };
  input.onkeydown = (event) => {
    const step = { ArrowDown: 1, ArrowUp: -1, Enter: 1 }[event.key];
    if (!step) return;
    event.preventDefault();
    (fieldAt(row + step, column) ?? input).focus();
  };
  return make("td", {}, input);
}

function rowNode(row, sizes) {
  const button = make("button", { type: "button", "aria-label": `Remove row ${row}` }, "\u00d7");
  button.onclick = () =>
    change(rows.filter((_, at) => at !== row), Math.min(row, rows.length - 2), 0);
  return make("tr", { "data-line": row + 1 }, make("th", { scope: "row" }, row),
    ...sizes.map((size, column) => cellNode(row, column, size)), make("td", {}, button));
}

function drawGrid() {
  const sizes = rows[0].map((_, column) =>
    Math.min(LONGEST, Math.max(3, ...rows.map((row) => (row[column] ?? "").length))));
  fill("grid", make("table", { "aria-label": "The list" },
    make("thead", {}, make("tr", {}, ...["row", ...rows[0], ""].map((head) =>
      make("th", { scope: "col" }, head)))),
    make("tbody", {}, ...rows.slice(1).map((_, at) => rowNode(at + 1, sizes)))));
}

/** Shows rows, the first of which has the names of the columns; `told` gets them after a change. */
export function showGrid(list, told) {
  if (JSON.stringify(list) !== JSON.stringify(rows)) {
    rows = list.map((row) => [...row]);
    last = 0;
    drawGrid();
  }
  changed = told;
}

/** Marks the row of a line, and the column that an error names; 0 for none. */
export function markLine(line, words = "") {
  for (const row of all("#grid tbody tr")) {
    const isWrong = Number(row.dataset.line) === line;
    row.className = isWrong ? "wrong" : "";
    for (const input of row.querySelectorAll("input")) {
      const head = rows[0][input.dataset.column].toLowerCase().replace(/s$/, "");
      input.ariaInvalid = isWrong && head && words.includes(head) ? "true" : null;
    }
    if (isWrong) row.scrollIntoView({ block: "nearest" });
  }
}

// a row of capacities stays the last one
function addRow() {
  const isCapacity = /^capacit/i.test(rows.at(-1)[0] ?? "");
  const at = last || rows.length - 1 - isCapacity;
  change([...rows.slice(0, at + 1), rows[0].map(() => ""), ...rows.slice(at + 1)], at + 1, 0);
}

function addColumn() {
  const field = byId("column-name"), name = field.value.trim();
  if (!name) return field.focus();
  field.value = "";
  change(rows.map((row, at) => [...rows[0].map((_, column) => row[column] ?? ""), at ? "" : name]),
    1, rows[0].length);
}

// ids, by which the rows are named everywhere
const numberRows = () => change(rows.map((row, at) => [at ? `${at}` : "id", ...row]), 1, 0);

export function letChangeGrid() {
  byId("add-row").onclick = addRow;
  byId("number-rows").onclick = numberRows;
  byId("add-column").onclick = addColumn;
  byId("column-name").onkeydown = (event) => {
    if (event.key !== "Enter") return;
    event.preventDefault();
    addColumn();
  };
}
