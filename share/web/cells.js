// The cells of a list, for the table in which it is changed. Only the program interprets them: the
// page offers the table only if the program reads the rewritten list as it read the opened one.

const quoted = (cell) => (/[",;\t\n]/.test(cell) ? `"${cell.replaceAll('"', '""')}"` : cell);

/** Returns a list as CSV. */
export const listText = (rows) => rows.map((row) => `${row.map(quoted).join(",")}\n`).join("");

function separatorOf(text) {
  const head = text.slice(0, text.indexOf("\n"));
  const count = (mark) => head.split(mark).length;
  return ["\t", ";", ","].reduce((a, b) => (count(b) > count(a) ? b : a));
}

/** Returns the rows of a list, each as its cells. */
export function cellsOf(list) {
  const text = list.replace(/^\ufeff/, "").replaceAll("\r\n", "\n").replace(/\n$/, "");
  const mark = separatorOf(`${text}\n`);
  const pattern = new RegExp(`(?:"((?:[^"]|"")*)"|([^${mark}\\n]*))(${mark}|\\n|$)`, "gy");
  const rows = [[]];
  for (const [whole, inner, plain, behind] of text.matchAll(pattern)) {
    rows.at(-1).push(inner?.replaceAll('""', '"') ?? plain);
    if (behind === "\n") rows.push([]);
    if (!behind || !whole) break;
  }
  return rows;
}

// the headers of ids and names: docs/lists.md, "Columns"
const NAMED = new RegExp(`^(?:${[
  "(?:activity |task )?id", "n[ro]\\.?", "number", "name", "task(?: name)?", "activity", "order",
  "name der aufgabe", "vorgang(?:sname)?", "bezeichnung", "nom(?: de la t\u00e2che)?", "t\u00e2che",
  "nombre(?: de tarea)?", "tarea",
].join("|")})$`, "i");

/** Returns the id and the name in a line of a list, with the line; nothing if it has none. */
export function rowWords(text, line) {
  const [heads, ...rows] = cellsOf(text);
  const cells = (rows[line - 2] ?? []).filter((cell, at) => cell && NAMED.test(heads[at]?.trim()));
  return cells.length ? `${cells.slice(0, 2).join(" ")} (line ${line})` : "";
}
