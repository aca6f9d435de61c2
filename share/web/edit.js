// Changing a list, as a table or as a text; starting from an example or a template; and for
// plan.html one file with everything.

import { cellsOf, listText } from "./cells.js";
import { byId, clear, download, onSubmit, put } from "./dom.js";
import { letChangeGrid, markLine, showGrid } from "./grid.js";
import { noteFile, sentFile, takeBytes, takeFile } from "./import.js";
import { listOf } from "./kinds.js";
import { isAlone, isUnsaved, keepPlans, plansIn, replaceFile, savedFile } from "./local.js";
import { leavePlan } from "./plan.js";
import { askLists, showPlans } from "./plans.js";
import { keepPage, printed } from "./program.js";
import { newPage, page, recordOf, remember } from "./state.js";
import { bringBack } from "./whole.js";

const EXAMPLE = `id,name,duration,predecessors,crew
A,Measure,1,,1
B,Order timber,2,A,1
C,Take down,2,A,3
D,Floor,4,B C,2
E,Electrics,3,C,2
F,Walls,3,E,2
G,Paint,2,F D,3
H,Furniture,1,G,2
capacity,,,,4
`;

// the texts of the list before each change
let earlier = [];
// the program reads one change after another; so many of them are left
let reading = Promise.resolve();
let changes = 0;

const bytesOfText = (text) => new TextEncoder().encode(text);

const outcomeOf = (list) => list && (list.text ?? list.fault.message);

// the cells of a list, if the program reads the list that is written with them as the same
async function gridRows({ name, text, given, list }) {
  const rows = cellsOf(text), again = listText(rows);
  const other = again === text ? list : await listOf(name, bytesOfText(again), given);
  return outcomeOf(other) === outcomeOf(list) ? rows : null;
}

/** Shows the list that was taken, to be changed. */
export async function showEdit(file) {
  const form = byId("edit"), rows = await gridRows(file);
  form.hidden = false;
  form.elements.list.value = file.text;
  byId("undo").hidden = !earlier.length;
  byId("grid-part").hidden = !rows;
  if (!rows) byId("list-text").open = true;
  // the fields have later changes, which are read next
  if (!rows || changes) return;
  showGrid(rows, (next) => readAgain({ list: listText(next) }));
  const message = file.list.fault?.message ?? "";
  markLine(Number(message.match(/\bline (\d+)/)?.[1] ?? 0), message);
}

// the name of a list makes it one, whatever its text
const listName = (name) => (/\.(csv|tsv)$/i.test(name) ? name : `${name}.csv`);

const takeText = (text) => takeBytes({ ...page.file, name: listName(page.file.name), text,
  bytes: bytesOfText(text) });

function afterReading(action) {
  changes += 1;
  const next = () => {
    changes -= 1;
    return page.file && action();
  };
  reading = reading.then(next, next);
  return reading;
}

const readAgain = ({ list }) => afterReading(() => {
  const text = list.replaceAll("\r\n", "\n");
  if (text !== page.file.text) earlier.push(page.file.text);
  return takeText(text);
});

const undo = () => afterReading(() => earlier.length && takeText(earlier.pop()));

/** Keeps the list of a plan, so that it can be changed. */
export function noteList(n, { name, text, given }) {
  earlier = [];
  remember(n, { list: { name, text, given: [...given] } });
}

/** Puts a file in the place of that of a plan, and returns the plan; null for a new plan, as at a
 * desk. */
export function replacedFile(n, file) {
  if (!n || !isAlone()) return null;
  replaceFile(n, file);
  page.projects.delete(n);
  return { n, kind: file.kind };
}

function editPlan() {
  const { n } = page.plan, { list } = recordOf(n);
  if (!list) return;
  earlier = [];
  clear("#import-answer");
  takeBytes({ ...list, given: new Map(list.given), bytes: bytesOfText(list.text), from: n });
}

/** Shows whether the list of the open plan can be changed. */
export function showEditable({ n }) {
  byId("edit-list").hidden = !recordOf(n).list;
}

// -- without a server

/** Opens the page without signing in. */
export async function openAlone() {
  document.documentElement.dataset.alone = "";
  newPage().desk = "own";
  await askLists();
  keepPage();
}

/** Takes the example, or the template of a project or a job shop. */
export async function start(kind) {
  const text = kind === "example" ? EXAMPLE : await printed(["new", kind]);
  await takeFile(new File([text], kind === "example" ? "example.csv" : `new-${kind}.csv`));
}

/** Opens a file that has everything; returns whether a text is one. At a desk its plans become new
 * ones. */
export async function openSaved(text) {
  const plans = plansIn(text);
  if (!plans) return false;
  clear(".answer");
  if (isAlone()) openKept(plans);
  else await bringBack(plans, sentFile);
  return true;
}

function openKept(plans) {
  leavePlan();
  newPage().desk = "own";
  keepPlans(plans);
  for (const { n, kind, bytes, instance, record: { set, ...record } } of plans) {
    page.plans.push({ n, kind });
    noteFile(n, kind === "project", "", bytes, instance);
    remember(n, { ...record, set: set?.calendar && { calendar: set.calendar } });
    if (set?.bind || set?.lag) {
      put("news", "The binds and lags of a desk aren't kept in plan.html.");
    }
  }
  showPlans();
}

export function letEdit() {
  onSubmit("edit", readAgain);
  letChangeGrid();
  byId("undo").onclick = undo;
  byId("edit-list").onclick = editPlan;
  byId("starters").onclick = ({ target: { value } }) => value && start(value);
  byId("save-all").onclick = () => download("plans.json", savedFile(recordOf));
  addEventListener("beforeunload", (event) => isUnsaved() && event.preventDefault());
}
