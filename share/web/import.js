// Importing a file: project files and job shop files are sent as they are; a list of a spreadsheet
// is shown with the project or the job shop that the program makes of it, and sent as its file.

import { command, deskPath, Refusal, shopPath, tableOf } from "./api.js";
import {
  byId, faultNodes, fill, make, onSubmit, put, refusalNode, say, tableNode, tell, wideNode,
} from "./dom.js";
import { rowWords } from "./cells.js";
import { noteList, openSaved, replacedFile, showEdit } from "./edit.js";
import { isAlone } from "./local.js";
import { FILE, lettersOf, listOf, recognized, triedTo } from "./kinds.js";
import { movedNodes } from "./moved.js";
import { noteNodes, projectNotes } from "./notes.js";
import { showPlace } from "./place.js";
import { openPlan, showPlan, takeStarts } from "./plan.js";
import { showPlans } from "./plans.js";
import { printed } from "./program.js";
import { arcsOverWaits, isAbsence, isWait, readProject, readShop } from "./project.js";
import { page, remember } from "./state.js";
import { dateNodes, plannedBy } from "./week.js";
import { bringBack } from "./whole.js";
import { counted } from "./words.js";

const LARGEST_FILE = 1048576;
const CONTEXT = 12;
const importButton = () => byId("import").querySelector("button");

const noneOf = (name) => [
  "Drop a list (CSV), a project or a job shop, or start times of the open plan.",
  `${name} is none of them: a list has a header with duration, or with order and machine.`,
];

async function bytesOf(file) {
  const isLarge = file.size > LARGEST_FILE;
  const content = isLarge ? null : await file.arrayBuffer().catch(() => null);
  const isWorkbook = content && new TextDecoder().decode(content.slice(0, 4)) === "PK\x03\x04";
  if (content && !isWorkbook) return new Uint8Array(content);
  const { name } = file;
  const [first, second] = isLarge
    ? [`Split ${name}, or delete rows.`, "It has more than 1,048,576 bytes."]
    : isWorkbook ? [`Save the sheet of ${name} as CSV (UTF-8), and drop that.`, "It is a workbook."]
      : [`Choose ${name} again.`, "It can't be read."];
  fill("import-answer", refusalNode("", { meaning: [first, `${second} Nothing was sent.`] }));
  return null;
}

/** Takes a file, and sends it at once if it is plain what it is. */
export async function takeFile(file) {
  forgetFile();
  fill("import-answer");
  const bytes = await bytesOf(file);
  if (!bytes) return null;
  const text = lettersOf(bytes);
  try {
    if (await openSaved(text)) return null;
  } catch (fault) {
    return fill("import-answer", ...faultNodes(fault));
  }
  return takeBytes({ name: file.name, bytes, text });
}

/** Takes the bytes of a file. `from` is the number of the plan whose list it is, if any, `given` are
 * capacities that the list lacks, and by `dates` a list with dates was planned. */
export async function takeBytes({ name, bytes, text, given = new Map(), dates, from }) {
  const taken = { name, bytes, text, given, dates: dates && { ...dates }, from };
  try {
    Object.assign(taken, await recognized(taken));
  } catch (fault) {
    fill("import-answer", ...faultNodes(fault));
    return null;
  }
  const { isProject, list, instances, isStarts, isNothing } = taken;
  if (isStarts) return takeStarts(text);
  if (isNothing) return fill("import-answer", refusalNode("", { meaning: noneOf(name) }));
  page.file = taken;
  const { instance } = byId("import").elements;
  put("chosen-name", `${name}, ${bytes.length.toLocaleString("en")} bytes`);
  fill("instances", ...instances.map((value) => make("option", { value })));
  instance.value = instances[0] ?? "-";
  byId("instance-label").hidden = Boolean(isProject || list);
  byId("chosen").hidden = importButton().hidden = false;
  showPlace();
  if (list) return showList();
  return isProject || instances.length < 2 ? byId("import").requestSubmit() : instance.focus();
}

export function forgetFile() {
  page.file = null;
  byId("desk").removeAttribute("data-list");
  byId("chosen").hidden = byId("preview").hidden = byId("edit").hidden = true;
  fill("preview");
  fill("capacities");
  showPlace();
}

// -- lists

async function showList() {
  const { file } = page, { fault, text, isProject } = file.list;
  byId("preview").hidden = false;
  byId("desk").toggleAttribute("data-list", true);
  byId("number-rows").hidden = true;
  await showEdit(file);
  importButton().hidden = Boolean(fault);
  importButton().textContent = file.from && isAlone() ? "Replace the list" : "Make the plan";
  const moved = fault ? [] : await movedNodes(file);
  fill("preview", ...(fault ? faultyNodes(file, fault.message)
    : isProject ? projectNodes(file, readProject(text)) : await shopNodes(file, text)));
  byId("preview").firstChild.after(...moved);
  fill("capacities", ...(isProject ? capacityNodes(file) : []),
    ...(file.list.begins ? dateNodes(file) : []));
  if (byId("edit").contains(document.activeElement)) return;
  if (!fault) importButton().focus();
  byId("preview").scrollIntoView({ block: "nearest" });
}

// the resources of the project, or the one whose capacity is missing
function capacityNodes({ given, list: { text, fault } }) {
  const { resources = [], capacities } = text ? readProject(text) : {};
  const without = fault?.message.match(/^T10 no capacity (.*)$/)?.[1];
  const known = [...resources].map(([number, name]) => [name, capacities[number - 1]]);
  const others = [...given].filter(([name]) => without && name !== without);
  return [...known, ...others, ...(without ? [[without, ""]] : [])]
    .map(([name, value]) => capacityNode(name, value));
}

function capacityNode(name, value) {
  const { file } = page;
  const input = make("input", { type: "number", min: 0, max: 10000, value, "data-resource": name });
  input.onchange = async () => {
    if (input.value && input.validity.valid) file.given.set(name, input.valueAsNumber);
    else file.given.delete(name);
    file.list = await listOf(file.name, file.bytes, file.given) ?? file.list;
    if (page.file === file) await showList();
  };
  return make("label", {}, `Capacity of ${name}`, input);
}

const previewNodes = (name, kind, parts, table, notes) => [
  tell(`${name} becomes a ${kind} of ${parts}. Change it, or ${
    importButton().textContent.toLowerCase()}.`),
  ...notes,
  make("details", {}, make("summary", {}, "As the program reads it"),
    wideNode(`The ${kind}`, tableNode({ label: `The ${kind}`, ...table }))),
];

// the first and the last activity of the project aren't rows of the list
function projectNodes({ name, list: { note, begins } }, project) {
  const { durations, needs, ids, names, resources, capacities } = project;
  const last = durations.length - 1;
  const inner = arcsOverWaits(project).filter(({ from, to }) => from > 0 && to < last);
  const idOf = (number) => ids.get(number) ?? number;
  const before = (at) => inner.filter(({ to }) => to === at)
    .map(({ from, lag }) => `${idOf(from + 1)}${lag ? `+${lag}` : ""}`);
  const caps = [...resources].map(([number, words]) => `${words} ${capacities[number - 1]}`);
  const rows = durations.map((duration, at) => [idOf(at + 1), names.get(at + 1) ?? "", duration,
    before(at).join(" "), ...[...resources.keys()].map((number) => needs[at][number - 1])])
    .slice(1, -1).filter(([id]) => !isWait(id) && !(begins && isAbsence(id)));
  return previewNodes(name, "project", `${counted(rows.length, "activity", "activities")}, with ${
    counted(inner.length, "link")} between them and ${counted(resources.size, "resource")}`, {
    caption: caps.length && `Capacities: ${caps.join(", ")}`,
    heads: [ids.size ? "id" : "number", "name", "duration", "predecessors", ...resources.values()],
    rows,
  }, projectNotes(note, [...ids.values()]));
}

async function shopNodes({ name, list: { note } }, text) {
  const { rows } = tableOf(await printed(["shop", "spt", FILE, "shop"], { [FILE]: text }));
  const { names, resources } = readShop(text, "shop");
  const wordsOf = ({ mach, d }) => `${resources.get(mach)} ${d}`;
  return previewNodes(name, "job shop", `${counted(names.size, "order")} on ${
    counted(resources.size, "machine")}`, {
    heads: ["job", "order", "steps"],
    rows: [...names].map(([job, order]) => [job, order,
      rows.filter((row) => row.job === job).map(wordsOf).join(", ")]),
  }, noteNodes(note));
}

const lineIn = (message) => Number(message.match(/\bline (\d+)/)?.[1] ?? 0);

const rowLabels = (text, message) =>
  ({ rows: { [lineIn(message)]: rowWords(text, lineIn(message)) } });

const faultyNodes = ({ name, text }, message) => [
  refusalNode(message, { labels: rowLabels(text, message) }),
  ...(byId("grid-part").hidden ? [partNode(name, text, lineIn(message))]
    : [make("details", {}, make("summary", {}, "The lines of the file"),
      partNode(name, text, lineIn(message)))]),
];

// the lines around one of a file, which is marked
function partNode(name, text, line) {
  const lines = text.split("\n").map((words) => words.replaceAll("\0", "\u2400"));
  const at = Math.max(0, line - 1);
  const from = Math.max(0, at - CONTEXT);
  const rows = lines.slice(from, at + CONTEXT + 1).map((words, place) => {
    const isMarked = from + place + 1 === line;
    return make("tr", { class: isMarked && "marked", "aria-current": isMarked && "true" },
      make("th", { scope: "row" }, from + place + 1), make("td", {}, words));
  });
  return wideNode("The file", make("table", { class: "part" },
    make("caption", {}, line ? `Line ${line} of ${name}` : name), make("tbody", {}, ...rows)));
}

// -- sending

// a list with dates becomes the plan that the program finds for it
async function importByDates(file) {
  const told = (line) => page.file === file && fill("import-answer", tell(line));
  const { plan, words } = await plannedBy(file, told).catch((fault) => {
    throw Object.assign(fault, { labels: rowLabels(file.text, fault.message) });
  });
  if (page.file !== file) return "";
  await bringBack([plan], (own) => replacedBy(file, own));
  forgetFile();
  return words;
}

async function replacedBy({ name, from }, { kind, instance, bytes }) {
  const made = replacedFile(from, { kind, instance, bytes });
  if (!made) return sentFile({ kind, instance, bytes });
  noteMade(made, name, bytes, instance);
  return made.n;
}

async function importFile(fields) {
  const { file } = page;
  const { list } = file;
  if (list?.begins) return importByDates(file);
  const isProject = list ? list.isProject : file.isProject;
  const instance = list && !isProject ? "shop" : fields.instance || "-";
  const path = isProject ? deskPath("projects") : shopPath(instance);
  if (!path) {
    throw new Refusal("Rename the instance in the file: a name that is sent has no blank, no / and "
      + "no %.");
  }
  const bytes = list ? new TextEncoder().encode(list.text) : file.bytes;
  let made;
  try {
    made = replacedFile(file.from, { kind: isProject ? "project" : "shop", instance, bytes })
      ?? await command(path, "POST", new Blob([bytes]));
  } catch (fault) {
    fault.labels = labelsOf(isProject, bytes);
    const named = fault.message.match(/^(?:E10|F\d+) (?:.*? )?line (\d+)/);
    if (named) fault.more = [partNode(file.name, file.text, Number(named[1]))];
    throw fault;
  } finally {
    byId("import-answer").scrollIntoView({ block: "nearest" });
  }
  noteMade(made, file.name, bytes, instance);
  if (list) noteList(made.n, file);
  if (file.instances.length < 2) forgetFile();
  await openPlan(made.n);
  return `${file.name} is plan ${made.n}.`;
}

// the ids and names in a file that is refused
function labelsOf(isProject, bytes) {
  const found = isProject && readProject(new TextDecoder().decode(bytes));
  return found ? { ids: Object.fromEntries(found.ids), names: Object.fromEntries(found.names),
    resources: Object.fromEntries(found.resources), count: found.durations.length } : undefined;
}

function noteMade(made, name, bytes, instance) {
  noteFile(made.n, made.kind === "project", name, bytes, instance);
  page.plans = [...page.plans.filter(({ n }) => n !== made.n), made]
    .sort((a, b) => a.n - b.n);
  showPlans();
}

/** Sends the file of a plan, and returns the number of the new plan. */
export async function sentFile({ kind, bytes, instance }) {
  const path = kind === "project" ? deskPath("projects") : shopPath(instance);
  const made = await command(path, "POST", new Blob([bytes]));
  noteMade(made, "", bytes, instance);
  return made.n;
}

/** Keeps what the page shows of a plan's file, and at a desk the file. */
export function noteFile(n, isProject, name, bytes, instance) {
  const found = noteProject(n, isProject, bytes, instance);
  if (!found) return;
  remember(n, {
    title: found.title ?? name.replace(/\.[^.]*$/, ""),
    shape: undefined, names: Object.fromEntries(found.names),
    resources: Object.fromEntries(found.resources),
    file: isAlone() ? undefined : { isProject, bytes, instance },
  });
}

function noteProject(n, isProject, bytes, instance) {
  const text = new TextDecoder().decode(bytes);
  const found = isProject ? readProject(text) : readShop(text, instance);
  if (found && isProject) page.projects.set(n, { ...found, bytes });
  return found;
}

/** Takes the files that this browser remembers. */
export function noteKept() {
  for (const [n, { file }] of page.records) if (file) noteProject(n, file.isProject, file.bytes);
}

export async function takeNames(file) {
  const { plan } = page;
  const bytes = await bytesOf(file);
  if (!bytes) return null;
  const taken = { name: file.name, bytes, text: lettersOf(bytes), given: new Map() };
  const { list, instances } = await recognized(taken);
  if (list?.fault) {
    const labels = rowLabels(taken.text, list.fault.message);
    return fill("names-answer", refusalNode(list.fault.message, { labels }));
  }
  const own = list ? new TextEncoder().encode(list.text) : bytes;
  const instance = await instanceIn(own, plan, list ? ["shop"] : instances);
  if (instance === undefined) {
    return fill("names-answer",
      refusalNode(`Choose the file of plan ${plan.n}: the durations of ${file.name} are others.`));
  }
  noteFile(plan.n, plan.kind === "project", file.name, own, instance);
  await showPlan();
  return fill("names-answer", tell(`${file.name} is the file of plan ${plan.n}.`));
}

// the instance of a plan, - for a project; undefined if there is none
async function instanceIn(bytes, { kind, schedules }, instances) {
  const [{ rows } = { rows: [] }] = schedules.values();
  const cells = (list) => list.map(({ mach = "", d }) => `${mach}:${d}`).join();
  const isSame = (text) => cells(tableOf(text).rows) === cells(rows);
  if (kind === "project") {
    const { text } = await triedTo(["cpm"], bytes);
    return text && isSame(text) ? "-" : undefined;
  }
  for (const name of [...instances, "-"]) {
    const words = ["shop", "spt", FILE, name];
    const text = await printed(words, { [FILE]: bytes }).catch(() => null);
    if (text && isSame(text)) return name;
  }
  return undefined;
}

export function letImport() {
  onSubmit("import", importFile);
  byId("close-list").onclick = () => {
    forgetFile();
    byId(page.plan ? "plan-head" : "plans-head").focus();
  };
}
