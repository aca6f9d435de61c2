// Project and job shop files as far as the page shows them: names, titles, and of a project its
// ids, needs and arcs. The program is the judge of a file; it also reads lists and start times.

// the program writes it in the place of a title
const IMPORTED = "plan import";

const TITLES = [
  "PROJECT INFORMATION", "PRECEDENCE RELATIONS", "REQUESTS/DURATIONS", "RESOURCEAVAILABILITIES",
];
const HEAD = /^(projects|jobs|-|RESOURCES|horizon|initial)/;

const keptLines = (text) =>
  text.split("\n").map((line) => line.trim()).filter((line) => !/^[*-]*$/.test(line));

const titleOf = (line) => TITLES.find((title) => line.startsWith(title));

function sectionsOf(text, title) {
  const sections = [];
  let own = null;
  for (const line of keptLines(text)) {
    const found = titleOf(line);
    if (found === title) sections.push(own = []);
    else if (found) own = null;
    else own?.push(line);
  }
  return sections;
}

const wordsIn = (text, title) =>
  (sectionsOf(text, title)[0] ?? []).slice(1).flatMap((line) => line.split(/\s+/)).map(Number);

const PLACES = {
  id: "ids", name: "names", job: "names", resource: "resources", machine: "resources",
};

// the first line of a number counts
function namesBy(pattern, lines) {
  const found = { ids: new Map(), names: new Map(), resources: new Map() };
  for (const line of lines) {
    const [, kind, number, name] = line.match(pattern) ?? [];
    const place = found[PLACES[kind]];
    if (place && !place.has(Number(number))) place.set(Number(number), name);
  }
  return found;
}

function namesOf(text) {
  const behind = text.slice(text.search(/^\s*RESOURCEAVAILABILITIES/m));
  return namesBy(/^(id|name|resource)\s+(\d{1,9})\s+(.+)$/,
    sectionsOf(behind, "PROJECT INFORMATION").flat());
}

// the base that PSPLIB names, or the first line if it isn't one of the head
function titleIn(text) {
  const [first = "", ...lines] = keptLines(text);
  if (/^file with basedata\b/.test(first)) {
    const words = first.slice(first.indexOf(":") + 1).trim();
    return words === IMPORTED ? undefined : words;
  }
  return lines.length && !HEAD.test(first) && !titleOf(first) ? first : undefined;
}

const valueOf = (text, key) =>
  Number(text.match(new RegExp(`^[ \\t]*${key}[^:\n]*:\\s*(\\d+)`, "m"))?.[1]);

/** Returns the model of a project with its ids, names and title; null if it can't be read. */
export function readProject(text) {
  const count = valueOf(text, "jobs");
  const width = valueOf(text, "- renewable");
  const links = wordsIn(text, "PRECEDENCE RELATIONS");
  const rows = wordsIn(text, "REQUESTS/DURATIONS");
  const capacities = wordsIn(text, "RESOURCEAVAILABILITIES");
  const arcs = [];
  let at = 0;
  for (let from = 0; from < count; from += 1) {
    const size = links[at + 2];
    for (const to of links.slice(at + 3, at + 3 + size)) arcs.push({ from, to: to - 1, lag: 0 });
    at += 3 + size;
  }
  const numbers = [...links, ...rows, ...capacities];
  const isWhole = count > 0 && at === links.length && rows.length === count * (3 + width)
    && capacities.length === width && numbers.every(Number.isInteger);
  if (!isWhole || !arcs.every(({ to }) => to >= 0 && to < count)) return null;
  const jobs = Array.from({ length: count }, (_, place) =>
    rows.slice(place * (3 + width), (place + 1) * (3 + width)));
  return {
    durations: jobs.map((job) => job[2]), needs: jobs.map((job) => job.slice(3)), arcs, capacities,
    ...namesOf(text), title: titleIn(text),
  };
}

function blockOf(text, instance) {
  const lines = text.split("\n").map((line) => line.trim());
  const nameIn = (line) => line.match(/^instance\s+(\S+)$/)?.[1];
  const at = lines.findIndex((line) => nameIn(line) === instance);
  if (at < 0) return lines;
  const end = lines.findIndex((line, place) => place > at && nameIn(line));
  return lines.slice(at + 1, end < 0 ? lines.length : end);
}

export function readShop(text, instance) {
  const lines = blockOf(text, instance);
  const first = lines.find((line) => line && !line.startsWith("+"));
  const title = instance === "-" || first === IMPORTED ? undefined : first;
  const { names, resources } = namesBy(/^\+\s*(machine|job)\s+(\d{1,9})\s+(.+)$/, lines);
  return { names, resources, title };
}

/** Returns whether an id is that of a wait, which stands for a lag of a list. */
export const isWait = (id) => /^wait\+\d+$/.test(id ?? "");

/** Returns the id that the page gives to an absence, counted from 0. */
export const absenceId = (number) => (number ? `absence-${number + 1}` : "absence");

/** Returns whether an id is that of an absence. */
export const isAbsence = (id) => /^absence(-\d+)?$/i.test(id ?? "");

/** Returns the arcs of a project with the lags of its list in the place of waits. */
export function arcsOverWaits({ arcs, durations, ids }) {
  const isGap = (at) => isWait(ids?.get(at + 1));
  const before = (at) => arcs.find(({ to }) => to === at)?.from ?? 0;
  return arcs.filter(({ to }) => !isGap(to)).map((arc) => (isGap(arc.from)
    ? { ...arc, from: before(arc.from), lag: durations[arc.from] } : arc));
}

/** Returns the first resource of which the greatest part is needed, counted from 1; 0 if none. */
export function mostNeeded(needs, capacities) {
  const parts = needs.map((need, place) => need / Math.max(1, capacities[place]));
  const greatest = Math.max(0, ...parts);
  return greatest > 0 ? parts.indexOf(greatest) + 1 : 0;
}
