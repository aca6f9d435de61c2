// The chart of a view and the use of its resources: the drawings of the program, with bars that tell
// their words. On the screen they have its width, and one axis; on paper, A4 on its side, a sheet
// for each chart of 40 lines, and then the table.

import { Refusal } from "./api.js";
import { byId, draw, faultNodes, fill, make, onArrows, put, refusalNode, say } from "./dom.js";
import { resourceLabel } from "./labels.js";
import {
  labelFor, placed, placedPath, roomyLabels, shortened, today, widthOf,
} from "./layout.js";
import { isAlone } from "./local.js";
import { verdictWords } from "./messages.js";
import { page, WORDS_OF_KIND } from "./state.js";
import { drawingNode } from "./svg.js";
import { paperTable } from "./table.js";
import { legendOf, linksOf, nameOf, namesIn } from "./view.js";

// heights in a drawing: of the labels of its axis, of a line, and of the image of a resource; and of
// a sentence on paper
const AXIS = 19;
const LINE = 20;
const USE = 93;
const SENTENCE = 30;
// the room behind the axis on the screen
const RIGHT = 26;
// the width of a drawing, and how much larger its letters are than those on the screen
const DRAWN = { width: 1390, letters: 4 / 3 };
const SHEET_LINES = 40;

const numberIn = (node, name) => Number(node.getAttribute(name));
const nameIn = (part) => part.querySelector(":scope > svg > text");

// -- the bars of a drawing

// the bars in the order of the program; it draws no step that takes no time
const barsInOrder = ({ bars }) => bars.filter(({ d, isAlone: isOwn }) => isOwn || d > 0)
  .toSorted((a, b) => a.line - b.line || a.index - b.index);

const linesIn = (image) => [...image.querySelectorAll(":scope > g")];

// the end of the program's words on a bar
const endOfTip = ({ isAlone: isOwn, step, start, end }) =>
  `${isOwn ? "" : `, step ${step}`}, ${start} to ${end}`;

function barNode(shape, bar) {
  const title = shape.firstChild;
  if (!title.textContent.endsWith(endOfTip(bar))) throw new Error("a bar of another schedule");
  title.textContent = bar.words;
  const node = draw("g", {
    class: `bar ${bar.colour}${bar.isCritical ? " critical" : ""}`, "data-index": bar.index,
    "data-line": bar.line, "data-start": bar.start, "data-end": bar.end,
  }, title);
  shape.before(node);
  shape.removeAttribute("class");
  node.append(shape);
  if (node.nextSibling?.matches(".tail")) node.append(node.nextSibling);
  if (node.nextSibling?.matches(".on")) node.nextSibling.remove();
  if (bar.slack === "") node.querySelector(".tail")?.remove();
  return node;
}

// a machine or a job without a name has a number alone
function nameLine(text, { plan }) {
  const isBare = plan.kind === "shop" && /^\d+$/.test(text.textContent);
  if (isBare) text.prepend(`${byId("lines").value} `);
}

// the images of a chart, their lines, and the bars in the order of the view, each with its node
function chartOf(view) {
  const images = view.drawings.charts.map(drawingNode);
  for (const image of images) image.firstChild.remove();
  const wanted = barsInOrder(view);
  // the last lines are those of waits and lags
  const isOwn = wanted.every((bar) => bar.isAlone);
  for (const line of isOwn ? images.flatMap(linesIn).slice(wanted.length) : []) line.remove();
  const shapes = images.flatMap((image) => [...image.querySelectorAll(".bar")]);
  if (shapes.length !== wanted.length) throw new Error("a drawing of another plan");
  const nodes = new Map(wanted.map((bar, at) => [bar.index, barNode(shapes[at], bar)]));
  const bars = view.bars.filter(({ index }) => nodes.has(index))
    .map((bar) => ({ ...bar, node: nodes.get(bar.index) }));
  for (const { node } of bars) node.parentNode.append(node);
  const kept = images.filter((image) => linesIn(image).length), lines = kept.flatMap(linesIn);
  for (const line of lines) nameLine(nameIn(line), view);
  return { images: kept, lines, bars };
}

// the left and the right end of a bar
function endsOf(node) {
  const shape = node.querySelector("rect, path");
  const x = parseFloat(shape.getAttribute("x") ?? shape.getAttribute("d").slice(1));
  return [x, x + numberIn(shape, "width")];
}

// puts the label of a bar inside it or behind it, if there is room
function label({ node, labels, isAlone: isOwn }, edge, letters) {
  const [x, end] = endsOf(node);
  const inside = labelFor(labels, (end - x) / letters);
  const isFree = isOwn && !node.querySelector(".tail");
  const behind = inside || !isFree ? "" : labelFor(labels, (edge - end - 8) / letters);
  if (inside) node.append(draw("text", { x: x + 4, y: 15 }, inside));
  if (behind) node.append(draw("text", { class: "behind", x: end + 9, y: 15 }, behind));
}

// -- the screen

// puts all but the names at the places of an axis between two edges
function place(image, edges) {
  for (const node of image.querySelectorAll("rect, path, text")) {
    if (node.closest("svg") !== image) continue;
    if (node.hasAttribute("d")) {
      node.setAttribute("d", placedPath(node.getAttribute("d"), edges));
    } else {
      const x = numberIn(node, "x"), begin = placed(x, edges);
      const end = placed(x + numberIn(node, "width"), edges);
      node.setAttribute("x", node.matches(".end") ? edges.left - 6 : begin);
      if (node.tagName === "rect") node.setAttribute("width", end - begin);
    }
  }
}

function roomForNames({ plan }, lines, width) {
  const longest = Math.max(...lines.map((line) => widthOf(nameIn(line).textContent)));
  const least = plan.kind === "project" && plan.model ? 84 : 44;
  return Math.max(least, Math.min(longest + 16, width * 0.28, 240));
}

function shorten(text, width) {
  const full = text.textContent;
  text.setAttribute("class", "name");
  text.replaceChildren(draw("title", {}, full), shortened(full, width - 12));
  text.parentNode.setAttribute("width", width - 8);
}

function axisSvg(images, width, { left, right }) {
  const [own, ...others] = images.map((image) =>
    [...image.querySelectorAll(":scope > text, :scope > .week")]);
  for (const node of [...own, ...others.flat()]) node.remove();
  const texts = own.filter((node) => node.tagName === "text");
  const isRoomy = roomyLabels(texts.map((node) =>
    ({ x: numberIn(node, "x"), text: node.textContent })), width);
  for (const node of texts) node.setAttribute("class", "time");
  return draw("svg", { class: "axis", viewBox: `0 0 ${width} ${AXIS}`, "aria-hidden": "true" },
    draw("line", { class: "thread", x1: left, x2: right, y1: AXIS, y2: AXIS }),
    ...own.filter((node) => node.tagName !== "text"), ...texts.filter((_, at) => isRoomy[at]));
}

function todayNodes({ today: drawing }, edges, height) {
  if (!drawing) return [];
  const [, bar] = drawingNode(drawing).querySelectorAll(".bar");
  const x = placed(numberIn(bar, "x"), edges);
  return [draw("line", { class: "today", x1: x, x2: x, y1: AXIS, y2: AXIS + height },
    draw("title", {}, "today"))];
}

function screenChart(view, width) {
  const { images, lines, bars } = chartOf(view);
  const edges = { left: roomForNames(view, lines, width), right: width - RIGHT };
  for (const image of images) place(image, edges);
  for (const line of lines) {
    shorten(nameIn(line), edges.left);
    line.prepend(draw("path", { class: "thread", d: `M${edges.left} ${LINE}H${edges.right}` }));
  }
  for (const bar of bars) label(bar, width, 1);
  const axis = axisSvg(images, width, edges);
  const height = LINE * lines.length + 7;
  let above = 0;
  const parts = images.map((image) => {
    const part = draw("g", { transform: `translate(0,${above})` }, ...image.children);
    above += LINE * linesIn(part).length;
    return part;
  });
  const body = draw("svg", { viewBox: `0 ${AXIS} ${width} ${height}` }, ...parts,
    ...todayNodes(view, edges, height), draw("g", { class: "arcs" }));
  return { axis, body, bars, lines, edges };
}

const legendNodes = (view) => legendOf(view).map(([name, words]) => make("li", {},
  ...(name ? [draw("svg", { viewBox: "0 0 20 12", "aria-hidden": "true" },
    draw("g", { class: name }, draw("rect", { x: 1, y: 1, width: 18, height: 10 })))] : []), ` ${words}`));

function captionOf({ plan, isDated }) {
  const unit = isDated ? "weeks begin on Monday, free days are shaded"
    : "working time from 0 (for dates set a calendar under Changes)";
  const rows = plan.kind === "project" ? "Activities" : "Steps";
  return `${rows} by ${nameOf(plan, plan.drawn)}; ${unit}`;
}

function showLinks(view, { body, bars, lines }, index) {
  const nodes = new Map(bars.map(({ index: own, node }) => [own, node]));
  const middle = (node) => AXIS + 3 + LINE * (lines.indexOf(node.parentNode) + 0.5);
  const links = linksOf(view, index).filter((pair) => pair.every((own) => nodes.has(own)));
  body.querySelector(".arcs").replaceChildren(...links.map(([from, to]) => {
    const a = nodes.get(from), b = nodes.get(to);
    const [, x] = endsOf(a), [end] = endsOf(b);
    const bend = Math.max(x + 4, end - 8);
    return draw("path", { class: "arc", "data-from": from + 1, "data-to": to + 1,
      d: `M${x} ${middle(a)}H${bend}V${middle(b)}H${end}` });
  }));
}

function letTell(view, chart) {
  const { body, bars } = chart;
  let current = -1;
  const tell = (at) => {
    bars[current]?.node.classList.remove("told");
    current = at;
    bars[at].node.classList.add("told");
    put("told", bars[at].words);
    showLinks(view, chart, bars[at].index);
  };
  body.onpointerover = body.onpointerdown = ({ target }) => {
    const at = bars.findIndex(({ node }) => node === target.closest(".bar"));
    if (at >= 0) tell(at);
  };
  onArrows(body, (step) => {
    tell(Math.min(Math.max(current + step, 0), bars.length - 1));
    bars[current].node.scrollIntoView({ block: "nearest" });
  }, { ArrowDown: 1, ArrowUp: -1 });
  return tell;
}

// -- the use of resources

// the line of the capacity, if the drawing has a greater one
function lowerMost(image, capacity, drawn) {
  const y = Math.round(108 - (capacity * 80) / drawn);
  image.querySelector(".most").setAttribute("d", `M330 ${y}h1000`);
  const text = image.querySelector(".end");
  text.setAttribute("y", y + 6);
  text.textContent = capacity;
}

function useSvg(text, name, capacity, drawn) {
  const image = drawingNode(text);
  const marks = image.querySelectorAll(":scope > text:not(.end), :scope > .week, title");
  for (const node of marks) node.remove();
  if (capacity < drawn) lowerMost(image, capacity, drawn);
  nameIn(image).textContent = name;
  return draw("svg", { role: "img", "aria-label": `Use of ${name}, capacity ${capacity}`,
    viewBox: `0 ${AXIS} ${DRAWN.width} ${USE}` }, ...image.children);
}

// shows the use above the line of the capacity in the colour of errors
function markOver(image) {
  const [, y] = image.querySelector(".most").getAttribute("d").split(" ");
  const least = parseFloat(y), area = image.querySelector(".use");
  const steps = [...area.getAttribute("d").matchAll(/H([\d.]+)V(\d+)(?=H([\d.]+))/g)];
  area.after(...steps.filter(([, , top]) => top < least).map(([, x, top, end]) =>
    draw("rect", { class: "over", x, y: top, width: end - x, height: least - top })));
}

// the images of the use, each with the verdict that more is needed than there is
function usesOf({ plan: { kind, model, ...plan }, drawings: { uses, capacities, over } }) {
  if (kind !== "project" || !model) return [];
  const labels = namesIn(plan);
  return uses.map((text, at) => ({ over: over.get(at), image: useSvg(text,
    resourceLabel(labels, at + 1), model.capacities[at], capacities[at]) }));
}

const wrongNodes = ({ plan: { labels } }, line) =>
  (line ? [say(verdictWords(line, labels).join(" "), { class: "fault" })] : []);

// the sentence on wrong start times, unless it stands above the use of a resource
function otherWrong(view) {
  const { plan, drawings: { over } } = view;
  const { wrong } = plan.schedules.get(plan.drawn);
  return [...over.values()].includes(wrong) ? [] : wrongNodes(view, wrong);
}

const useNodes = (view, uses) => uses.flatMap(({ over, image }) => {
  markOver(image);
  return [...wrongNodes(view, over), image];
});

function screenUses(view, { edges }, width) {
  const uses = usesOf(view);
  for (const { image } of uses) {
    place(image, edges);
    shorten(nameIn(image), edges.left - 24);
    image.setAttribute("viewBox", `0 ${AXIS} ${width} ${USE}`);
  }
  return [...otherWrong(view), ...useNodes(view, uses)];
}

function showDrawings(view) {
  const width = Math.max(280, byId("drawing").clientWidth || 320);
  const chart = screenChart(view, width);
  Object.assign(chart.body, { tabIndex: 0, role: "application",
    ariaLabel: "Chart; arrow keys go from bar to bar" });
  put("told", "Point at a bar, or go from bar to bar by the arrow keys.");
  fill("drawing", chart.axis, chart.body);
  fill("use", ...screenUses(view, chart, width));
  const tell = letTell(view, chart);
  return (index) => {
    const at = chart.bars.findIndex((bar) => bar.index === index);
    if (at >= 0) tell(at);
  };
}

// in the place of a chart: what to do, and why there is none
const missingNodes = (fault) => (fault instanceof Refusal && fault.message.endsWith(".")
  ? [refusalNode(`${fault.message.slice(0, -1)}; until then there is no chart.`)]
  : faultNodes(fault));

/** Shows the chart of a view, and returns the function that points at a bar. */
export function showChart(view) {
  put("caption", captionOf(view));
  fill("legend", ...legendNodes(view));
  try {
    if (view.drawings.fault) throw view.drawings.fault;
    return showDrawings(view);
  } catch (fault) {
    Object.assign(view, { drawings: { fault } });
    put("told", "");
    fill("use");
    fill("legend");
    fill("drawing", ...missingNodes(fault));
    return () => {};
  }
}

// -- paper

function headNode(view, place, count) {
  const { plan } = view;
  const pages = count > 1 ? `; chart ${place} of ${count}` : "";
  return make("header", {}, make("h2", {}, planTitle(plan)),
    say(`${isAlone() ? "" : `desk ${page.desk}, `}plan ${plan.n}, a ${WORDS_OF_KIND[plan.kind]}; schedule by ${
      nameOf(plan, plan.drawn)}; printed on ${today()}${pages}`));
}

const planTitle = (plan) => namesIn(plan).title || `Plan ${plan.n}`;

function paperCharts(view) {
  if (view.drawings.fault) return [];
  const { images, bars } = chartOf(view);
  for (const bar of bars) label(bar, DRAWN.width, DRAWN.letters);
  return images.map((image) => {
    const count = linesIn(image).length;
    return { count, chart: draw("svg", { viewBox: `0 0 ${DRAWN.width} ${LINE * count + 26}` },
      ...image.children) };
  });
}

// the uses on a sheet with some room, and those on further sheets
function onSheets(uses, room) {
  const parts = [[]];
  let free = room;
  for (const use of uses) {
    const height = USE + (use.over ? SENTENCE : 0);
    if (height > free) {
      parts.push([]);
      free = LINE * SHEET_LINES;
    }
    free -= height;
    parts.at(-1).push(use);
  }
  return parts;
}

function axisOfUses({ drawings: { uses: [text] } }) {
  const marks = drawingNode(text).querySelectorAll(":scope > text:not(.end), :scope > .week");
  return draw("svg", { viewBox: `0 0 ${DRAWN.width} ${AXIS}` }, ...marks);
}

function sheetsOf(view) {
  const charts = paperCharts(view), { length } = charts;
  if (!length) return [];
  const sheet = (at, count, ...nodes) => make("section", { class: "sheet" },
    headNode(view, at, count), ...nodes, say(captionOf(view), { class: "hint" }));
  const wrong = otherWrong(view);
  const room = LINE * (SHEET_LINES - charts.at(-1).count) - SENTENCE * wrong.length;
  const [below, ...others] = onSheets(usesOf(view), room);
  const rest = [...wrong, ...useNodes(view, below)];
  return [
    ...charts.map(({ chart }, at) => sheet(at + 1, length, chart,
      make("ul", { class: "legend" }, ...legendNodes(view)), ...(at < length - 1 ? [] : rest))),
    ...others.map((uses) => sheet(1, 1, axisOfUses(view), ...useNodes(view, uses))),
  ];
}

export function fillPaper(view) {
  fill("paper", ...sheetsOf(view), make("section", { class: "sheet rows" },
    paperTable(view, `${planTitle(view.plan)}: ${captionOf(view)}`)));
}
