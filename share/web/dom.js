// Elements of the page: making them, showing errors with their meaning, and buttons that await an
// answer. A text is never read as markup.

import { Lost, Refusal } from "./api.js";
import { sentencesOf } from "./messages.js";
import { page } from "./state.js";

export const byId = (name) => document.getElementById(name);
export const fill = (name, ...nodes) => byId(name).replaceChildren(...nodes);
export const put = (name, words) => { byId(name).textContent = words; };
export const all = (css) => [...document.querySelectorAll(css)];
export const clear = (css) => all(css).forEach((place) => place.replaceChildren());

function dressed(node, attributes, children) {
  for (const [name, value] of Object.entries(attributes)) {
    if (value || value === 0 || value === "") node.setAttribute(name, value === true ? "" : value);
  }
  node.append(...children);
  return node;
}

export const make = (tag, attributes = {}, ...children) =>
  dressed(document.createElement(tag), attributes, children);

export const draw = (tag, attributes = {}, ...children) =>
  dressed(document.createElementNS("http://www.w3.org/2000/svg", tag), attributes, children);

export const say = (words, attributes = {}) => make("p", attributes, words);
export const tell = (words) => say(words, { role: "status" });

export const wideNode = (name, child) =>
  make("div", { class: "wide", tabindex: 0, role: "region", "aria-label": name }, child);

export function tableNode({ label, caption, heads, rows, foot, marks = [] }) {
  const row = ([first, ...cells], index) => make("tr", { class: marks[index] && "critical" },
    make("th", { scope: "row" }, first), ...cells.map((cell) => make("td", {}, cell)));
  return make("table", { "aria-label": caption ? undefined : label },
    ...(caption ? [make("caption", {}, caption)] : []),
    make("thead", {}, make("tr", {}, ...heads.map((head) => make("th", { scope: "col" }, head)))),
    make("tbody", {}, ...rows.map(row)),
    ...(foot ? [make("tfoot", {}, row(foot))] : []));
}

/** Returns an error: what to do, then what is wrong, and the line of the program. `meaning` and
 * `why` replace the sentences of its code, and `labels` name what the line numbers. */
export function refusalNode(line, { meaning, why, labels } = {}) {
  const isCoded = /^[A-Z]\d+\b/.test(line);
  const [first = line, second] = meaning ?? (isCoded ? sentencesOf(line, labels) : []);
  const rest = [why || second].filter(Boolean);
  return make("div", { class: "refusal", role: "alert" }, make("strong", {}, first),
    ...rest.map((words) => say(words)),
    ...(isCoded ? [make("p", { class: "hint" }, make("code", {}, line))] : []));
}

export function faultNodes(fault) {
  const { message, more = [] } = fault;
  const labels = fault.labels ?? page.plan?.labels;
  if (fault instanceof Refusal) return [refusalNode(message, { ...fault, labels }), ...more];
  if (fault instanceof Lost) {
    const meaning = ["Try again, once the network is back.", message];
    return [make("div", { class: "unanswered" }, refusalNode("", { meaning }))];
  }
  return [refusalNode(`Reload the page, and report this: ${fault}`)];
}

export async function during(button, place, action) {
  if (button.ariaDisabled) return;
  const words = button.textContent;
  button.textContent = `${words} …`;
  button.ariaDisabled = "true";
  place.replaceChildren();
  try {
    const told = await action();
    if (told) place.append(tell(told));
  } catch (fault) {
    place.replaceChildren(...faultNodes(fault));
  } finally {
    button.textContent = words;
    button.ariaDisabled = null;
  }
}

/** Calls an action with the fields of a form when it is submitted; a key is then forgotten. */
export function onSubmit(name, action, isMeant = () => true) {
  const form = byId(name);
  const place = byId(`${name}-answer`) ?? make("div", { class: "answer" });
  if (!place.parentNode) form.append(place);
  form.onsubmit = async (event) => {
    event.preventDefault();
    if (!(await isMeant())) return;
    during(form.querySelector("button"), place, async () => {
      const told = await action(Object.fromEntries(new FormData(form)));
      if (form.elements.key) form.elements.key.value = "";
      return told;
    });
  };
}

/** Calls a function with 1 or -1, and the event's target, when an arrow key is pressed. */
export function onArrows(node, act, more) {
  node.onkeydown = (event) => {
    const step = { ArrowRight: 1, ArrowLeft: -1, ...more }[event.key];
    if (!step) return;
    event.preventDefault();
    act(step, event.target);
  };
}

export function letChoose(list) {
  const tabs = [...list.children];
  const choose = (tab) => {
    for (const other of tabs) {
      const isChosen = other === tab;
      other.ariaSelected = String(isChosen);
      other.tabIndex = isChosen ? 0 : -1;
      byId(other.getAttribute("aria-controls")).hidden = !isChosen;
    }
  };
  list.onclick = ({ target }) => tabs.includes(target) && choose(target);
  onArrows(list, (step, tab) => {
    const next = tabs.at((tabs.indexOf(tab) + step) % tabs.length);
    choose(next);
    next.focus();
  });
  choose(tabs[0]);
}

/** Lets a place take files that are dropped on it or chosen in it. */
export function letTake(place, take) {
  place.ondragover = (event) => event.preventDefault();
  place.ondrop = (event) => {
    event.preventDefault();
    event.stopPropagation();
    const [file] = event.dataTransfer.files;
    if (file) take(file);
  };
  place.querySelector("[type=file]").onchange = ({ target }) => {
    if (target.files.length) take(target.files[0]);
    target.value = "";
  };
}

export function download(name, text) {
  const address = URL.createObjectURL(new Blob([text]));
  make("a", { href: address, download: name }).click();
  setTimeout(() => URL.revokeObjectURL(address), 10000);
}
