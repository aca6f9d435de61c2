// The page of a desk: signing in and out, and the events of the window. It asks the routes of
// docs/api.md, and shows the answers.

import { listenTo, Refusal } from "./api.js";
import { letChange } from "./changes.js";
import { all, byId, clear, during, fill, letChoose, letTake, make, onSubmit, put } from "./dom.js";
import { letEdit, openAlone, start } from "./edit.js";
import { forgetFile, letImport, noteKept, takeFile, takeNames } from "./import.js";
import { isAlone } from "./local.js";
import { letGoBack, visitPlace } from "./place.js";
import { leavePlan, letPlanAct, openPlan, redraw, showPaper } from "./plan.js";
import {
  askAgain, askLists, askMakespans, letOfficeAct, noteAnswered, noteLost, refresh, showPlans,
  showPublished, tryOfficeKey,
} from "./plans.js";
import {
  isRemembering, moveEarlier, newPage, page, readRecords, setRemembering,
} from "./state.js";
import { glossary } from "./words.js";

function showView(name) {
  for (const view of ["door", "desk", "office"]) byId(view).hidden = view !== name;
  byId("leave").hidden = byId("who").hidden = name === "door" || isAlone();
  put("who", name === "office" ? "The office" : `Desk ${page.desk}`);
  if (name !== "desk") document.title = name === "office" ? "The office" : "Scheduling desks";
  if (name !== "door" && !isAlone()) visitPlace(0);
  byId("remember").checked = isRemembering();
}

const trying = (words, action) => action().catch((fault) => {
  if (fault instanceof Refusal && fault.message === "E01 key") fault.why = words;
  throw fault;
});

async function enterDesk(fields) {
  Object.assign(newPage(), fields);
  await trying("This desk and key don't match.", askLists);
  await readRecords();
  noteKept();
  showPlans();
  leavePlan();
  forgetFile();
  showView("desk");
  byId("plans-head").focus();
  askMakespans();
}

async function enterOffice({ key }) {
  newPage().key = key;
  await trying("This isn't the office's key.", tryOfficeKey);
  showPublished();
  showView("office");
  byId("office-head").focus();
}

function leave() {
  newPage();
  byId("lost").hidden = true;
  put("news", "");
  for (const form of document.forms) form.reset();
  clear(".answer, .wide, #published, #drawing, #use, #drawn label");
  leavePlan();
  forgetFile();
  showView("door");
  byId("enter").elements.desk.focus();
}

function openList() {
  leavePlan();
  forgetFile();
  byId("plans-head").focus();
}

function letDrop() {
  const isDesk = () => !byId("desk").hidden;
  const mark = (isOver) => document.body.classList.toggle("dropping", isOver);
  addEventListener("dragover", () => mark(isDesk()), true);
  for (const kind of ["dragleave", "drop"]) addEventListener(kind, () => mark(false), true);
  letTake(document, (file) => isDesk() && takeFile(file));
}

function letFit() {
  let width = 0;
  new ResizeObserver(([entry]) => {
    const now = Math.round(entry.contentRect.width);
    if (now === width || !now) return;
    width = now;
    redraw();
  }).observe(byId("drawing"));
  addEventListener("beforeprint", showPaper);
  addEventListener("afterprint", () => fill("paper"));
}

// on a small screen the chart comes before what is done with it, also in the order of the keys
function letOrder() {
  const small = matchMedia("(max-width: 59.99rem)");
  const parts = ["keep-row", "keep-answer", "choices"].map(byId);
  const order = () => byId("chart")[small.matches ? "after" : "before"](...parts);
  small.onchange = order;
  order();
}

function letHelp() {
  fill("terms", ...glossary().flatMap(([term, meaning]) =>
    [make("dt", {}, term), make("dd", {}, meaning)]));
  byId("help-button").onclick = () => byId("help").showModal();
  byId("remember").onchange = ({ target }) => setRemembering(target.checked);
}

function letDescribe() {
  for (const place of all(".wide")) Object.assign(place, { tabIndex: 0, role: "region" });
  const name = { pattern: "[a-z0-9][a-z0-9\\-]{0,31}" };
  name.title = "1 to 32 of a to z, 0 to 9 and -, not beginning with -";
  const key = { pattern: "[!-~]{8,64}", title: "8 to 64 characters without a blank" };
  const words = { autocomplete: "off", autocapitalize: "none", spellcheck: false, required: true };
  for (const input of all("[name=desk], input[name=code]")) Object.assign(input, words, name);
  for (const input of all("[name=key]")) Object.assign(input, words, key);
}

function letAct() {
  onSubmit("enter", enterDesk);
  onSubmit("enter-office", enterOffice);
  letImport();
  letEdit();
  letPlanAct();
  letChange();
  letOfficeAct();
  letChoose(byId("tabs"));
  letTake(byId("names-zone"), takeNames);
  letGoBack(openPlan, openList);
  byId("to-plans").onclick = () => {
    visitPlace(0);
    openList();
  };
  byId("leave").onclick = leave;
  byId("again").onclick = () => during(byId("again"), byId("plans-answer"), askAgain);
  addEventListener("focus", refresh);
  document.onvisibilitychange = () => document.hidden || refresh();
}

listenTo({ lost: noteLost, answered: noteAnswered, unsure: askAgain });
letDescribe();
letHelp();
letAct();
letDrop();
letFit();
letOrder();
// no desk is open yet, so its transaction comes before those of readRecords
moveEarlier();
for (const doors of all("#door fieldset")) doors.disabled = false;
if (isAlone()) {
  await openAlone();
  showView("desk");
  await start("example");
}
