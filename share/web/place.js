// The open plan or the list: the page's title, the browser's history, and the part that a small
// screen shows.

import { byId, put } from "./dom.js";
import { isAlone } from "./local.js";
import { page, recordOf } from "./state.js";

/** Shows whether a plan or a list is open, and its title. */
export function showPlace() {
  const { plan, file, desk } = page;
  byId("desk").toggleAttribute("data-open", Boolean(plan || file));
  const title = plan ? recordOf(plan.n).title || `Plan ${plan.n}` : file?.name ?? "Plans";
  document.title = `${title} - ${isAlone() ? "plan" : desk}`;
}

/** Notes the open plan, or 0 for the list, in the browser's history, unless it is there. */
export function visitPlace(n) {
  const state = { desk: page.desk, n };
  if (JSON.stringify(history.state) !== JSON.stringify(state)) history.pushState(state, "");
}

/** Lets Back and Forward go between the list and the plans. They never leave a desk, because the
 * key would be lost. */
export function letGoBack(openPlan, openList) {
  addEventListener("popstate", ({ state }) => {
    if (!byId("door").hidden) return;
    const n = state?.n ?? 0;
    if (!isAlone() && state?.desk !== page.desk) {
      visitPlace(page.plan?.n ?? 0);
      put("news", "You are still signed in. Sign out to leave.");
    } else if (page.plans.some((plan) => plan.n === n)) openPlan(n);
    else openList();
  });
}
