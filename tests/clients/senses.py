"""What people with other senses need of the browser page: contrast, names and roles, and the order in which
the accessibility tree is read."""

import re

from exchanges import file_of
from programs import same

# relative luminance and contrast, by the Web Content Accessibility Guidelines: 4.5 for texts, also those in
# pictures and on the free days behind them, and 3 for the bars and steps of pictures or their edges
CONTRAST = """
    const channel = (value) => {
        const part = value / 255;
        return part <= 0.04045 ? part / 12.92 : ((part + 0.055) / 1.055) ** 2.4;
    };
    const light = ([r, g, b]) => 0.2126 * channel(r) + 0.7152 * channel(g) + 0.0722 * channel(b);
    const parts = (colour) => colour.match(/[0-9.]+/g)?.map(Number) ?? [];
    const contrast = (a, b) => {
        const [low, high] = [light(a), light(b)].sort((x, y) => x - y);
        return (high + 0.05) / (low + 0.05);
    };
    const behind = (node) => {
        for (let at = node; at; at = at.parentElement) {
            const colour = parts(getComputedStyle(at).backgroundColor);
            if (colour.length === 3 || colour[3] === 1) return colour;
        }
        return [255, 255, 255];
    };
    const meet = (a, b) => a.left < b.right && b.left < a.right && a.top < b.bottom && b.top < a.bottom;
    const bandsAt = (node) => {
        const box = node.getBoundingClientRect();
        return [...node.closest("svg").querySelectorAll(".off")].filter((band) =>
            meet(box, band.getBoundingClientRect())).map((band) => parts(getComputedStyle(band).fill));
    };
    const found = [];
    const tell = (node, value, words) =>
        found.push(`${node.tagName}.${node.getAttribute("class")} ${value.toFixed(2)} ${words.slice(0, 20)}`);
    const walker = document.createTreeWalker(document.body, NodeFilter.SHOW_TEXT);
    while (walker.nextNode()) {
        const node = walker.currentNode.parentElement;
        if (!walker.currentNode.data.trim() || !node.checkVisibility() || node.closest("title, [aria-disabled]"))
            continue;
        const style = getComputedStyle(node), bar = node.closest(".bar");
        const isText = node.namespaceURI.endsWith("svg");
        const ink = parts(isText ? style.fill : style.color);
        const isInside = bar && !node.classList.contains("behind");
        const under = isInside ? [parts(getComputedStyle(bar.querySelector("rect, path")).fill)]
            : [behind(node.closest("svg") ?? node), ...(isText ? bandsAt(node) : [])];
        for (const other of under) {
            const value = contrast(ink, other);
            if (value < 4.5) tell(node, value, node.textContent);
        }
    }
    for (const node of document.querySelectorAll(".bar rect, .bar path, .use, .over")) {
        if (!node.checkVisibility()) continue;
        const style = getComputedStyle(node), page = behind(node.closest("svg"));
        const mixed = (colour) => colour.map((part, at) =>
            part * Number(style.opacity) + page[at] * (1 - Number(style.opacity)));
        const inks = [style.fill, style.stroke].map(parts).filter((colour) => colour.length >= 3);
        const value = Math.max(...inks.map((ink) => contrast(mixed(ink.slice(0, 3)), page)));
        if (value < 3) tell(node, value, "a picture");
    }
    return [...new Set(found)];
"""

# buttons and fields that are too low for a finger; a box or a button of a choice has its label
LOW = """
    return [...document.querySelectorAll("button, input, select, textarea, summary")].flatMap((node) => {
        const place = /^(checkbox|radio)$/.test(node.type) ? node.parentNode : node;
        const { height } = place.getBoundingClientRect();
        return !node.checkVisibility() || height >= 32 ? [] : [`${node.tagName} ${node.name ?? ""} ${
            node.textContent.slice(0, 20)} ${height}`];
    });
"""

# what a page has to have beside names
FORMS = """
    const found = [];
    const visible = (css) => [...document.querySelectorAll(css)].filter((node) => node.checkVisibility());
    const ids = [...document.querySelectorAll("[id]")].map((node) => node.id);
    for (const id of ids) if (ids.indexOf(id) !== ids.lastIndexOf(id)) found.push(`two elements ${id}`);
    for (const node of document.querySelectorAll("[aria-controls], [aria-labelledby]")) {
        const id = node.getAttribute("aria-controls") ?? node.getAttribute("aria-labelledby");
        if (!document.getElementById(id)) found.push(`no element ${id}`);
    }
    for (const table of visible("table"))
        if (table.tHead && !table.querySelector("thead th[scope=col]")) found.push("a table without heads");
    for (const node of visible("[tabindex]")) if (node.tabIndex > 0) found.push(`tabindex ${node.tabIndex}`);
    if (document.documentElement.lang !== "en") found.push("no language");
    if (visible("main").length !== 1 || visible("h1").length !== 1) found.push("main or h1");
    const heads = visible("h1, h2, h3").map((node) => Number(node.tagName[1]));
    heads.forEach((level, at) => { if (at && level > heads[at - 1] + 1) found.push(`a heading skips to ${level}`); });
    if (document.getAnimations().length) found.push("something moves");
    return found;
"""

# roles that need a name
NAMED = set("""application article button checkbox combobox DisclosureTriangle dialog figure form heading image list
    listbox radio region searchbox slider spinbutton tab tablist table tabpanel textbox Date graphics-symbol
    alertdialog""".split())


def tree(browser):
    """The roles and names of the accessibility tree, in the order in which it is read."""
    browser.devtools("Accessibility.enable")
    nodes = {node["nodeId"]: node for node in browser.devtools("Accessibility.getFullAXTree")["nodes"]}
    root = next(node for node in nodes.values() if "parentId" not in node)
    found = []

    def walk(node):
        if not node["ignored"]:
            found.append((node["role"]["value"], node.get("name", {}).get("value", "")))
        for child in node.get("childIds", []):
            if child in nodes:
                walk(nodes[child])

    walk(root)
    browser.devtools("Accessibility.disable")
    return found


def same_fingers(what, browser):
    """Buttons and fields have room for a finger."""
    same(f"what is too low for a finger in {what}", browser.run(LOW), [])


def same_senses(what, browser):
    """Contrast in the light and in the dark; elements have names."""
    for scheme in ("dark", "light"):
        browser.darken(scheme)
        same(f"what is pale in {what} in the {scheme}", browser.run(CONTRAST), [])
    for motion in ("reduce", "no-preference"):
        features = [{"name": "prefers-reduced-motion", "value": motion}]
        browser.devtools("Emulation.setEmulatedMedia", media="", features=features)
        asked = browser.run(f"return matchMedia('(prefers-reduced-motion: {motion})').matches")
        same(f"what is missing in {what}", (asked, browser.run(FORMS)), (True, []))
    found = tree(browser)
    same(f"roles without a name in {what}", [role for role, name in found if role in NAMED and not name], [])
    # behind an open panel nothing is read
    wanted = [] if any(role == "dialog" for role, _ in found) else ["banner", "main"]
    same(f"landmarks of {what}", [role for role, _ in found if role in ("banner", "main")], wanted)


def same_order(what, browser, title):
    """The tree is read in the order that a list of reading_order.txt has below a title; a name there that
    ends with .. is the beginning of one."""
    _, _, part = file_of("tests/clients/reading_order.txt").decode().partition(f"\n{title}\n")
    rows = re.findall(r"^- ([\w-]+): (.*)$", part.split("\n\n")[0], re.MULTILINE)
    same(f"rows of the order of {what}", len(rows) > 8, True)
    at, found = 0, tree(browser)
    for role, name in rows:
        fits = [k for k, (kind, words) in enumerate(found[at:], at) if kind == role
                and (words.startswith(name[:-3]) if name.endswith(" ..") else words == name)]
        same(f"the {role} {name} behind the {found[at - 1] if at else 'top'} of {what}", bool(fits), True)
        at = fits[0] + 1
