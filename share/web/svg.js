// Makes elements of the SVG that the program prints. Only the tags and attributes of its drawings
// are taken, so that a text is never markup; the program escapes `<`, `>`, quotes and `&` in texts.

import { draw } from "./dom.js";

const PART = /<(\/?)(\w+)([^<>]*?)(\/?)>|[^<>]+/g;
const TAG = /^(svg|g|path|rect|text|title)$/;
const ATTRIBUTE = / (class|d|dx|height|transform|viewBox|width|x|y)="([^"]*)"/g;
const CHARACTERS = { amp: "&", lt: "<", gt: ">", quot: "\"", "#39": "'" };

const shown = (text) => text.replaceAll(/&([a-z]+|#39);/g, (_, name) => CHARACTERS[name]);

function nodeOf(tag, words) {
  if (!TAG.test(tag)) throw new Error(`a drawing with the tag ${tag}`);
  const found = [...words.matchAll(ATTRIBUTE)].map(([, name, value]) => [name, shown(value)]);
  return draw(tag, Object.fromEntries(found));
}

/** Returns a drawing of the program as an element. */
export function drawingNode(text) {
  const top = draw("g");
  let place = top;
  for (const [part, end, tag, words, isWhole] of text.matchAll(PART)) {
    if (end) place = place.parentNode;
    else if (tag) {
      const node = nodeOf(tag, words);
      place.append(node);
      if (!isWhole) place = node;
    } else if (/^(text|title)$/.test(place.tagName)) place.append(shown(part));
  }
  return top.firstChild;
}
