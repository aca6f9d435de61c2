// The notes below the words on a list: what the program ignores, how it reads the letters, and how the
// rows are numbered.

import { byId, say } from "./dom.js";
import { ignoredWords } from "./messages.js";

const UNNUMBERED = "The list has no ids. In the plan its rows are numbered from 2 on, because 1 is the "
  + "start. Press Number the rows to have your own numbers.";

// the program's note on columns that it ignores, or on the letters of the file
const sentencesIn = (note) => (note.match(/[^;]+/g) ?? []).flatMap((words) => [words.trim()
  .replace(/^ignored columns:/,
    "These columns are no crews, because no capacity is given, and are ignored:")
  .replace(/^read as (.*)$/, "The list isn't in UTF-8; it is read as $1."), ...ignoredWords(words)]);

const nodesOf = (sentences) => sentences.map((words) => say(words, { class: "hint" }));

export const noteNodes = (note) => nodesOf(sentencesIn(note));

/** Returns the notes on a list of activities, and offers to number its rows if it has no ids. */
export function projectNotes(note, ids) {
  byId("number-rows").hidden = ids.length > 0;
  return nodesOf([...sentencesIn(note), ...(ids.length ? [] : [UNNUMBERED])]);
}
