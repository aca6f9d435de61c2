// The kind of a file, by the program's reading: a list, a project, a job shop, or start times.

import { Refusal } from "./api.js";
import { printed, printedWith } from "./program.js";
import { page } from "./state.js";
import { withoutDates } from "./week.js";

/** The name of a file for the program. */
export const FILE = "file";

/** Returns the text of a file in the letters in which the program reads a list. */
export function lettersOf(bytes) {
  const [first, second] = bytes;
  const wide = first === 0xff && second === 0xfe ? "utf-16le"
    : first === 0xfe && second === 0xff && "utf-16be";
  try {
    return new TextDecoder(wide || "utf-8", { fatal: !wide }).decode(bytes);
  } catch {
    return new TextDecoder("windows-1252").decode(bytes);
  }
}

/** Returns what a command prints of a file, or its error. */
export async function triedTo(words, bytes) {
  try {
    return await printedWith([...words, FILE], { [FILE]: bytes });
  } catch (fault) {
    if (!(fault instanceof Refusal)) throw fault;
    return { fault };
  }
}

/** Returns the project or the job shop that a list becomes, or the error of the list; `begins` is
 * set for a list with dates, whose project has none. */
export async function listOf(name, bytes, given) {
  const plain = withoutDates(lettersOf(bytes), given);
  const found = plain && await plainListOf(name, new TextEncoder().encode(plain.text), given);
  return found?.isProject ? { ...found, begins: plain.begins } : plainListOf(name, bytes, given);
}

async function plainListOf(name, bytes, given) {
  const options = [...given].flatMap(([resource, amount]) => ["--capacity", `${resource}=${amount}`]);
  const read = await triedTo(["import", ...options], bytes);
  const project = { isProject: !read.text || /^PRECEDENCE RELATIONS:/m.test(read.text), ...read };
  if (project.text) return project;
  const shop = { isProject: false, ...await triedTo(["import", "--shop"], bytes) };
  if (shop.text || /^T(5|6|15) /.test(shop.fault.message)) return shop;
  if (/^T(5|6|7|8|9|10|11|14) /.test(project.fault.message)) return project;
  if (/^T12 /.test(shop.fault.message)) return shop;
  return /\.(csv|tsv)$/i.test(name) ? project : null;
}

async function instancesOf(bytes) {
  const { text } = await triedTo(["names", "--format", "json"], bytes);
  return text ? JSON.parse(text).rows.map((row) => row.name) : [];
}

async function isShop(bytes) {
  const words = ["shop", "spt", FILE, "-"];
  return printed(words, { [FILE]: bytes }).then(() => true, () => false);
}

// the first word of start times, or of a table or JSON that has them; the two sizes of a job shop
const STARTS = /^\s*(\d|\{|"?(act|job|id|optimal|between|budget|makespan)\b)/;
const SIZES = /^[ \t]*\d+[ \t]+\d+[ \t]*\r?$/m;

/** Returns the kind of a file: `list` is set for a list, `instances` for a job shop. */
export async function recognized({ name, bytes, text, given }) {
  const isProject = /^\s*PRECEDENCE RELATIONS/m.test(text) || /\.sm$/i.test(name);
  const list = isProject ? null : await listOf(name, bytes, given);
  // a schedule that was saved as CSV
  const isSaved = page.plan && list?.fault && /^[^\n]*\bstart\b/.test(text);
  const instances = isProject || list ? [] : await instancesOf(bytes);
  const isOther = !isProject && !list && !instances.length && !(await isShop(bytes));
  const isStarts = isSaved || (page.plan && isOther && STARTS.test(text));
  const isNothing = isOther && !isStarts && !SIZES.test(text);
  return { isProject, list, instances, isStarts, isNothing };
}
