// What the page says of an error: in the first sentence what to do, then what is wrong, with the
// ids and names of the plan. share/web/explain compares codes and numbers with `plan explain`.

import { activityLabel, machineLabel, resourceLabel } from "./labels.js";

const CELL = "A number has one to nine digits, without a sign, a fraction or a unit.";
const HEADERS = "Change headers and columns in the spreadsheet, or below in the list as a text.";

// links of MS Project that the program doesn't read, in four languages, and negative lags
const LINK = /^\d+(?:SS|SF|FF|AA|AE|EE|EA|DD|DF|FD|CC|CF|FC)\b|^\d+(?:[A-Z]{2})?-/i;

// the columns of dates
const DATES = /^(?:earliest|fixed|begun|remaining|done|due|late)$/i;

export const isOfDates = (header) => DATES.test(header);

// the column with the names of resources, as planning programs export it
const ASSIGNED =
  /^(?:resource names|resources|ressourcennamen|noms ressources|nombres de los recursos)$/i;

/** Returns what to do about the columns that the program ignores, as its note names them. */
export function ignoredWords(note) {
  const listed = note.match(/ignored columns:([^;]*)/)?.[1] ?? "";
  const headers = (listed.match(/[^,]+/g) ?? []).map((header) => header.trim());
  const assigned = headers.find((header) => ASSIGNED.test(header));
  return [
    ...(assigned ? [`To count the names in ${assigned}, add a row with the id capacity, and write, `
      + "for example, crew[3],digger there."] : []),
  ];
}

// by code; codes of start times end with s
const MESSAGES = {
  F2: ({ line }) => ["Save the file as plain text in UTF-8.", `Line ${line} contains a zero byte.`],
  F3: () => ["Add the missing line before the first section title, for example jobs : 6.",
    "The lines are projects, jobs, - renewable, - nonrenewable and - doubly constrained."],
  F3s: () => ["Save the start times as numbers, a table, CSV or JSON.",
    "The first line isn't the head of a table with the columns id, d, start and end."],
  F4: ({ line }) => ["Declare 1 project, and 0 resources of the two other kinds.",
    `Line ${line} declares a kind of project that isn't supported.`],
  F5: () => ["Add the missing section, whose title begins a line, in capitals.",
    "The titles are PRECEDENCE RELATIONS, REQUESTS/DURATIONS and RESOURCEAVAILABILITIES."],
  F6: ({ line }) => [`Correct the number in line ${line}, or complete the line.`, CELL],
  F6s: ({ line }) => [`Correct the number in line ${line} of the start times.`, CELL],
  F7: ({ line }) => ["Number the jobs 1, 2, 3 and so on, and name only such jobs as successors.",
    `Line ${line} has another number.`],
  F7s: ({ line }) => ["Give each activity one row, with its own id or number, duration and end.",
    `In line ${line} of the start times one of them is unknown, repeated or wrong.`],
  F8: ({ line }) => ["Give each job one mode.",
    `Line ${line} has another number of modes, or another mode.`],
  F9: ({ line }) => ["Compare the counts in the file with its rows.",
    `In line ${line} a word is missing or too many.`],
  F9s: ({ line, count }) => [
    `Give one start time for each activity or step, ${count}in their order.`,
    `In line ${line} of the start times one is missing or too many.`],
  F10: ({ line }) => ["Choose a coarser time unit, or split the project.",
    `A number in line ${line} is out of range. Projects: 2 to 502 jobs, 1 to 16 resources. Shops: `
    + "1 to 50 jobs, 1 to 20 machines. Durations and amounts: up to 10,000; all durations together "
    + "up to 1,000,000."],
  F10s: ({ line }) => ["Choose a coarser time unit.",
    `A start time in line ${line} is above 10,000,000.`],
  F11: ({ line }) => [`Delete the successor that is twice in line ${line}.`,
    "Also lower the count of successors there."],
  F12: ({ cycle }) => [`Delete one arc of the cycle ${cycle}.`,
    "Each of these activities precedes the next, and the last precedes the first."],
  F13: () => ["Choose another instance.", "The file has none of this name."],
  F14: ({ line }) => [`Correct the number of the machine in line ${line}.`,
    "Machines are numbered from 0 to one less than their count."],

  T1: () => ["Delete rows, or split the list.", "It is larger than 1,048,576 bytes."],
  T2: ({ line }) => ["Save the list as CSV UTF-8, and delete line breaks in names.",
    `Line ${line} isn't plain text.`],
  T3: ({ word }) => (word === "duration"
    ? ["Write duration as the header of the column of durations.", "A list of activities needs it. "
      + `A list of orders has order, and then pairs of machine and time. ${HEADERS}`]
    : ["Delete all columns but order, machine and time.", "A list of orders has order, and then "
      + `pairs of machine and time, in this order, and no others. ${HEADERS}`]),
  T4: ({ word }) => [`Rename or delete one of the two columns ${word}.`,
    "They have the same header, or two words for one column."],
  T5: ({ row }) => (/^(?:kapazit(?:\p{L}|ae)t|capacit\p{L}|capacidad)(?!\p{L})/iu.test(row)
    ? ["Add a column with the header id, and write capacity there.",
      "A row of capacities has no duration."]
    : /^(?:kapazit|capaci)/i.test(row)
    ? [`Write capacity in place of ${row}.`,
      "The row of capacities has the id capacity, also in a list with other headers."]
    : [`Write a whole number as the duration of ${row}.`,
      `${CELL} For fractions use a finer time unit, for example hours.`]),
  T6: ({ row }) => [`Give ${row} an id of at most 32 characters.`,
    "An id has no blank, comma or semicolon. An order and a machine need a name."],
  T7: ({ row, word }) => [`Give ${row} another id.`, `An earlier row has the id ${word} too.`],
  T8: ({ row, word }) => (LINK.test(word)
    ? [`Write another link in place of ${word} of ${row}, or split an activity.`,
      "A predecessor ends before the activity starts. A lag is a whole number of days behind a plus."]
    : [`Correct the predecessor ${word} of ${row}, or add its row.`,
      "No row has this id, and none or several have this name. A group can't be a predecessor."]),
  T9: ({ row, word }) => [`Write a whole number as the need of ${row} for ${word}.`,
    `${CELL} If ${word} isn't a resource, delete its column or its header.`],
  T10: ({ word }) => [`Enter the capacity of ${word}, or add a row whose id is capacity.`,
    "If the column isn't a resource, delete it or its header."],
  T11: ({ cycle }) => [`Delete one predecessor of the cycle ${cycle}.`,
    "Each of these rows precedes the next, and the last precedes the first."],
  T12: ({ line, place }) => [
    `${line === "0" ? "Add a row, choose" : "Choose"} a coarser time unit, or split the project.`,
    `In ${place} a limit is exceeded: 1 to 500 rows, 16 resources, durations and amounts up to `
    + "10,000, all durations together up to 1,000,000, names up to 200 bytes. In a list of orders: "
    + "1 to 50 orders, 1 to 20 machines."],
  T13: ({ line }) => [
    `Delete the extra cells of line ${line}, or close the quote that opens there.`,
    "A cell with a separator needs quotes around it."],
  T14: ({ word }) => [`Give the column ${word} its name again, or enter the capacities again.`,
    "A capacity was entered for it, and the list has no such column."],
  T15: ({ word }) => [`Merge steps of ${word}, or split the order.`,
    "It has more steps than the list has machines."],
  T16: ({ word }) => ["Give the predecessors of each row instead.",
    `The column ${word} gives successors. If it is a resource, add its capacity.`],
  T17: ({ row }) => ["Enter the present instant or date as Now.", `${row} has begun or is done.`],
  T18: () => ["Save its sheet as CSV (UTF-8), and drop that.", "It is a workbook, not a text."],
  T19: ({ row, word, capacity }) => [`Raise the capacity of ${word}, or lower what ${row} needs.`,
    `It needs more than the capacity ${capacity}, so it can never start.`],
  T20: ({ row }) => [
    `Write a whole number for each date and amount of ${row}, or enter the first date.`, CELL],
  T21: ({ row }) => [`Correct one of the dates of ${row}, or delete it.`,
    "They contradict each other."],

  S1: ({ activity, resource }) => [
    `Raise the capacity of ${resource}, or lower what ${activity} needs.`,
    `Activity ${activity} needs more of it than its capacity, so it can never start.`],
  S4: ({ machine }) => [
    `Bind ${machine} to another code under Changes, or ask the office to open it.`,
    "Its code has the capacity 0, and a step that takes time needs it."],
  S5: () => ["Add the file of this plan below: then this page searches, for as long as you like.",
    "The office searches plans of at most 40 activities or 100 steps."],
  S9: () => ["Start the activities earlier, or use larger time units.",
    "The schedule ends after 10,000,000."],
  S10: ({ verdict }) => verdict,
  S11: () => ["Interrupt begun work, or move an appointment.",
    "Together they need more of a resource than there is."],
  S12: () => ["Move an appointment, raise a capacity, or shorten an absence.",
    "No plan keeps all of them."],
  S13: () => ["Search for longer.", "The search has found no plan. There may be one."],

  G1: () => ["Choose a date from 1900-01-01 to 2199-12-31.", "The first date is another one."],
  G2: () => ["Mark a working day.", "None is marked."],
  G3: () => ["Mark more working days, or choose a coarser time unit.",
    "A day of the schedule is after 9999-12-31."],
  G5: ({ line }) => [`Correct line ${line} of the holidays.`, "It is neither a date, such as "
    + "2024-12-25, nor a range, such as 2024-12-24..2024-12-31."],
  G6: () => ["Delete the holidays before and after the schedule.",
    "They name more than 10,000 days, or have more than 1,048,576 bytes."],

  E01: () => ["Check the name and the key, letter by letter.",
    "The key isn't that of the desk (or of the office), or there is no such desk."],
  E02: () => ["Look at the list of plans.", "The desk has no plan of this number any more."],
  E03: () => ["Check the values of this form.", "One is missing or out of its range."],
  E04: () => ["Choose another name, or give the desk a new key.",
    "There is a desk of this name already."],
  E05: () => ["Ask the office to publish the code, or choose another one.", "It isn't published."],
  E06: () => ["Choose another code.", "Projects use crews, job shops use machines."],
  E07: () => ["Open a project.", "A job shop has no dates and no lags."],
  E08: () => ["Delete a plan that nobody needs.", "The desk holds 100 plans, the maximum."],
  E09: () => ["Ask the office for another desk.",
    "This one has used its last plan number, 1000000."],
  E90: () => ["Try again, with fewer programs open.", "Memory ran out; the input may be valid."],
  E91: () => ["Tell the office.", "Its database can't be opened, read or written."],
};

const VERDICTS = [
  [/^activity (\d+) starts before (\d+) ends$/, ({ activity, lagOf }, first, second) =>
    [`Start ${activity(first)} later.`, lagOf(second, first)
      ? `It starts before the lag of ${lagOf(second, first)} behind ${activity(second)} is over.`
      : `It starts before ${activity(second)} ends.`]],
  [/^at time (\d+) more of resource (\d+) is needed than there is$/, ({ resource }, time, number) =>
    [`Start an activity that needs ${resource(number)} at time ${time} later.`,
      "More of it is needed then than there is."]],
  [/^step (\d+) of job (\d+) starts before step (\d+) ends$/, ({ job }, step, number, before) =>
    [`Start step ${step} of ${job(number)} later.`, `It starts before its step ${before} ends.`]],
  [/^at time (\d+) more than one step is on machine (\d+)$/, ({ machine }, time, number) =>
    [`Start a step on ${machine(number)} at time ${time} later.`, "More than one is on it then."]],
  [/^activity (\d+) can start earlier$/, ({ activity }, number) =>
    [`Start ${activity(number)} earlier, if you like.`,
      "All others fixed, it could start earlier."]],
  [/^step (\d+) of job (\d+) can start earlier$/, ({ job }, step, number) =>
    [`Start step ${step} of ${job(number)} earlier, if you like.`,
      "All others fixed, it could start earlier."]],
  [/^active$/, () => ["Keep it, if you like.", "Nothing can start earlier by itself."]],
];

const NONE = { ids: {}, names: {}, resources: {} };

function namersOf(labels) {
  const number = (name) => (words) => name(labels, Number(words), labels.count);
  return { activity: number(activityLabel), resource: number(resourceLabel),
    machine: number(machineLabel), lagOf: (from, to) => labels.lags?.[`${from}-${to}`],
    job: (job) => (labels.names[job] ? labels.names[job] : `job ${job}`) };
}

/** Returns what to do about a verdict of `plan check`, and what it means. */
export function verdictWords(line, labels = NONE) {
  for (const [pattern, words] of VERDICTS) {
    const found = line.match(pattern);
    if (found) return words(namersOf({ ...NONE, ...labels }), ...found.slice(1));
  }
  return ["Correct the start times.", line];
}

const WORD_PATTERNS = [
  /^T3 no column (.*)$/, /^T4 column (.*) twice$/, / id (.*) twice$/, / predecessor (.*)$/,
  / need (.*) above \d+$/, / need (.*)$/, /^T10 no capacity (.*)$/, /^T14 no resource (.*)$/,
  /^T15 steps (.*)$/, /^T16 column (.*)$/,
];

// what an error line names
function valuesIn(line, labels) {
  const { activity, resource, machine } = namersOf(labels);
  const word = (pattern) => line.match(pattern)?.[1];
  const named = (name, pattern) => (word(pattern) ? name(word(pattern)) : "");
  const number = word(/\bline (\d+)/) ?? "0", ownLine = `line ${number}`;
  const isList = /^T\d/.test(line);
  const cycle = word(/\bcycle (.*)$/)?.split(" ").map((one) => (isList ? one : activity(one)));
  return {
    line: number, place: number === "0" ? "the list" : ownLine,
    row: labels.rows?.[number] || ownLine,
    word: WORD_PATTERNS.map(word).find(Boolean), capacity: word(/ above (\d+)$/),
    cycle: cycle?.join(", "),
    activity: named(activity, /\bactivity (\d+)/), resource: named(resource, /\bresource (\d+)/),
    machine: named(machine, /\bmachine (\d+)/), count: labels.count ? `${labels.count} ` : "",
    verdict: verdictWords(word(/\bS10 (.*)$/) ?? "", labels),
  };
}

/** Returns the sentences on an error line, by its last code that has some: what to do, and what is
 * wrong. Returns none for a line without such a code. */
export function sentencesOf(line, labels = NONE) {
  const found = line.replace(/\bS10 .*$/, "S10").match(/\b[A-Z]\d+\b/g) ?? [];
  const codes = found.filter((code) => MESSAGES[code]);
  const last = line.startsWith("T") ? codes[0] : codes.at(-1);
  if (!last) return [];
  const own = /of the starts\b/.test(line) && MESSAGES[`${last}s`] ? `${last}s` : last;
  return MESSAGES[own](valuesIn(line, { ...NONE, ...labels }));
}
