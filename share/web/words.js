// The words of the page: what rules, columns and terms mean.

export const RULE_NAMES = {
  lft: "latest finish first", slk: "least slack first", spt: "shortest first",
  mts: "most successors first", num: "in the order of numbers", mwkr: "most work left first",
  fcfs: "first come, first served",
};
export const RULE_WORDS = {
  lft: "the activity that must end first",
  slk: "the activity with the smallest float",
  spt: "the shortest activity or step",
  mts: "the activity that most others wait for",
  num: "the activity with the least number",
  mwkr: "the job with the most work left",
  fcfs: "the step that can start first",
  best: "the shortest schedule that the search found",
  own: "the start times that you gave to this page",
};
export const COLUMN_WORDS = {
  start: "the units of working time before the start",
  end: "the units of working time before the end",
  float: "total float by dates alone: how far it can slip if crews are not counted",
  slack: "how far it can slip in this schedule, all others fixed: each delay up to it is feasible",
  act: "activity", d: "duration", mach: "machine", ES: "earliest start", EF: "earliest finish",
  LS: "latest start", LF: "latest finish", TF: "total float", FF: "free float",
};
const TERMS = {
  Bind: "give a resource or machine a published capacity in place of the file's.",
  Makespan: "the time from the start to the last end.",
  Rule: "decides which activity or step is placed next.",
  Float: `${COLUMN_WORDS.float}; a star marks float 0. If crews bind, a starred activity may have `
    + "slack, and another may have none.",
  Slack: `${COLUMN_WORDS.slack}, and the schedule gets no longer. It comes from the plan's file `
    + "and the changes made in this browser; if the office's dates or schedules differ from these, "
    + "it isn't shown.",
  Search: "ends at the latest after so many seconds, with the shortest schedule that it found. "
    + "Optimal: it is proved that none is shorter.",
  Lag: "the least time between the end of an activity and the start of its successor.",
};

export const glossary = () => [
  ...Object.entries(TERMS),
  ...Object.entries(RULE_NAMES).map(([rule, name]) => [`${name} (${rule})`, RULE_WORDS[rule]]),
  ...Object.entries(COLUMN_WORDS).slice(-6),
];

export const counted = (count, noun, nouns = `${noun}s`) =>
  `${count} ${count === 1 ? noun : nouns}`;
