// What the user calls the activities, resources and machines of a plan: the ids and names of its
// file, and numbers where it has none.

export const named = (number, name) => (name ? `${number} ${name}` : `${number}`);

/** Returns the label of an activity; `labels` has the ids and names by number. The start and the
 * end of a file with ids have none. */
export function activityLabel({ ids, names }, number, last) {
  if (ids[number] || !Object.keys(ids).length) return named(ids[number] ?? number, names[number]);
  return { 1: "the start", [last]: "the end" }[number] ?? named(number, names[number]);
}

export const resourceLabel = ({ resources }, number) => resources[number] ?? `resource ${number}`;

export const machineLabel = ({ resources }, number) => resources[number] ?? `machine ${number}`;

/** Returns the ids, names and resources of the steps of a job shop as activities. */
export function stepLabels({ names, resources }, rows) {
  const idOf = ({ job, step }) => `${job}.${step}`;
  const nameOf = ({ job, mach }) =>
    [names[job] ?? `job ${job}`, resources[mach] ?? `machine ${mach}`].join(", ");
  const numbered = (wordsOf) => Object.fromEntries(rows.map((row, at) => [at + 1, wordsOf(row)]));
  const machines = Math.max(...rows.map(({ mach }) => mach)) + 1;
  return {
    ids: numbered(idOf), names: numbered(nameOf),
    resources: Object.fromEntries(Array.from({ length: machines }, (_, mach) =>
      [mach + 1, resources[mach] ?? `machine ${mach}`])),
  };
}
