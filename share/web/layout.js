// The layout of a chart: where the places of a drawing are on the screen, labels that fit, and
// colours. Nothing here draws.

const LETTER = 6.6;
const COLOURS = 16;
// the program's drawings have names up to here, then an axis of 1000 units
const AXIS_LEFT = 330;
const AXIS_WIDTH = 1000;

export const widthOf = (text) => text.length * LETTER;

/** Returns where a place of a drawing is if its axis goes from `left` to `right`. */
export const placed = (x, { left, right }) =>
  Math.round((left + ((x - AXIS_LEFT) * (right - left)) / AXIS_WIDTH) * 100) / 100;

/** Returns a path of a drawing whose axis goes from `left` to `right`. */
export const placedPath = (path, edges) => path
  .replaceAll(/([MH])(\d+)/g, (_, letter, x) => `${letter}${placed(Number(x), edges)}`)
  .replace(`h${AXIS_WIDTH}`, `H${edges.right}`);

/** Returns which labels of an axis have room, of the texts and their places from left to right. */
export function roomyLabels(labels, right) {
  let free = -Infinity;
  return labels.map(({ x, text }) => {
    const end = x + widthOf(text);
    if (x < free || end > right) return false;
    free = end + 10;
    return true;
  });
}

export const today = () => new Date().toLocaleDateString("en-CA");

/** Returns a colour for each key of bars in the order of lines and starts; neighbours differ if
 * there are enough. */
export function coloursOf(bars) {
  const keys = [...new Set(bars.map(({ key }) => key))].sort((a, b) => a - b);
  if (keys.length <= COLOURS) return new Map(keys.map((key, index) => [key, index]));
  const beside = new Map(keys.map((key) => [key, new Set()]));
  bars.slice(1).forEach(({ line, key }, index) => {
    const other = bars[index];
    if (other.line !== line || other.key === key) return;
    beside.get(key).add(other.key);
    beside.get(other.key).add(key);
  });
  const colours = new Map();
  for (const key of keys.sort((a, b) => beside.get(b).size - beside.get(a).size)) {
    const clashes = Array(COLOURS).fill(0);
    for (const other of beside.get(key)) if (colours.has(other)) clashes[colours.get(other)] += 1;
    colours.set(key, clashes.indexOf(Math.min(...clashes)));
  }
  return colours;
}

export const labelFor = (labels, width) =>
  labels.find((label) => label && widthOf(label) + 8 <= width) ?? "";

export function shortened(text, width) {
  const most = Math.max(1, Math.floor(width / LETTER));
  return text.length <= most ? text : `${text.slice(0, most - 1)}…`;
}
