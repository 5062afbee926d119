// Colours of options and of what they do: those of the drawing that tools/look makes.

// A palette that the colour-blind can tell apart (Okabe and Ito), without its yellow.
const FEW = [
  "#0072B2", "#D55E00", "#009E73", "#CC79A7", "#56B4E9", "#E69F00", "#000000", "#8C6D1F",
];
// Steps of cividis, whose lightness rises evenly for everyone, without its lightest part.
const RAMP = [
  [0, 34, 78], [18, 53, 112], [59, 73, 108], [87, 93, 109],
  [112, 113, 115], [138, 134, 120], [165, 156, 116], [195, 179, 105],
];

export const DRIVE = "#0072B2";
export const WAIT = "#E69F00";
export const SERVE = "#009E73";
export const INK = "#1D2328";
export const SOFT = "#5A646D";
export const GRID = "#DDE2E7";
export const WEEKEND = "#F6F4EE";
export const ROAD = "#7C868E";
export const WAY = "#A5226A"; // another way, which is asked about

/** Returns a colour for each of so many options: a palette for a few, and steps for many. */
export function coloursOf(count) {
  if (count <= FEW.length) {
    return FEW.slice(0, count);
  }
  return Array.from({ length: count }, (_, k) => between(k / (count - 1)));
}

function between(part) {
  const place = part * (RAMP.length - 1);
  const low = Math.min(Math.floor(place), RAMP.length - 2);
  const mixed = RAMP[low].map((it, k) => it + (RAMP[low + 1][k] - it) * (place - low));
  const digits = mixed.map((it) => Math.round(it).toString(16).padStart(2, "0"));
  return `#${digits.join("")}`;
}
