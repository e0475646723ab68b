/** The parts of a section: where they are in it, in places from its northwest corner, and what they are called. */

/** The places along a side of a section, and of a quarter-quarter section or a lot. */
export const SECTION = 32;
export const LOT = 8;

/** Returns the part of a side that contains a place. */
export function partAt(section, x, y, size) {
  return { kind: "part", section, x: x - (x % size), y: y - (y % size), size };
}

/** Returns the name of an aliquot part, such as `NE1/4SW1/4`, or an empty text for all of a section. */
export function aliquotName({ x, y, size }) {
  const steps = [];
  for (let side = size; side < SECTION; side *= 2) {
    steps.push(`${Math.floor(y / side) % 2 ? "S" : "N"}${Math.floor(x / side) % 2 ? "E" : "W"}1/4`);
  }
  return steps.join("");
}

/**
 * Returns the words that describe a part: the lots in it, and the rest of it as aliquot parts. `lots` are those of its
 * section, each with its number and where it is.
 */
export function describe(part, lots) {
  const inside = lots.filter((lot) => isIn(lot, part));
  if (inside.length === 0) return `sec. ${part.section}, ${aliquotName(part) || "all"}`;
  if (part.size === SECTION) return `sec. ${part.section}`;
  const numbers = inside.map(({ number }) => number);
  const others = [];
  for (let y = part.y; y < part.y + part.size; y += LOT) {
    for (let x = part.x; x < part.x + part.size; x += LOT) {
      if (!inside.some((lot) => lot.x === x && lot.y === y)) others.push(aliquotName({ x, y, size: LOT }));
    }
  }
  const named = numbers.length === 1 ? `lot ${numbers[0]}` : `lots ${numbers.join(", ")}`;
  return [`sec. ${part.section}`, named, ...others].join(", ");
}

/** Returns whether a lot is in a part. */
export function isIn(lot, { x, y, size }) {
  return lot.x >= x && lot.x < x + size && lot.y >= y && lot.y < y + size;
}

/**
 * Returns which places of a section are inside closed loops, such as the outline of a lot: by row from the north, and in
 * a row from the west. `left` and `top` are where the section is.
 */
export function placesIn(loops, left, top) {
  const inside = new Uint8Array(SECTION * SECTION);
  for (const [, startX, startY, moves] of loops.matchAll(/M(\d+) (\d+)([^M]*)/g)) {
    let [x, y] = [Number(startX) - left, Number(startY) - top];
    const first = y;
    const down = (to) => {
      for (let row = Math.max(0, Math.min(y, to)); row < Math.min(SECTION, Math.max(y, to)); row += 1) {
        for (let column = Math.max(0, x); column < SECTION; column += 1) inside[SECTION * row + column] ^= 1;
      }
      y = to;
    };
    for (const [, kind, length] of moves.matchAll(/([hv])(-?\d+)/g)) {
      if (kind === "h") x += Number(length);
      else down(y + Number(length));
    }
    down(first);
  }
  return inside;
}

/** Returns whether no place of a part is one of these. */
export function isFree({ x, y, size }, taken) {
  for (let row = y; row < y + size; row += 1) {
    for (let column = x; column < x + size; column += 1) if (taken[SECTION * row + column]) return false;
  }
  return true;
}
