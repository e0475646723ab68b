/** The inputs of the township and of its section lines, which show places of the field notes and replace them. */

import { byId } from "./dom.js";
import { quoted } from "./saved.js";

const DESIGNATION = ["township-number", "north-south", "range-number", "east-west"];
const NONE = { township: null, lines: new Map() };
/** The notes that the server has read, and the places in them. */
let known = { notes: null, ...NONE };
/** What was typed before the server had read the notes, by the place: `township`, or the index of a line. */
const waiting = new Map();
let changed = () => {};

/** Prepares the inputs. `onNotes(notes)` is called with field notes in which something is replaced. */
export function prepare(onNotes) {
  changed = onNotes;
  for (const id of DESIGNATION) byId(id).addEventListener("input", () => replace("township", ["T", ...designation()]));
  byId("lines").tBodies[0].addEventListener("input", (event) => {
    const row = event.target.closest("tr");
    const distances = [...row.querySelectorAll("input")].map((input) => input.value.trim());
    replace(Number(row.id.split("-")[1]), distances);
  });
  byId("closing-only").addEventListener("change", filter);
  filter();
}

/** Returns the designation in the inputs, as `["2", "N", "3", "W"]`. */
export function designation() {
  return DESIGNATION.map((id) => byId(id).value.trim());
}

/** Takes what the server has read of these notes, and shows it in the inputs that the user is not typing in. */
export function learn(notes, { township, lines }) {
  known = { notes, township, lines: new Map(lines.map((each) => [each.line, each])) };
  for (const [place, fields] of [...waiting]) {
    waiting.delete(place);
    replace(place, fields);
  }
  DESIGNATION.forEach((id, place) => put(byId(id), township?.fields[place] ?? ""));
  for (const row of byId("lines").rows) {
    if (row.id === "") continue;
    const distances = known.lines.get(Number(row.id.split("-")[1]))?.distances ?? [];
    [...row.querySelectorAll("input")].forEach((input, place) => put(input, distances[place] ?? ""));
  }
}

/** Forgets the notes if they are not these. */
export function keepUp(notes) {
  if (known.notes !== notes) forget();
}

/** Forgets the notes: until the server has read others, what is typed in the inputs waits. */
export function forget() {
  known = { notes: null, ...NONE };
}

/** Returns where a section line is, in words. */
export function where(index) {
  return byId(`line-${index}`).cells[1].textContent;
}

/** Shows all section lines. */
export function showAll() {
  byId("closing-only").checked = false;
  filter();
}

function filter() {
  for (const row of byId("lines").tBodies[0].rows) {
    row.hidden = byId("closing-only").checked && !("closes" in row.dataset);
  }
}

/** Replaces a place of the notes by these fields, and moves the places after it. */
function replace(place, fields) {
  if (known.notes === null) {
    waiting.set(place, fields);
    return;
  }
  const found = place === "township" ? known.township : known.lines.get(place);
  const points = [...known.notes];
  const at = found ?? added(points, place);
  const text = [...fields.map(quoted).join(",")];
  points.splice(at.start, at.end - at.start, ...text);
  const longer = text.length - (at.end - at.start);
  for (const each of [known.township, ...known.lines.values()]) {
    if (each === null || each === at || each.start < at.end) continue;
    each.start += longer;
    each.end += longer;
  }
  at.end = at.start + text.length;
  known.notes = points.join("");
  changed(known.notes);
}

/** Adds a record for a place that the notes lack to the end of them. Returns where its fields will be. */
function added(points, place) {
  if (points.length > 0 && points.at(-1) !== "\n") points.push("\n");
  if (place !== "township") points.push(...`${byId(`line-${place}`).dataset.name},`);
  const at = { start: points.length, end: points.length };
  points.push("\n");
  if (place === "township") known.township = at;
  else known.lines.set(place, at);
  return at;
}

function put(input, value) {
  if (input !== document.activeElement && input.value !== value) input.value = value;
}
