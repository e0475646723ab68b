/** The panel of the plat: the township, its section lines and lots, and the field notes as text. */

import { ask, post } from "./api.js";
import { failure, grouped, refusalAnswer } from "./answer.js";
import { byId, make, save, say } from "./dom.js";
import { markLine } from "./drawing.js";
import { onOpen } from "./files.js";
import * as lines from "./lines.js";
import * as lotrows from "./lotrows.js";
import { follow, mark } from "./marks.js";
import { basis, kept } from "./store.js";

let changed = () => {};
let replaced = () => {};
/** What the acreage rests on, in words, by what the server calls it. */
const BY = { lots: " by the lot table", notes: "", nominal: "" };
const NOTE_OF = {
  nominal: "This township is nominal: all section lines are regular. A survey returns other acreages.",
};
const ALONE = "There is only a lot table. Open field notes to see the section lines.";
const PLACED = "The lot table says where the lots lie, so no acreage is that of the field notes.";
/** The index of the section line for which the field notes are refused, if they are. */
let lineRefused;

/**
 * Prepares the panel. `onNotes(notes)` is called with field notes that are typed, `onLots(table)` with a lot table,
 * `onReplace(name, text)` with a text that is not typed, and `onLot(lot)` with a lot to use.
 */
export function prepare(onNotes, onLots, onReplace, onLot) {
  changed = onNotes;
  replaced = onReplace;
  lines.prepare(onNotes);
  follow(byId("notes"));
  follow(byId("lots-text"));
  byId("lots-text").addEventListener("input", () => {
    onLots(byId("lots-text").value);
    lotrows.show(byId("lots-text").value);
  });
  lotrows.prepare({
    typed: (table) => {
      byId("lots-text").value = table;
      onLots(table);
    },
    replaced: (table) => onReplace("lots", table),
  });
  byId("new-lots").addEventListener("click", () => lotrows.begin(lines.designation()));
  onOpen("open-lots", (text) => {
    onReplace("lots", text);
    lotrows.open();
  });
  byId("lots").tBodies[0].addEventListener("click", (event) => {
    if (event.target.dataset.lot !== undefined) onLot(event.target.dataset.lot);
  });
  byId("notes").addEventListener("input", () => {
    lines.forget();
    changed(byId("notes").value);
  });
  byId("new-notes").addEventListener("click", makeRegular);
  byId("save-notes").addEventListener("click", () => save("notes.csv", kept.notes, "text/csv"));
  onOpen("open-notes", replaceNotes);
}

/** Takes other field notes, which the server has not read yet. */
function replaceNotes(notes) {
  lines.forget();
  replaced("notes", notes);
}

/** Takes the field notes of the township that is typed, if all of its section lines are regular. */
async function makeRegular() {
  const [number, northSouth, range, eastWest] = lines.designation();
  try {
    const { notes } = await post("plat", { township: `T. ${number} ${northSouth}., R. ${range} ${eastWest}.` });
    replaceNotes(notes);
  } catch (error) {
    say(error.message);
  }
}

/** Shows the field notes and the lot table as texts, unless the user is typing in them. */
export function fill() {
  if (byId("notes").value !== kept.notes) lines.keepUp(kept.notes);
  for (const [id, text] of [["notes", kept.notes], ["lots-text", kept.lots]]) {
    if (byId(id) !== document.activeElement && byId(id).value !== text) byId(id).value = text;
  }
  lotrows.show(kept.lots);
}

/** Begins a lot table of a township, as in `["2", "N", "3", "W"]`. */
export const beginTable = (designation) => lotrows.begin(designation);

/** Opens the text of the field notes (`notes`) or of the lot table (`lots`). */
export function openText(name) {
  const area = byId(name === "notes" ? "notes" : "lots-text");
  area.closest("details").open = true;
  area.focus();
}

/** Asks for the plat, and shows its lots or its refusal. Returns the answer, or null if it is outdated. */
export async function refresh(request) {
  const place = byId("plat-answer");
  const asked = kept.notes;
  try {
    const answer = await ask("plat", { ...basis(), ...request });
    if (answer === null) return null;
    const refused = answer.refused;
    showParts();
    if (answer.written !== undefined) lines.learn(asked, answer.written);
    if (refused !== undefined) {
      showNone(refusalAnswer(refused), refused);
      return answer;
    }
    showRefusal(refused);
    place.replaceChildren(...totalOf(answer));
    showLots(answer.sections);
    byId("where").textContent = answer.basis === "nominal" ? `${answer.township} (nominal)` : answer.township;
    return answer;
  } catch (error) {
    showNone(failure(error));
    return undefined;
  }
}

/** Shows the parts that need field notes, if there are any. */
function showParts() {
  for (const part of document.querySelectorAll("[data-needs-notes]")) part.hidden = kept.notes.trim() === "";
}

/** Returns the acreage of the township, and what it rests on. */
function totalOf({ total, basis: name, notes }) {
  const said = total === null
    ? "The lot table lacks lots: there is no total."
    : `The township contains ${grouped(total)} acres${BY[name]}.`;
  const without = kept.notes.trim() === "" ? ALONE : PLACED;
  const more = notes === undefined ? without : NOTE_OF[name];
  return [make("p", {}, said), ...(more === undefined ? [] : [make("p", { class: "help" }, more)])];
}

/** Shows why there is no plat, and nothing of one that was shown before. */
export function showNone(reason, refused) {
  byId("plat-answer").replaceChildren(reason);
  showParts();
  byId("where").textContent = "";
  showLots([]);
  showRefusal(refused);
}

/** Marks the section line that is refused, if one is, in the drawing. */
export function markRefused() {
  markLine(lineRefused);
}

/** Opens the figures of a section line, or of a lot. */
export function open(kind, value) {
  const row = byId(kind === "line" ? `line-${value}` : `lot-${value}`);
  if (row === null) return;
  if (kind === "line" && row.hidden) lines.showAll();
  for (const each of document.querySelectorAll("tr.chosen")) each.classList.remove("chosen");
  row.classList.add("chosen");
  row.closest("details").open = true;
  const inside = row.querySelector(kind === "line" ? `#corner-${value}` : "button");
  inside.focus();
  inside.select?.();
  row.scrollIntoView({ block: "nearest" });
}

function showLots(sections) {
  const rows = sections.flatMap(({ section, lots, numbers }) =>
    lots.map((acres, place) => {
      const number = numbers?.[place] ?? place + 1;
      const lot = `${section}.${number}`;
      const words = `Use section ${section}, lot ${number} in the description`;
      return make(
        "tr",
        { id: `lot-${lot}` },
        make("th", { scope: "row" }, String(section)),
        make("td", {}, String(number)),
        make("td", { class: "figure" }, acres ?? "lacking"),
        make("td", {}, make("button", { type: "button", "data-lot": lot, "aria-label": words }, "Use")),
      );
    }),
  );
  const active = document.activeElement?.dataset?.lot;
  byId("lots").tBodies[0].replaceChildren(...rows);
  byId("lots").closest("details").hidden = rows.length === 0;
  if (active !== undefined) document.querySelector(`button[data-lot="${active}"]`)?.focus();
}

function showRefusal(refused) {
  for (const row of document.querySelectorAll("#lines tr.wrong")) row.classList.remove("wrong");
  for (const input of document.querySelectorAll("#lines [aria-invalid]")) input.removeAttribute("aria-invalid");
  for (const [id, of] of [["notes", "notes"], ["lots-text", "lots"]]) {
    mark(byId(id), refused?.of === of && typeof refused.start === "number" ? [{ ...refused, kind: "wrong" }] : []);
  }
  lotrows.mark(refused);
  lineRefused = refused?.section_line ?? undefined;
  markRefused();
  if (lineRefused === undefined) return;
  const row = byId(`line-${lineRefused}`);
  row.classList.add("wrong");
  row.hidden = false;
  for (const input of row.querySelectorAll("input")) input.setAttribute("aria-invalid", "true");
}
