/** The panel of a description. */

import { ask } from "./api.js";
import { failure, landAnswer, noteAnswer, refusalAnswer } from "./answer.js";
import { byId } from "./dom.js";
import { follow, mark } from "./marks.js";
import * as readings from "./readings.js";
import { basis, kept } from "./store.js";

let replace = () => {};

/**
 * Prepares the panel. `onChange(name, text)` is called when the description is typed, and `onReplace(name, text)` when
 * a reading is picked.
 */
export function prepare(onChange, onReplace) {
  const area = byId("description");
  replace = onReplace;
  follow(area);
  area.addEventListener("input", () => onChange("description", area.value));
}

/** Shows the description. */
export function fill() {
  const area = byId("description");
  if (area.value !== kept.description) area.value = kept.description;
}

/** Returns a description with land added, such as `sec. 5, lot 1`. */
export function withLand(description, words) {
  const before = description.trim().replace(/[.;]$/, "");
  return before === "" ? `${words}.` : `${before}; ${words}.`;
}

/** Asks for the acreage, and shows it or the refusal. Returns the answer, or null if it is outdated. */
export async function refresh(request) {
  const place = byId("land-answer");
  const area = byId("description");
  if (kept.description.trim() === "") return showNone("Write a description to see its land and acreage.");
  try {
    const answer = await ask("land", { ...basis(), description: kept.description, ...request });
    if (answer === null) return null;
    const { refused } = answer;
    if (refused !== undefined) {
      place.replaceChildren(refusalAnswer(refused));
      mark(area, refused.of === "description" ? [{ ...refused, kind: "wrong" }] : []);
      if (refused.of === "description") await explain(refused);
      else readings.clear(byId("readings"));
    } else {
      place.replaceChildren(...landAnswer(answer), ...answer.notes.map((note) => noteAnswer(note)));
      mark(area, answer.notes.map((note) => ({ ...note, kind: "note" })));
      if (answer.notes.length > 0) await showReadings();
      else readings.clear(byId("readings"));
    }
    return answer;
  } catch (error) {
    return showNone(failure(error));
  }
}

/** Shows why there is no answer, and nothing of one that was shown before. */
export function showNone(reason) {
  byId("land-answer").replaceChildren(reason);
  mark(byId("description"), []);
  readings.clear(byId("readings"));
}

/** Shows the readings of the description: without the phrase `added`, too, if there is one. */
function showReadings(added, again = showReadings) {
  return readings.suggest(byId("readings"), kept.description, { pick, again, added });
}

/** Shows the readings of a refused description, or marks what rules them out, or what is not understood. */
async function explain(refused, added) {
  const again = (phrase) => {
    mark(byId("description"), [{ ...refused, kind: "wrong" }]);
    explain(refused, phrase);
  };
  const answer = (await showReadings(added, again)) ?? {};
  const { reason = null, start, end, unread = [] } = answer;
  if (typeof start !== "number" && unread.length === 0) return;
  const places = reason === null ? unread : [refused, { start, end }];
  if (places.length === 0) places.push({ start, end });
  const marks = places.map((place) => ({ start: place.start, end: place.end, kind: "wrong" }));
  mark(byId("description"), marks.sort((one, other) => one.start - other.start));
}

/** Takes a reading as the description. */
function pick(description) {
  replace("description", description);
  byId("description").focus();
}
