/** The phrases that readings leave out, because the user says that they are not land. A case keeps them. */

import { ask } from "./api.js";
import { make } from "./dom.js";
import { visible } from "./shown.js";
import { kept, replace } from "./store.js";

/** The most phrases that the server takes. */
const MOST = 100;
/** The number of the refusal of a phrase, whose place is that of the phrase in the list, from 1. */
const NAMES_LAND = 51;

/** Returns the phrases of the case. */
function phrases() {
  return kept.ignored.split("\n").filter((each) => each !== "").slice(0, MOST);
}

/** Keeps phrases for the case, so that this can be taken back. */
function keepPhrases(found) {
  replace("ignored", found.join("\n"));
}

/**
 * Asks for the readings of a text without the phrases of the case, and without another one, if it is given. Returns the
 * answer, or null if it is outdated, and the refusal of a phrase that can't be left out, which is then dropped.
 */
export async function askWithout(request, added = null) {
  // A longer phrase counts if it is before one that it contains.
  let ignore = added === null ? phrases() : [added, ...phrases()].slice(0, MOST);
  let refusal = null;
  for (;;) {
    const answer = await ask("suggest", { ...request, ignore });
    if (answer === null) return { answer, refusal };
    if (answer.refused?.of !== "phrases") {
      keepPhrases(ignore);
      return { answer, refusal };
    }
    refusal = answer.refused;
    ignore = refusal.number === NAMES_LAND ? ignore.filter((_, index) => index !== refusal.at - 1) : [];
  }
}

/** Returns a list of the phrases in a text that are left out, each with a button that calls `again()`; or null. */
export function leftOut(text, again) {
  const found = phrases().filter((each) => text.toLowerCase().includes(each.toLowerCase()));
  const items = found.map((each) => {
    const drop = () => {
      keepPhrases(phrases().filter((other) => other !== each));
      again();
    };
    return make("li", {}, `Left out, as you said: \`${visible(each)}\` `, button(`Read \`${visible(each)}\` again`, drop));
  });
  return items.length === 0 ? null : make("ul", { class: "phrases" }, ...items);
}

/** Returns a button that calls a function. */
export function button(words, call) {
  const made = make("button", { type: "button" }, words);
  made.addEventListener("click", call);
  return made;
}
