/** The readings of a text: what it would be as a description, side by side, to be picked. */

import { figureOf } from "./answer.js";
import { make } from "./dom.js";
import { askWithout, button, leftOut } from "./phrases.js";
import { visible } from "./shown.js";
import { basis } from "./store.js";
import { spelled } from "./wording.js";

const UNCERTAIN = "No reading of this text is certain: the marked words are not understood.";

/** Shows no readings in a place. */
export function clear(place) {
  place.replaceChildren();
}

/**
 * Asks for the readings of a text, and shows them in a place, each with its acreage and its drawing.
 * `pick(description)` is called for the one that is picked. A text whose only reading is the text itself needs none.
 * `again(phrase)` reads the text again, after a phrase is left out, or none: it calls this with the phrase as `added`.
 * `of` names the text if there are others.
 * Returns the answer, or null if there is none.
 */
export async function suggest(place, text, { pick, again, of = "", added = undefined }) {
  try {
    const { answer, refusal } = await askWithout({ ...basis(), text, draw: true }, added ?? null);
    if (answer === null) return null;
    const { readings = [] } = answer;
    const why = refusal === null ? null : make("p", { class: "refused" }, visible(sentenceOf(refusal)));
    const aside = leftOut(text, () => again(null));
    if (readings.length === 0) {
      show(place, [why, ...none(answer, text, of, again), aside]);
    } else if (readings.length > 1 || readings[0].text !== text) {
      const cards = readings.map((each) => item(each, pick));
      show(place, [why, heading(readings.length, of), make("ol", { class: "readings" }, ...cards), aside]);
    } else {
      clear(place);
    }
    // The button that read the text again is gone.
    if (added !== undefined) place.querySelector("button")?.focus();
    return answer;
  } catch {
    // The answer to the description says what is wrong.
    clear(place);
    return null;
  }
}

/** Returns why a phrase can't be left out. It is shown in the sentence, so its number in the list says nothing more. */
function sentenceOf({ sentence, at }) {
  return `${capitalized(sentence.replace(` (phrase ${at})`, ""))}.`;
}

function show(place, parts) {
  place.replaceChildren(...parts.filter((part) => part !== null));
}

/** Returns why a text has no reading, with a button for each phrase that is not understood, which leaves it out. */
function none({ reason, start, end, unread = [] }, text, of, again) {
  const points = [...text];
  const offer = (place) => {
    const phrase = points.slice(place.start, place.end).join("");
    return button(`Leave out \`${visible(phrase)}\``, () => again(phrase));
  };
  const said = make("p", {}, `${of}${reason ? `Lots and aliquot parts can't describe this land: ${reason}.` : UNCERTAIN}`);
  const items = unread.map((each) => {
    const offered = reason === null && each.ways === null ? [" ", offer(each)] : [];
    return make("li", {}, visible(capitalized(each.sentence)), ...offered);
  });
  if (items.length === 0 && reason === null && typeof start === "number") items.push(make("li", {}, offer({ start, end })));
  return [said, items.length === 0 ? null : make("ul", { class: "phrases" }, ...items)];
}

function heading(count, of) {
  return make("h2", {}, `${of}${count === 1 ? "Perhaps this was meant" : "Which was meant?"}`);
}

/** Returns a reading as a button, with what it does below it. */
function item(reading, pick) {
  const description = reading.text.trim();
  const shown = [picture(reading), acreage(reading), make("span", {}, ...spelled(description)), condition(reading)];
  const button = make("button", { type: "button", class: "reading" }, ...shown);
  button.addEventListener("click", () => pick(description));
  const phrases = reading.phrases.map(({ text, meaning }) => `${text} ${meaning}`);
  const remarks = reading.remark === null ? [] : [reading.remark];
  const assumed = reading.assumptions.map((each) => `Assumed: ${each}`);
  const said = [...phrases, ...remarks, ...assumed].map((each) => make("li", {}, visible(each)));
  return make("li", {}, button, said.length === 0 ? null : make("ul", {}, ...said));
}

function picture({ svg }) {
  // The drawing is a picture of its own, so that its names don't meet those of other drawings.
  return svg === undefined ? null : make("img", { alt: "", src: `data:image/svg+xml,${encodeURIComponent(svg)}` });
}

/** Returns when the reading is the one that is meant, if that is what the readings differ in. */
function condition({ condition: when }) {
  return when === null ? null : make("em", {}, capitalized(when));
}

function capitalized(words) {
  return `${words[0].toUpperCase()}${words.slice(1)}`;
}

function acreage({ acres, refused }) {
  const said = refused === undefined ? figureOf(acres) : `Refused ${refused.number}: ${refused.sentence}`;
  return make("strong", {}, said);
}
