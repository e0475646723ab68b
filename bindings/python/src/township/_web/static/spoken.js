/** What a screen reader announces: the answers of the open panel, once, after the user has paused. */

import { byId } from "./dom.js";

/** The milliseconds of a pause, and the most characters that are said. */
const PAUSE = 1_000;
const SAID_MOST = 400;

/** What of an answer is not said, and what is said as a sentence. */
const UNSAID = ".excerpt, button:not(.reading), details:not([open]) > :not(summary)";
const LINES = "p, dt, dd, li, div, h2, td, th, pre, summary";

/** Announces new answers from now on. The work area is busy from each key to the answer. */
export function prepare() {
  let timer;
  const busy = new MutationObserver(() => {
    clearTimeout(timer);
    if (byId("work").getAttribute("aria-busy") === "false") timer = setTimeout(speak, PAUSE);
  });
  busy.observe(byId("work"), { attributes: true, attributeFilter: ["aria-busy"] });
}

function speak() {
  const panel = document.querySelector("[role=tabpanel]:not([hidden])");
  const answers = [...panel.querySelectorAll(".answer")].map((each) => sentencesOf(each));
  const said = answers.filter((each) => each !== "").join(" ").slice(0, SAID_MOST);
  if (byId("spoken").textContent !== said) byId("spoken").textContent = said;
}

/** Returns the words of an answer, without excerpts, buttons, and what is folded away. */
function sentencesOf(answer) {
  const copy = answer.cloneNode(true);
  for (const each of copy.querySelectorAll(UNSAID)) each.remove();
  for (const each of copy.querySelectorAll(LINES)) {
    each.prepend("\n");
    each.append("\n");
  }
  const lines = copy.textContent.split("\n").map((line) => line.replace(/[|^]/g, "").replace(/\s+/g, " ").trim());
  return lines.filter((line) => line !== "").map((line) => (/[.:?!,;]$/.test(line) ? line : `${line}.`)).join(" ");
}
