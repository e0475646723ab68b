/** Explanations: their excerpts of the input keep each caret under what it marks, however narrow the screen is. */

import { make } from "./dom.js";

/** A line of an excerpt: the number of the line, if there is one, a bar, and the text or the carets. */
const EXCERPT = /^\s*\d* \|/;
const CARETS = /\^+/;

/** Returns an explanation as an element. */
export function explained(text) {
  const parts = [];
  let prose = [];
  let excerpt = [];
  const close = () => {
    if (prose.length > 0) parts.push(`${prose.join("\n")}\n`);
    if (excerpt.length > 0) parts.push(excerptOf(excerpt));
    [prose, excerpt] = [[], []];
  };
  for (const line of text.split("\n")) {
    const isExcerpt = EXCERPT.test(line);
    if (isExcerpt === (excerpt.length === 0)) close();
    (isExcerpt ? excerpt : prose).push(line);
  }
  close();
  return make("pre", {}, ...parts);
}

/** Returns an excerpt, whose lines don't wrap. A reader hears what is marked, and neither bars nor carets. */
function excerptOf(lines) {
  const under = lines.findIndex((line) => CARETS.test(line));
  const { index = 0, 0: carets = "" } = CARETS.exec(lines[under] ?? "") ?? {};
  const marked = [...(lines[under - 1] ?? "")].slice(index, index + carets.length).join("").trim();
  const label = marked === "" ? "Excerpt" : `Marked: ${marked}`;
  const shown = make("span", { class: "excerpt", role: "img", tabindex: "0", "aria-label": label }, lines.join("\n"));
  const longest = Math.max(...lines.map((line) => line.length));
  requestAnimationFrame(() => {
    shown.scrollLeft = (shown.scrollWidth * (index + carets.length / 2)) / longest - shown.clientWidth / 2;
  });
  return shown;
}
