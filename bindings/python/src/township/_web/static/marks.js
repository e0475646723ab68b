/** Underlined places in text areas: a copy of the text lies under the area, and has the marks. */

import { make } from "./dom.js";

const backOf = (area) => area.parentElement.querySelector(".back");

/** Keeps the copy in place while the area is scrolled. */
export function follow(area) {
  const back = backOf(area);
  const align = () => {
    back.scrollTop = area.scrollTop;
    back.scrollLeft = area.scrollLeft;
  };
  area.addEventListener("scroll", align);
  area.addEventListener("input", () => mark(area, []));
}

/**
 * Marks places, each with `start` and `end` in Unicode code points, and a class. Without places, nothing is marked.
 */
export function mark(area, places) {
  const points = [...area.value];
  const parts = [];
  let from = 0;
  for (const { start, end, kind } of places) {
    if (start === null || start < from) continue;
    parts.push(points.slice(from, start).join(""));
    // At the end of the text, a space shows the mark.
    parts.push(make("mark", { class: kind }, points.slice(start, end).join("").replace(/\n$/, " ") || " "));
    from = Math.max(start, end);
  }
  if (parts.length > 0) parts.push(points.slice(from).join(""), "\n");
  const back = backOf(area);
  back.replaceChildren(...parts);
  back.scrollTop = area.scrollTop;
  area.setAttribute("aria-invalid", String(places.some(({ kind }) => kind === "wrong")));
}
