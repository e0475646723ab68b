/**
 * The part of the drawing that is in view, which a wheel, two fingers, a drag, keys, and buttons change: from all of it
 * to a quarter-quarter section. Texts, lines, hatchings, and targets keep a size that can be read and hit.
 */

import { byId } from "./dom.js";

/** The least size of a text on the screen, in pixels, and the least side of a target. */
const TEXT_LEAST = 9;
const TARGET_LEAST = 24;
/** The distance of the lines of a hatching, in millimeters on paper, and in pixels at most. */
const SPACING = 1.6;
const SPACING_MOST = 6;
/** The most that the drawing is enlarged beyond all of it, as the millimeters that are in view. */
const VIEW_LEAST = { township: 6.9, section: 12 };
const STEP = 1.5;
/** The millimeters that there are for a figure beside the boundary. */
const CLOSING_ROOM = 10.6;
/** How far a pointer moves before it drags, in pixels. */
const STILL = 4;

/** The largest size of the texts of a group on the screen, in pixels, by the class of the group. */
const TEXT_MOST = {
  "section-numbers": 34,
  "section-acres": 15,
  "lot-numbers": 15,
  "lot-names": 26,
  "lot-acres": 18,
  "aliquot-names": 15,
  closing: 14,
  north: 18,
  names: 15,
};
/** The lines that are shown only if what they divide has at least so many pixels, and the places of its side. */
const FINER = { sixteenths: [8, 40], finer: [4, 48], finest: [2, 48] };

let drawn = null;
/** The part in view, or null if it is all of the drawing. It is kept while the drawing is replaced. */
let view = null;
let whole = null;
const pointers = new Map();
let dragged = false;
let pinched = null;

/** Shows the drawing of a section, or of the township (""), with the part in view that was, if it is of the same one. */
export function attach(svg, section) {
  const [x, y, width, height] = svg.dataset.view.split(" ").map(Number);
  if (drawn?.section !== section) view = null;
  whole = { x, y, width, height };
  // The shape of the sheet is not that of the part in view.
  for (const name of ["width", "height"]) svg.removeAttribute(name);
  drawn = { svg, section, kind: section === "" ? "township" : "section", ...partsOf(svg) };
  svg.addEventListener("wheel", wheeled, { passive: false });
  svg.addEventListener("pointerdown", began);
  svg.addEventListener("pointermove", moved);
  for (const name of ["pointerup", "pointercancel"]) svg.addEventListener(name, ended);
  svg.addEventListener("click", (event) => dragged && event.stopImmediatePropagation(), { capture: true });
  apply();
}

/** Prepares the buttons, and adapts the drawing to the size of the window. */
export function prepare() {
  const steps = { "zoom-in": () => zoom(STEP), "zoom-out": () => zoom(1 / STEP), "zoom-all": showAll };
  for (const [id, step] of Object.entries(steps)) byId(id).addEventListener("click", step);
  for (const [id, by] of Object.entries({ west: [-1, 0], east: [1, 0], north: [0, -1], south: [0, 1] })) {
    byId(`pan-${id}`).addEventListener("click", () => pan(...by));
  }
  new ResizeObserver(() => drawn !== null && apply()).observe(byId("drawing"));
}

/** Handles a key over the drawing. Returns whether it was one that changes the view. */
export function pressed({ key, shiftKey }) {
  const pans = { ArrowLeft: [-1, 0], ArrowRight: [1, 0], ArrowUp: [0, -1], ArrowDown: [0, 1] };
  if (key === "+" || key === "=") zoom(STEP);
  else if (key === "-" || key === "_") zoom(1 / STEP);
  else if (key === "0" || key === "Home") showAll();
  else if (shiftKey && key in pans) pan(...pans[key]);
  else return false;
  return true;
}

/** Moves the view so that a box of the drawing, in pixels of the screen, is in it. */
export function reveal(box) {
  if (view === null) return;
  const { left, top, right, bottom } = drawn.svg.getBoundingClientRect();
  const center = [box.left + box.width / 2, box.top + box.height / 2];
  if (center[0] > left && center[0] < right && center[1] > top && center[1] < bottom) return;
  const [x, y] = placeOf(...center);
  setView({ ...view, x: x - view.width / 2, y: y - view.height / 2 });
}

/** Returns whether all of the drawing is in view. */
export const isWhole = () => view === null;

/** Returns how many pixels a millimeter of the drawing has. */
export function scale() {
  const { width, height } = view ?? whole;
  const { clientWidth, clientHeight } = drawn.svg;
  return Math.min(clientWidth / width, clientHeight / height) || 1;
}

function showAll() {
  view = null;
  apply();
}

/** Enlarges the drawing by a factor, around a place of it, or its middle. */
function zoom(factor, at) {
  const from = view ?? whole;
  const [x, y] = at ?? [from.x + from.width / 2, from.y + from.height / 2];
  const least = VIEW_LEAST[drawn.kind];
  const width = Math.max(least, from.width / factor);
  const ratio = width / from.width;
  setView({ x: x - (x - from.x) * ratio, y: y - (y - from.y) * ratio, width, height: from.height * ratio });
}

/** Moves the view by half of its size. */
function pan(right, down) {
  const from = view ?? whole;
  setView({ ...from, x: from.x + (right * from.width) / 2, y: from.y + (down * from.height) / 2 });
}

/** Shows a part of the drawing, which stays within it. */
function setView(wanted) {
  if (wanted.width >= whole.width * 0.999) return showAll();
  const within = (value, least, most) => Math.min(Math.max(value, least), most);
  const x = within(wanted.x, whole.x, whole.x + whole.width - wanted.width);
  const y = within(wanted.y, whole.y, whole.y + whole.height - wanted.height);
  view = { ...wanted, x, y };
  apply();
}

/** Returns the place in the drawing, in millimeters, at a point of the screen. */
function placeOf(x, y) {
  const point = new DOMPoint(x, y).matrixTransform(drawn.svg.getScreenCTM().inverse());
  return [point.x, point.y];
}

function wheeled(event) {
  const factor = Math.exp(-event.deltaY * (event.deltaMode === 0 ? 0.002 : 0.06));
  // Beyond all of the drawing, the page is scrolled.
  if (view === null && factor <= 1) return;
  event.preventDefault();
  zoom(factor, placeOf(event.clientX, event.clientY));
}

function began(event) {
  if (pointers.size === 0) dragged = false;
  pointers.set(event.pointerId, [event.clientX, event.clientY]);
  pinched = null;
}

function moved(event) {
  const before = pointers.get(event.pointerId);
  if (before === undefined) return;
  const now = [event.clientX, event.clientY];
  if (pointers.size === 2) {
    pointers.set(event.pointerId, now);
    pinch();
  } else if (view !== null && (dragged || Math.hypot(now[0] - before[0], now[1] - before[1]) > STILL)) {
    if (!dragged) drawn.svg.setPointerCapture(event.pointerId);
    dragged = true;
    pointers.set(event.pointerId, now);
    const millimeters = 1 / scale();
    setView({ ...view, x: view.x - (now[0] - before[0]) * millimeters, y: view.y - (now[1] - before[1]) * millimeters });
  }
}

/** Enlarges the drawing as two fingers move apart, around the place between them. */
function pinch() {
  const [[x0, y0], [x1, y1]] = pointers.values();
  const apart = Math.hypot(x1 - x0, y1 - y0);
  if (pinched !== null && apart > 0) zoom(apart / pinched, placeOf((x0 + x1) / 2, (y0 + y1) / 2));
  pinched = apart;
  dragged = true;
}

function ended(event) {
  pointers.delete(event.pointerId);
  pinched = null;
}

/** Returns what of a drawing changes with its scale. */
function partsOf(svg) {
  const texts = Object.entries(TEXT_MOST).flatMap(([kind, most]) => {
    return [...svg.querySelectorAll(`g.${kind}`)].map((group) => ({ group, kind, most, paper: sizeOnPaper(group) }));
  });
  const patterns = [...svg.querySelectorAll("pattern:not([id$='-key'])")].map((pattern) => {
    const paper = Number(/scale\(([\d.]+)\)/.exec(pattern.getAttribute("patternTransform"))[1]);
    return { pattern, paper };
  });
  const targets = svg.querySelector(".targets");
  const place = Number(/scale\(([\d.]+)\)/.exec(targets?.getAttribute("transform") ?? "scale(1)")[1]);
  const names = [...svg.querySelectorAll(".names text")];
  const lines = [...svg.querySelectorAll(".targets [data-line]")].map((line) => ({ line, ...geometry(line) }));
  const finer = Object.entries(FINER).map(([kind, rule]) => [svg.querySelector(`.${kind}`), ...rule]);
  return { texts, patterns, place, names, lines, finer };
}

/** Returns the size of the texts of a group in the millimeters of the drawing. */
function sizeOnPaper(group) {
  const unit = Number(/scale\(([\d.]+)\)/.exec(group.parentElement.getAttribute("transform") ?? "scale(1)")[1]);
  return { unit, size: Number(group.getAttribute("font-size")) * unit };
}

function geometry(rect) {
  return Object.fromEntries(["x", "y", "width", "height"].map((name) => [name, rect[name].baseVal.value]));
}

/** Shows the part in view, and gives everything in it the size that it has at this scale. */
function apply() {
  const { svg, place } = drawn;
  const { x, y, width, height } = view ?? whole;
  svg.setAttribute("viewBox", `${x} ${y} ${width} ${height}`);
  byId("drawing").classList.toggle("enlarged", view !== null);
  for (const id of ["zoom-out", "zoom-all"]) byId(id).disabled = view === null;
  for (const button of document.querySelectorAll("[id^='pan-']")) button.hidden = view === null;
  const pixels = scale();
  showTexts(pixels);
  for (const { pattern, paper } of drawn.patterns) {
    // A finer hatching has a smaller scale on paper already.
    const most = SPACING_MOST / (SPACING * pixels * place);
    pattern.setAttribute("patternTransform", `scale(${Math.min(paper, most)})`);
  }
  for (const [lines, places, least] of drawn.finer) {
    if (lines !== null) lines.setAttribute("display", places * place * pixels >= least ? "inline" : "none");
  }
  sizeTargets(pixels * place);
}

/** Sizes the texts, and hides those that have no room. */
function showTexts(pixels) {
  const lot = 8 * drawn.place * pixels;
  for (const { group, kind, most, paper } of drawn.texts) {
    const size = Math.min(Math.max(paper.size * pixels, TEXT_LEAST), Math.max(most, TEXT_LEAST));
    group.setAttribute("font-size", String(size / pixels / paper.unit));
    group.setAttribute("stroke-width", String(Math.min(4, size * 0.3) / pixels / paper.unit));
    const wide = drawn.kind === "township" ? 2.5 : 6.5;
    if (kind === "lot-acres") group.setAttribute("display", lot >= wide * size ? "inline" : "none");
    if (kind === "section-acres") group.setAttribute("display", lot * 4 >= size * 6 ? "inline" : "none");
    if (kind === "aliquot-names") group.setAttribute("display", lot >= 6.5 * size ? "inline" : "none");
    if (kind === "closing") group.setAttribute("display", CLOSING_ROOM * pixels >= 3.7 * size ? "inline" : "none");
    if (kind === "names") showNames(size, pixels);
    // A long figure is squeezed into its lot.
    for (const text of group.querySelectorAll("[textLength]")) {
      const wanted = (text.textContent.length * 0.56 * size) / pixels;
      const [columns] = roomOf(text);
      const most = columns === undefined ? 8 * drawn.place - 0.6 : columns * drawn.place * 0.9;
      text.setAttribute("textLength", String(Math.min(most, wanted)));
    }
    for (const text of group.querySelectorAll("[data-room]")) showIfRoom(text, kind, size, pixels);
  }
}

/** Returns the columns and rows of the rectangle that a text has, if the drawing says it. */
const roomOf = (text) => text.dataset.room?.split(" ").map(Number) ?? [];

/** Shows a text in a lot that a table places, or on land that is not there, if its rectangle has room for it. */
function showIfRoom(text, kind, size, pixels) {
  const [wide, high] = roomOf(text).map((places) => places * drawn.place * pixels);
  const isSqueezed = text.hasAttribute("textLength");
  const width = text.textContent.length * (isSqueezed ? 0.35 : 0.5) * size;
  const lines = kind === "lot-acres" ? 2 : 1;
  text.setAttribute("display", wide >= width && high >= lines * size ? "inline" : "none");
}

/** Shows the names of tracts that have room at this size, those that are first in the list first. */
function showNames(size, pixels) {
  const shown = [];
  const unit = drawn.place * pixels;
  for (const text of drawn.names) {
    const half = text.textContent.length * 0.3 * size;
    const beside = { start: half, end: -half }[text.getAttribute("text-anchor")] ?? 0;
    const x = Number(text.getAttribute("x")) * unit + beside;
    const y = Number(text.getAttribute("y")) * unit;
    const isFree = shown.every((other) => Math.abs(other.y - y) > size || Math.abs(other.x - x) > half + other.half);
    if (isFree) shown.push({ x, y, half });
    text.setAttribute("display", isFree ? "inline" : "none");
  }
}

/** Gives each target along a line the width that a finger hits, and lets lots be hit only where they have it. */
function sizeTargets(pixels) {
  const wide = Math.max(3, (TARGET_LEAST + 0.5) / pixels);
  for (const { line, x, y, width, height } of drawn.lines) {
    const [side, at, across] = height > width ? ["width", x, "x"] : ["height", y, "y"];
    const out = Number(line.dataset.out);
    // Where the line itself is: the strip is 3 places wide on paper.
    const middle = at + (1 - out) * 1.5;
    const start = out < 0 ? middle - wide : out > 0 ? middle : middle - wide / 2;
    line.setAttribute(side, String(wide));
    line.setAttribute(across, String(start));
  }
  drawn.svg.classList.toggle("far", 8 * pixels < TARGET_LEAST);
}
