/** The drawing, which the server makes; here its lines, lots, sections, land, and tracts become buttons. */

import { byId, make, save } from "./dom.js";
import { describe, isFree, isIn, LOT, partAt, placesIn, SECTION } from "./parts.js";
import * as selection from "./selection.js";
import { visible } from "./shown.js";
import * as zoom from "./zoom.js";

const ARROWS = { ArrowLeft: [-1, 0], ArrowRight: [1, 0], ArrowUp: [0, -1], ArrowDown: [0, 1] };
/** The least side of a part that a click selects, in pixels. */
const PART_LEAST = 24;
/** The most entries of the key. A list of tracts has a table, too. */
const KEY_MOST = 60;
/** The characters of a drawing that takes long to show: one of hundreds of tracts. */
const LONG = 80_000;
const TARGETS = ".targets rect, .targets path, .outlines path, g.land";
/** What the key says of land that the plat does not have. */
const NO_LAND = "No land on the plat";
let chosen = "section 36";
/** The drawing as the server made it, and what it is of. */
let original = null;
let shown = {};

/** Prepares the drawing. `acts` are those of the selection. */
export function prepare(acts) {
  selection.prepare(acts);
  zoom.prepare();
}

/** Returns whether a drawing takes longer to show than all of the answer that it comes with. */
export const isLong = (text) => text.length > LONG && text !== original;

/** Shows the drawing of a section, or of the township (""), with its key. */
export function show(text, label, section) {
  // Most keys change no land. What is selected, and the part that is in view, stay as they are.
  if (text === original && label === shown.label && section === shown.section) return;
  original = text;
  shown = { label, section };
  const svg = parsed(text);
  const had = byId("drawing").contains(document.activeElement);
  const targets = [...svg.querySelectorAll(TARGETS)];
  if (targets.length > 0) {
    svg.setAttribute("role", "group");
    svg.setAttribute("aria-describedby", "drawing-help");
  }
  svg.setAttribute("aria-label", label);
  // A title of the whole drawing would be shown at the pointer.
  svg.querySelector("title")?.remove();
  for (const each of targets) prepareTarget(each);
  svg.addEventListener("keydown", (event) => pressed(event, targets));
  svg.addEventListener("click", clicked);
  byId("drawing").replaceChildren(svg);
  zoom.attach(svg, section);
  showKey(svg);
  const current = targets.find((each) => idOf(each) === chosen) ?? targets[0];
  current?.setAttribute("tabindex", "0");
  if (had) current?.focus();
  selection.keepUp();
}

/** Shows no drawing. */
export function clear() {
  original = null;
  byId("drawing").replaceChildren();
  byId("key").replaceChildren();
  selection.clear();
}

/** Returns the drawing for a sheet of paper, as the server made it, or null if there is none. */
export function sheet() {
  if (original === null) return null;
  // Its hatchings have other names than those on the screen.
  const copy = parsed(original.replaceAll("hatching-", "sheet-"));
  copy.querySelector(".targets")?.remove();
  return copy;
}

/** Returns the element of a drawing. As a part of HTML, it is read in a third of the time that XML takes. */
function parsed(text) {
  return document.adoptNode(new DOMParser().parseFromString(text, "text/html").querySelector("svg"));
}

/** Marks a section line as refused, or none. */
export function markLine(index) {
  for (const each of document.querySelectorAll(".targets .refused")) each.classList.remove("refused");
  if (index !== undefined) document.querySelector(`.targets [data-line="${index}"]`)?.classList.add("refused");
}

/** Saves the drawing that is shown, as a sheet. */
export function saveDrawing(name) {
  const copy = sheet();
  if (copy !== null) save(name, new XMLSerializer().serializeToString(copy), "image/svg+xml");
}

function prepareTarget(target) {
  target.setAttribute("role", "button");
  target.setAttribute("tabindex", "-1");
  target.setAttribute("aria-label", selection.labelOf(thingOf(target)));
}

/** Returns what a target is. */
function thingOf({ dataset }) {
  // A drawing has up to a thousand tracts.
  const { acres, tract } = dataset;
  if (tract !== undefined) return { kind: "tract", value: tract, name: dataset.name, acres };
  const { label, line, lot, section, shade, words } = dataset;
  if (line !== undefined) return { kind: "line", value: line };
  if (lot !== undefined) return { kind: "lot", value: lot, acres, description: `sec. ${lot.replace(".", ", lot ")}` };
  if (shade !== undefined) return { kind: "shade", value: shade, label, words, acres };
  return { kind: "part", section, x: 0, y: 0, size: SECTION, acres, description: `sec. ${section}` };
}

function idOf(target) {
  const { kind, value, section } = thingOf(target);
  return `${kind === "part" ? "section" : kind} ${value ?? section}`;
}

/** Shows what the hatchings and outlines are, as buttons that select them. */
function showKey(svg) {
  const tracts = [...svg.querySelectorAll(".outlines path")];
  const entries = [...svg.querySelectorAll("g.land"), ...tracts].slice(0, KEY_MOST).map(entryOf);
  const left = tracts.length + svg.querySelectorAll("g.land").length - entries.length;
  if (left > 0) entries.push(make("li", {}, `and ${left} more ${left === 1 ? "tract" : "tracts"}`));
  if (svg.querySelector(".no-land-there") !== null) {
    entries.push(make("li", { class: "no-land-key" }, make("span", { class: "gray", "aria-hidden": "true" }), NO_LAND));
  }
  byId("key").replaceChildren(...entries);
}

function entryOf(target) {
  const button = make("button", { type: "button" }, swatchOf(target), visible(selection.labelOf(thingOf(target))));
  button.addEventListener("click", () => open([thingOf(target)]));
  return make("li", {}, button);
}

/** Returns a swatch: the hatching of land, or the outline of tracts. */
function swatchOf(target) {
  const made = (tag, attributes) => {
    const element = document.createElementNS("http://www.w3.org/2000/svg", tag);
    for (const [name, value] of Object.entries(attributes)) element.setAttribute(name, value);
    return element;
  };
  const key = target.dataset.key;
  const swatch = made("svg", { class: "swatch", viewBox: "0 0 6 4", "aria-hidden": "true" });
  const fill = key === undefined ? "none" : `url(#${key})`;
  swatch.append(made("rect", { x: "0.2", y: "0.2", width: "5.6", height: "3.6", fill, class: key === undefined ? "outline" : "" }));
  return swatch;
}

/** Selects what was clicked: the first of all that is there. */
function clicked(event) {
  const target = event.target.closest("[role=button]");
  if (target === null) return;
  const found = document.elementsFromPoint(event.clientX, event.clientY).map((each) => each.closest?.("#drawing [role=button]"));
  const targets = found.includes(target) ? [...new Set(found.filter((each) => each))] : [target];
  choose(target);
  open(targets.flatMap((each) => thingsOf(each, event)).sort((one, other) => rankOf(one) - rankOf(other)));
}

/** Selects the first of some things, and moves the focus to what can be done with it. */
function open(things) {
  selection.select(things);
  if (!byId("work").contains(document.activeElement) || document.activeElement.matches("textarea")) {
    byId("selected").querySelector("button")?.focus();
  }
}

/** Lines come first, then tracts and land, and then lots and parts, the smallest first. */
function rankOf({ kind, size = 0 }) {
  return ["line", "tract", "shade", "lot", "part"].indexOf(kind) + size;
}

/** Returns the things of a target at a point: a section has parts there, of which the smallest that can be hit counts. */
function thingsOf(target, event) {
  const thing = thingOf(target);
  if (thing.kind !== "part") return [thing];
  const place = new DOMPoint(event.clientX, event.clientY).matrixTransform(target.getScreenCTM().inverse());
  const [x, y] = [place.x - target.x.baseVal.value, place.y - target.y.baseVal.value].map(Math.floor);
  if (!(x >= 0 && x < SECTION && y >= 0 && y < SECTION)) return [thing];
  const pixels = target.getBoundingClientRect().width / SECTION;
  const taken = takenIn(target);
  if (taken !== null) {
    // A part with a place of a lot, or of land that is not there, can't be named.
    const free = [1, 2, 4, 8, 16].map((size) => partAt(thing.section, x, y, size)).filter((part) => isFree(part, taken));
    const found = free.filter(({ size }) => size * pixels >= PART_LEAST).slice(0, 3);
    return [...found.map((part) => ({ ...part, description: describe(part, []) })), thing];
  }
  const lots = lotsOf(target);
  const isLot = lots.some((lot) => isIn({ x, y }, { ...lot, size: LOT }));
  const sizes = [1, 2, 4, 8, 16].filter((size) => size * pixels >= PART_LEAST && !(isLot && size <= LOT)).slice(0, 3);
  const parts = sizes.map((size) => partAt(thing.section, x, y, size));
  return [...parts.map((part) => ({ ...part, description: describe(part, lots) })), thing];
}

/** Returns the lots of a section, each with its number and where it is in the section. */
function lotsOf(section) {
  const [left, top] = [section.x.baseVal.value, section.y.baseVal.value];
  return [...section.parentElement.querySelectorAll(`[data-lot^="${section.dataset.section}."]`)].map((lot) => ({
    number: lot.dataset.lot.split(".")[1],
    x: lot.x.baseVal.value - left,
    y: lot.y.baseVal.value - top,
  }));
}

/** Returns the places of a section in lots that a table places, or that are not there; null if it has standard lots. */
function takenIn(section) {
  const svg = section.ownerSVGElement;
  const placed = [...svg.querySelectorAll(".targets path[data-lot]")];
  const missing = [...svg.querySelectorAll(".no-land-there path")];
  if (placed.length + missing.length === 0) return null;
  const number = `${section.dataset.section}.`;
  const shapes = [...placed.filter(({ dataset }) => dataset.lot.startsWith(number)), ...missing];
  const [left, top] = [section.x.baseVal.value, section.y.baseVal.value];
  const taken = new Uint8Array(SECTION * SECTION);
  for (const shape of shapes) {
    placesIn(shape.getAttribute("d"), left, top).forEach((is, place) => (taken[place] |= is));
  }
  return taken;
}

function choose(target) {
  for (const each of document.querySelectorAll('#drawing [tabindex="0"]')) each.setAttribute("tabindex", "-1");
  target.setAttribute("tabindex", "0");
  chosen = idOf(target);
}

function pressed(event, targets) {
  const target = event.target;
  if (zoom.pressed(event)) {
    event.preventDefault();
  } else if (event.key === "Enter" || event.key === " ") {
    event.preventDefault();
    choose(target);
    open([thingOf(target)]);
  } else if (event.key in ARROWS) {
    event.preventDefault();
    const next = nearest(target, targets, ARROWS[event.key]);
    if (next === undefined) return;
    choose(next);
    zoom.reveal(next.getBoundingClientRect());
    next.focus({ preventScroll: zoom.isWhole() === false });
  }
}

/** Returns the nearest target in a direction: distance counts, and more so across the direction. */
function nearest(from, targets, [right, down]) {
  const [x, y] = center(from);
  let best;
  let least = Infinity;
  for (const each of targets) {
    const [dx, dy] = center(each).map((value, axis) => value - [x, y][axis]);
    const along = dx * right + dy * down;
    const across = Math.abs(dx * down) + Math.abs(dy * right);
    const cost = along + 3 * across;
    if (along > 0.5 && cost < least) [best, least] = [each, cost];
  }
  return best;
}

/** Returns the middle of a target, in places. */
function center(target) {
  const { x, y, width, height } = target.getBBox();
  return [x + width / 2, y + height / 2];
}
