// Elements. Each text goes in as a text node: no string is ever read as HTML.

const SVG = "http://www.w3.org/2000/svg";
const byId = (id) => document.getElementById(id);

function filled(element, attributes, children) {
  for (const [name, value] of Object.entries(attributes || {})) {
    if (name.startsWith("on")) element.addEventListener(name.slice(2), value);
    else if (value !== undefined && value !== false) element.setAttribute(name, value === true ? "" : value);
  }
  const isShown = (child) => child !== undefined && child !== null && child !== false && child !== "";
  element.append(...children.flat(Infinity).filter(isShown));
  return element;
}
const html = (tag, attributes, ...children) => filled(document.createElement(tag), attributes, children);
const svg = (tag, attributes, ...children) => filled(document.createElementNS(SVG, tag), attributes, children);

// A text of the document as it is shown: what turns its direction, or can't be seen, as JSON would escape it.
const HIDDEN = /[\u0000-\u0009\u000b-\u001f\u007f-\u009f\u061c\u200b-\u200f\u2028-\u202e\u2060-\u206f\ufeff]/g;
const escapedLetter = (letter) => `\\u${letter.charCodeAt(0).toString(16).padStart(4, "0")}`;
const shown = (text) => String(text).replace(/\r\n/g, "\n").replace(HIDDEN, escapedLetter);

// Signs on a field of 12 by 12. Their shapes differ, not only their colours.
const CIRCLE = "M6 1A5 5 0 1 0 6 11 5 5 0 1 0 6 1";
const [CHECK, CROSS] = ["M2 6.5 5 9.5 10.5 2.5", "M2.5 2.5 9.5 9.5M9.5 2.5 2.5 9.5"];
const SIGNS = {
  ran: CHECK,
  faulted: CROSS,
  canceled: `${CIRCLE}M2.5 2.5 9.5 9.5`,
  running: "M3 1.5 10 6 3 10.5Z",
  ready: `${CIRCLE}M6 3V6H8.5`,
  waits: "M3 1.5V10.5M9 1.5V10.5",
  created: "M2 6H3M5.5 6H6.5M9 6H10",
  holds: CHECK,
  kept: CHECK,
  fails: CROSS,
  unknown: "M3.5 4A2.6 2.6 0 1 1 7 6.2C6.2 6.6 6 7 6 8M6 10V10.6",
  empty: `${CIRCLE}M3.5 6H8.5`,
  release: "M2 6H9M6 3 9 6 6 9",
  settle: "M6 1 11 6 6 11 1 6Z",
  close: "M2 2H10V10H2Z",
  request: "M3 11V1.5L10 4 3 6.5",
  drop: `${CIRCLE}M2.5 2.5 9.5 9.5`,
  root: "M3 1.5 10 6 3 10.5Z",
  then: "M2 6H9M6 3 9 6 6 9",
  child: "M2 2H10V10H2Z",
  all: "M6 1 11 6 6 11 1 6Z",
  any: "M6 1 11 6 6 11 1 6Z",
  first: "M2.5 1.5V10.5M10 1.5 4.5 6 10 10.5Z",
  last: "M9.5 1.5V10.5M2 1.5 7.5 6 2 10.5Z",
  previous: "M9 1.5 3.5 6 9 10.5Z",
  next: "M3 1.5 8.5 6 3 10.5Z",
};
const sign = (name, x = 0, y = 0, size = 12) =>
  svg("path", { d: SIGNS[name], class: `sign ${name}`, transform: `translate(${x} ${y}) scale(${size / 12})` });
const icon = (name) => svg("svg", { viewBox: "0 0 12 12", class: `icon ${name}`, "aria-hidden": "true" }, sign(name));

// The parts of a sentence, as elements.
function partElement(part) {
  if (typeof part === "string") return part;
  if (part.task !== undefined) return taskButton(part.task);
  if (part.token !== undefined) return html("span", { class: "token" }, part.token);
  return html("span", { class: `status ${STATUS_CLASSES[part.status]}` }, STATUS_WORDS[part.status]);
}
const sentenceElements = (sentence) => sentence.map(partElement);

function taskButton(id) {
  const hint = (isOn) => () => hintTask(id, isOn);
  const acts = { onclick: () => chooseTask(id), onmouseenter: hint(true), onmouseleave: hint(false) };
  return html("button", { class: "task", type: "button", ...acts }, tasks[id].name);
}

// A text that the program wrote, with the names of tasks in it as buttons.
const withTasks = (text) =>
  text.split(/([A-Za-z_][A-Za-z0-9_]*)/).map((word, place) => (place % 2 && idOf.has(word) ? taskButton(idOf.get(word)) : word));

// How wide a text is, and as much of it as fits.
const FONT = "system-ui, sans-serif";
const NAME_FONT = `600 13px ${FONT}`;
const LINE_FONT = `11px ${FONT}`;
const pen = document.createElement("canvas").getContext("2d");
function widthOf(text, font) {
  pen.font = font;
  return pen.measureText(text).width;
}
function clipped(text, room, font) {
  if (widthOf(text, font) <= room) return text;
  let length = text.length;
  while (length && widthOf(`${text.slice(0, length)}…`, font) > room) length--;
  return `${text.slice(0, length)}…`;
}
