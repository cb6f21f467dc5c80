// The lanes of the run: who runs what, event by event, or by the times of a recorded run. A bar is a body that a worker runs; a sign is an event of an instant.

const LANE = { head: 78, bar: 24, sign: 22, least: 7, most: 64, named: 50, tick: 80, margin: 10 };
const INSTANTS = ["release", "drop", "settle", "close", "request"];
const lanes = { unit: 0, zoom: 1, isByTime: Boolean(times) };
const MOST_ZOOM = { events: 8, times: 4000 };

// Workers first, each kind by number.
function compareActors(one, other) {
  if (one[0] !== other[0]) return one[0] < other[0] ? 1 : -1;
  return one.slice(1) - other.slice(1);
}

// How wide an event is: all fit if they may, and then as the zoom says.
function unitFor(count) {
  const least = count > 400 ? LANE.least : count > 60 ? 12 : 20;
  const room = byId("lanes").clientWidth - LANE.head - 70;
  return Math.max(least, Math.min(LANE.most, room / (count + 1))) * lanes.zoom;
}
// Where what lasts from one event to another stands, and how wide it is.
function spanOf(from, to = from) {
  if (!lanes.isByTime) return { left: (from - 0.5) * lanes.unit, width: (to - from + 1) * lanes.unit };
  const at = (number) => LANE.margin + (times[number - 1] - times[0]) * lanes.scale;
  return { left: at(from), width: at(to) - at(from) };
}
// Where the run stands behind so many events.
const endAt = (count) => (count ? spanOf(count).left + spanOf(count).width : spanOf(1).left || 0);
const wholeTime = (count) => Math.max(1, times[count - 1] - times[0]);

function showLanes() {
  const run = chosenRun();
  byId("run").hidden = !run;
  document.body.classList.toggle("running", Boolean(run));
  if (!run) return byId("lanes").replaceChildren();
  const count = run.events.length;
  lanes.unit = unitFor(count);
  lanes.isByTime &&= count > 0;
  if (lanes.isByTime) lanes.scale = ((byId("lanes").clientWidth - LANE.head - 100) / wholeTime(count)) * lanes.zoom;
  const causes = new Set(causingEvents());
  const actors = [...new Set(run.events.map((event) => event.actor))].sort(compareActors);
  const rows = actors.map((actor) => laneRow(run, actor, causes));
  const fails = failsAt(run) === undefined ? "" : failElement(failsAt(run));
  const cursor = html("div", { class: "cursor", id: "cursor" });
  const ticks = lanes.isByTime ? timeAxisOf(count) : axisOf(count);
  const axis = html("div", { class: "row" }, html("div", { class: "who" }, lanes.isByTime ? WORDS.time : WORDS.event), ticks);
  const inner = html("div", { class: "inner" }, axis, rows, cursor, fails);
  inner.style.width = `${LANE.head + endAt(count) + lanes.unit / 2 + 64}px`;
  byId("lanes").replaceChildren(inner);
  byId("slider").max = count;
}

// The numbers of the events, as many as have room.
function axisOf(count) {
  const every = lanes.unit < 26 ? 5 * Math.ceil(26 / lanes.unit) : 1;
  const axis = html("div", { class: "axis" });
  for (let number = 1; number <= count; number++) {
    if (number % every && number !== count) continue;
    const label = html("span", {}, number);
    label.style.left = `${spanOf(number).left}px`;
    label.style.width = `${lanes.unit}px`;
    axis.append(label);
  }
  return axis;
}

// The times since the first event, at 1, 2 or 5 times a power of ten of microseconds.
function timeAxisOf(count) {
  const axis = html("div", { class: "axis times" });
  const least = Math.max(1, LANE.tick / lanes.scale);
  const power = 10 ** Math.floor(Math.log10(least));
  const every = [1, 2, 5, 10].map((factor) => factor * power).find((step) => step >= least);
  for (let time = 0; time <= wholeTime(count); time += every) {
    const label = html("span", {}, timeWords(time));
    label.style.left = `${LANE.margin + time * lanes.scale}px`;
    axis.append(label);
  }
  return axis;
}

function failElement(count) {
  const element = html("div", { class: "fail" }, html("span", {}, WORDS.fails));
  element.style.left = `${LANE.head + endAt(count)}px`;
  return element;
}

// The bodies that an actor runs, with the row of each: as many rows as bodies are open at a time.
function barsOf(run, actor) {
  const [bars, open, taken, dots] = [[], new Map(), [], []];
  for (const event of run.events.filter((event) => event.actor === actor)) {
    const bar = open.get(event.task);
    if (event.act === "begin") {
      const free = taken.indexOf(false);
      const row = free < 0 ? taken.length : free;
      taken[row] = true;
      bars.push({ task: event.task, row, from: event.number, to: run.events.length, isOpen: true });
      open.set(event.task, bars.at(-1));
    } else if (event.act === "leave") {
      Object.assign(bar, { to: event.number, isOpen: false });
      taken[bar.row] = false;
    } else if (event.act === "step" || event.act === "worked") dots.push({ event, row: bar.row });
  }
  return { bars, dots, rows: taken.length };
}

function laneRow(run, actor, causes) {
  const { bars, dots, rows } = barsOf(run, actor);
  const instants = run.events.filter((event) => event.actor === actor && INSTANTS.includes(event.act));
  const bodies = [bars.map((bar) => barElement(run, bar, causes)), dots.map(dotElement)];
  const lane = html("div", { class: "lane" }, bodies, instants.map((event) => instantElement(event, rows, causes)));
  lane.style.height = `${rows * LANE.bar + (instants.length ? LANE.sign : 0) + 6}px`;
  return html("div", { class: "row" }, html("div", { class: "who" }, WORDS.lane(actor)), lane);
}

// How a body that is over left its task.
function barLook(run, { task, to, isOpen }) {
  const change = !isOpen && run.events[to - 1].changes.find(([id]) => id === task);
  return change ? STATUS_CLASSES[change[1]] : "running";
}

function barElement(run, bar, causes) {
  const { task, row, from, to } = bar;
  const events = run.events.slice(from - 1, to);
  const isCause = events.some((event) => event.task === task && causes.has(event.number));
  const classes = ["bar", barLook(run, bar), isCause ? "cause" : ""].join(" ");
  const title = WORDS.bar(tasks[task].name, from, bar.isOpen ? "…" : to);
  const element = html("button", { class: classes, title, ...laneActs(from, task) }, html("span", {}, tasks[task].name));
  const { left, width } = spanOf(from, to);
  element.style.left = `${left}px`;
  element.style.width = `${Math.max(4, width - 2)}px`;
  element.style.top = `${3 + row * LANE.bar}px`;
  return element;
}

const laneActs = (number, task) => ({
  type: "button",
  tabindex: -1,
  onclick: () => goTo(number),
  onmouseenter: () => task !== undefined && hintTask(task, true),
  onmouseleave: () => task !== undefined && hintTask(task, false),
});

function dotElement({ event, row }) {
  const dot = html("span", { class: event.isBad ? "dot bad" : "dot", title: `${event.number}: ${flat(event.sentence)}` });
  const { left, width } = spanOf(event.number);
  dot.style.left = `${left + width / 2 - 3}px`;
  dot.style.top = `${18 + row * LANE.bar}px`;
  return dot;
}

function instantElement(event, rows, causes) {
  const [change] = event.changes;
  const look = event.act === "drop" ? "canceled" : change && hasEnded(change[1]) ? STATUS_CLASSES[change[1]] : "";
  const classes = ["instant", event.act, look, causes.has(event.number) ? "cause" : ""].join(" ");
  const title = `${event.number}: ${flat(event.sentence)}`;
  const name = !lanes.isByTime && lanes.unit > LANE.named ? html("span", {}, event.token || tasks[event.task].name) : "";
  const element = html("button", { class: classes, title, ...laneActs(event.number, event.task) }, icon(event.act), name);
  const span = spanOf(event.number);
  const width = Math.max(11, span.width - 2);
  element.style.left = `${span.left + (span.width - width) / 2}px`;
  element.style.width = `${width}px`;
  element.style.top = `${4 + rows * LANE.bar}px`;
  return element;
}

function zoomLanes(factor) {
  lanes.zoom = Math.min(lanes.isByTime ? MOST_ZOOM.times : MOST_ZOOM.events, Math.max(1, lanes.zoom * factor));
  showLanes();
  showStep();
}

// Shows the events as far apart as they came, or each as wide as the others.
function turnClock() {
  lanes.isByTime = !lanes.isByTime;
  lanes.zoom = 1;
  byId("clock").setAttribute("aria-pressed", String(lanes.isByTime));
  showLanes();
  showStep();
}

// Shows the chosen step: in the lanes, at the slider, as a sentence, and to screen readers.
function showStep() {
  const run = chosenRun();
  if (!run) return;
  const [step, count] = [now.step, run.events.length];
  const event = run.events[step - 1];
  const isEnd = step === failsAt(run);
  const says = event ? WORDS.step(step, count, flat(event.sentence)) : WORDS.beforeFirst(count);
  moveCursor(step);
  byId("slider").value = step;
  byId("slider").setAttribute("aria-valuetext", says);
  byId("live").textContent = isEnd ? `${says}. ${WORDS.failsHere}` : says;
  const when = event && times ? WORDS.at(timeWords(times[step - 1])) : "";
  const told = event && [html("span", { class: "actor" }, event.actor), " ", sentenceElements(event.sentence), when];
  const end = isEnd ? [". ", html("strong", { class: "here" }, WORDS.failsHere)] : "";
  byId("says").replaceChildren(html("span", {}, html("b", {}, `${step} / ${count}`), " ", told ?? WORDS.beforeFirst(count), end));
}

// Moves the cursor of the lanes, and the lanes where it would be out of view.
function moveCursor(step) {
  const [host, cursor] = [byId("lanes"), byId("cursor")];
  cursor.hidden = !step;
  if (!step) return;
  const span = spanOf(step);
  const [left, width] = [LANE.head + span.left, Math.max(3, span.width)];
  cursor.style.left = `${left}px`;
  cursor.style.width = `${width}px`;
  const isInView = left >= host.scrollLeft + LANE.head + (lanes.isByTime ? 0 : 12) && left + width <= host.scrollLeft + host.clientWidth - 70;
  if (!isInView) host.scrollLeft = left - host.clientWidth / 2;
}
