// The graph: which tasks are shown, where their boxes and lines go, and how they look. Its states are painted by paint.js.

const BOX = { height: 42, narrowest: 112, widest: 260, widestGroup: 300 };
const graph = { boxes: new Map(), groups: new Map(), standsFor: new Map(), opened: new Set(), key: "", zoom: 1, x: 0, y: 0 };

// The tasks that are never folded: those that the claim is about, those that led to where it fails, and those unfolded.
function keptTasks() {
  const { about, ended } = chosenSubject();
  const run = chosenRun();
  const causing = causingEvents().map((number) => run.events[number - 1].task);
  return new Set([...about, ...ended, ...graph.opened, ...causing.filter((id) => id !== undefined)]);
}

// Draws the graph anew where other tasks are to be shown.
function buildGraph() {
  const kept = keptTasks();
  const { about, ended, quiet } = chosenSubject();
  const inCone = now.shown === "claim" && now.claim ? cone([...about, ...ended], quiet) : null;
  const ids = [...tasks.keys()].filter((id) => !inCone || inCone.has(id));
  const { standsFor, groups } =
    now.shown === "all" ? { standsFor: new Map(ids.map((id) => [id, id])), groups: new Map() } : groupsOf(ids, kept);
  const nodes = ids.filter((id) => standsFor.get(id) === id);
  const key = `${now.shown}|${nodes.join()}`;
  byId("count").textContent = isMost(nodes.length, tasks.length);
  byId("refold").hidden = !graph.opened.size;
  if (graph.key === key) return;
  Object.assign(graph, { key, standsFor, groups });
  drawGraph(nodes);
  graph.focus = [...kept].map((id) => standsFor.get(id)).filter((id) => graph.boxes.has(id));
  fitView();
  if (graph.zoom < 0.5 && graph.focus.length) fitView(graph.focus);
}

// The edges between what is shown, those between the same two as one.
function shownLinks() {
  const links = new Map();
  for (const edge of edges) {
    const [from, to] = [graph.standsFor.get(edge.from), graph.standsFor.get(edge.to)];
    if (from === undefined || to === undefined || from === to) continue;
    const key = `${from} ${to}`;
    if (!links.has(key)) links.set(key, { from, to, kind: edge.kind, words: graph.groups.has(to) ? "" : edgeWords(edge) });
  }
  return [...links.values()];
}

// The nodes in an order in which each link goes forward.
function inOrder(nodes, links) {
  const waitsFor = new Map(nodes.map((id) => [id, 0]));
  const next = new Map(nodes.map((id) => [id, []]));
  for (const { from, to } of links) {
    waitsFor.set(to, waitsFor.get(to) + 1);
    next.get(from).push(to);
  }
  const order = nodes.filter((id) => !waitsFor.get(id));
  for (let place = 0; place < order.length; place++) {
    for (const to of next.get(order[place])) {
      waitsFor.set(to, waitsFor.get(to) - 1);
      if (!waitsFor.get(to)) order.push(to);
    }
  }
  return order;
}

// What stands in a box, and how wide it is.
function boxOf(id) {
  const group = graph.groups.get(id);
  const last = group && tasks[group.parts.at(-1)[0]].name;
  const name = group ? WORDS.groupName(tasks[id].name, last) : tasks[id].name;
  const line = group ? WORDS.groupLine(group.parts.length, group.members.length) : lineWords(id);
  const full = Math.max(widthOf(name, NAME_FONT) + 34, widthOf(line, LINE_FONT) + 36);
  const widest = group ? BOX.widestGroup : BOX.widest;
  return { id, group, name, line, width: Math.round(Math.min(widest, Math.max(BOX.narrowest, full))), height: BOX.height };
}

// The layout that fills the view better: with ranks from left to right, or from top to bottom.
function bestLayers(boxes, links) {
  const { width, height } = byId("canvas").getBoundingClientRect();
  const labels = links.map(({ words }) => (words ? widthOf(words, LINE_FONT) + 14 : 0));
  const pairs = links.map(({ from, to }) => [from, to]);
  const room = 56 + 0.55 * labels.reduce((one, other) => Math.max(one, other), 0);
  const rightward = new Layers(boxes.map((box) => ({ across: box.height, along: box.width })), pairs, 14, room);
  const downward = new Layers(boxes.map((box) => ({ across: box.width, along: box.height })), pairs, 22, 50);
  const scale = (wide, high) => Math.min(width / wide, height / high, 1.1);
  const isVertical = scale(downward.across, downward.along) > 1.15 * scale(rightward.along, rightward.across);
  return { layers: isVertical ? downward : rightward, isVertical };
}

// Draws the boxes of these tasks and the lines between them.
function drawGraph(nodes) {
  const links = shownLinks();
  const boxes = inOrder(nodes, links).map(boxOf);
  const placeOf = new Map(boxes.map((box, place) => [box.id, place]));
  const placed = links.map((link) => ({ ...link, from: placeOf.get(link.from), to: placeOf.get(link.to) }));
  const { layers, isVertical } = bestLayers(boxes, placed);
  const pencil = new Pencil(layers, isVertical);
  graph.width = isVertical ? layers.across : layers.along - 50;
  graph.height = isVertical ? layers.along - 40 : layers.across;
  graph.pathBetween = (from, to) => pencil.path(placeOf.get(graph.standsFor.get(from)), placeOf.get(graph.standsFor.get(to)));
  graph.trail = svg("g", { class: "trail" });
  const drawn = boxes.map((box, place) => drawBox(box, pencil.corner(place, box)));
  graph.boxes = new Map(drawn.map((box) => [box.id, box]));
  drawn[0]?.element.setAttribute("tabindex", 0);
  const labels = svg("g", { class: "labels" }, placed.filter(({ words }) => words).map((link) => pencil.label(link)));
  const elements = svg("g", { class: "nodes" }, drawn.map(({ element }) => element));
  byId("world").replaceChildren(svg("g", { class: "edges" }, pencil.lines(placed)), graph.trail, labels, elements);
}

// Lines and labels, for ranks that go to the right or downward.
class Pencil {
  constructor(layers, isVertical) {
    this.layers = layers;
    this.isVertical = isVertical;
  }

  at(along, across) {
    return this.isVertical ? [across, along] : [along, across];
  }

  // The upper left corner of a box.
  corner(place, { width, height }) {
    const { start, center } = this.layers.points[place];
    return this.isVertical ? [center - width / 2, start] : [start, center - height / 2];
  }

  curve(upper, lower) {
    const [[fromX, fromY], [toX, toY]] = [this.at(upper.end, upper.center), this.at(lower.start, lower.center)];
    const [middleX, middleY] = [(fromX + toX) / 2, (fromY + toY) / 2];
    const bends = this.isVertical ? `${fromX} ${middleY} ${toX} ${middleY}` : `${middleX} ${fromY} ${middleX} ${toY}`;
    const onward = lower.isBend ? `L${this.at(lower.end, lower.center).join(" ")}` : "";
    return `M${fromX} ${fromY}C${bends} ${toX} ${toY}${onward}`;
  }

  // The line from one box to another.
  path(from, to) {
    if (from === undefined || to === undefined || from === to) return "";
    const points = this.layers.through(from, to);
    return points.slice(1).map((point, place) => this.curve(points[place], point)).join("");
  }

  // All lines. Those to a WhenAll or WhenAny, and long ones, share their bends, and are one path.
  lines(links) {
    const own = new Map(links.filter(({ kind }) => kind !== "argument").map((link) => [`${link.from} ${link.to}`, link]));
    const [paths, shared] = [[], []];
    for (const point of this.layers.points) {
      for (const lower of point.down) {
        const link = own.get(`${point.node} ${lower.node}`);
        const path = this.curve(point, lower);
        if (link) paths.push(svg("path", { d: path, class: `edge ${link.kind} ${link.words.replace(" ", "-")}` }));
        else shared.push(path);
      }
    }
    const heads = [...new Set(links.map(({ to }) => to))].map((place) => this.head(place));
    return [...paths, svg("path", { d: shared.join(""), class: "edge argument" }), heads];
  }

  head(place) {
    const { start, center } = this.layers.points[place];
    const [x, y] = this.at(start, center);
    const down = `M${x - 4} ${y - 7}L${x} ${y} ${x + 4} ${y - 7}Z`;
    const right = `M${x - 7} ${y - 4}L${x} ${y} ${x - 7} ${y + 4}Z`;
    return svg("path", { class: "head", d: this.isVertical ? down : right });
  }

  label({ to, words }) {
    const { start, center } = this.layers.points[to];
    const [x, y] = this.at(start, center);
    const beside = { x: x + 7, y: y - 9, "text-anchor": "start" };
    const above = { x: x - 10, y: y - 6, "text-anchor": "end" };
    return svg("text", { class: `label ${words.replace(" ", "-")}`, ...(this.isVertical ? beside : above) }, words);
  }
}

// The outline of a box, which says what kind of task it is.
function outline(kind, width, height) {
  const middle = height / 2;
  if (kind === "all") return `M10 0H${width - 10}L${width} ${middle} ${width - 10} ${height}H10L0 ${middle}Z`;
  if (kind === "any") {
    const right = `H${width - 14}Q${width} 0 ${width} ${middle}T${width - 14} ${height}`;
    return `M14 0${right}H14Q0 ${height} 0 ${middle}T14 0Z`;
  }
  const round = kind === "root" ? 2 : 9;
  const top = `M${round} 0H${width - round}Q${width} 0 ${width} ${round}V${height - round}`;
  return `${top}Q${width} ${height} ${width - round} ${height}H${round}Q0 ${height} 0 ${height - round}V${round}Q0 0 ${round} 0Z`;
}

const MOST_TITLED = 12;
function boxTitle({ id, group }) {
  if (!group) return `${tasks[id].name}: ${kindWords(id)}`;
  const names = group.members.slice(0, MOST_TITLED).map((member) => tasks[member].name);
  return WORDS.groupTitle(names, group.members.length - names.length);
}

// Draws a box, and gives it with its elements that are painted.
function drawBox(box, [x, y]) {
  const { id, group, name, width, height } = box;
  const { kind } = tasks[id];
  const card = (more) => svg("path", { class: "card", d: outline(kind, width, height), ...more });
  const under = [6, 3].map((by) => group && card({ class: "card under", transform: `translate(${by} ${by})` }));
  const halo = svg("path", { class: "halo", d: outline(kind, width + 10, height + 10), transform: "translate(-5 -5)" });
  const mark = svg("g", { class: "mark" });
  const line = svg("text", { class: "line", x: 24, y: 33 }, box.line);
  const nameText = svg("text", { class: "name", x: 24, y: 18 }, clipped(name, width - 30, NAME_FONT));
  const act = () => (group ? chooseGroup(id) : chooseTask(id));
  const acts = { role: "button", tabindex: -1, onclick: act, onkeydown: (event) => pressBox(event, id, act) };
  const inside = [under, halo, card(), mark, nameText, line, svg("title", {}, boxTitle(box))];
  const element = svg("g", { transform: `translate(${x} ${y})`, ...acts }, inside);
  return { ...box, x, y, element, mark, lineText: line };
}

// Keys at a box: it is chosen, or with Alt and an arrow the next along an edge gets the focus.
function pressBox(event, id, act) {
  const along = { ArrowRight: edgesFrom[id].map((edge) => edge.to), ArrowLeft: edgesTo[id].map((edge) => edge.from) }[event.key];
  if (event.key === "Enter" || event.key === " ") {
    event.preventDefault();
    act();
  } else if (event.altKey && along) {
    event.preventDefault();
    event.stopPropagation();
    const next = along.map((other) => graph.standsFor.get(other)).find((other) => graph.boxes.has(other) && other !== id);
    if (next !== undefined) focusBox(next, id);
  }
}

function focusBox(next, before) {
  graph.boxes.get(before).element.setAttribute("tabindex", -1);
  const { element } = graph.boxes.get(next);
  element.setAttribute("tabindex", 0);
  element.focus();
  revealTask(next);
}
