// Which part of the graph is in view, and how large.

const ZOOM = { least: 0.04, most: 3, readable: 0.6, far: 0.5, fit: 1.15 };

function applyView() {
  byId("world").setAttribute("transform", `translate(${graph.x} ${graph.y}) scale(${graph.zoom})`);
  byId("canvas").classList.toggle("far", graph.zoom < ZOOM.far);
}

// Shows the whole graph, or these tasks at a size at which they can be read.
function fitView(ids = []) {
  const view = byId("canvas").getBoundingClientRect();
  if (!view.width || !graph.boxes.size) return;
  const top = tokens.length ? byId("tokens").offsetHeight + 10 : 0;
  const boxes = ids.map((id) => graph.boxes.get(id));
  const whole = { left: 0, top: 0, right: graph.width, bottom: graph.height };
  const part = boxes.length ? boundsOf(boxes) : whole;
  const [width, height] = [part.right - part.left, part.bottom - part.top];
  const fitting = Math.min((view.width - 40) / width, (view.height - 66 - top) / height, ZOOM.fit);
  graph.zoom = Math.max(boxes.length ? ZOOM.readable : 0.05, fitting);
  const y = (view.height - 26 + top - height * graph.zoom) / 2;
  graph.x = (view.width - width * graph.zoom) / 2 - part.left * graph.zoom;
  graph.y = (boxes.length ? y : Math.max(14 + top, y)) - part.top * graph.zoom;
  applyView();
}

function boundsOf(boxes) {
  const least = (of) => Math.min(...boxes.map(of));
  const most = (of) => Math.max(...boxes.map(of));
  const [left, top] = [least((box) => box.x), least((box) => box.y)];
  return { left, top, right: most((box) => box.x + box.width), bottom: most((box) => box.y + box.height) };
}

// Zooms, and leaves what is at this point there; the middle, if none is given.
function zoomBy(factor, x, y) {
  const view = byId("canvas").getBoundingClientRect();
  const [atX, atY] = [x ?? view.width / 2, y ?? view.height / 2];
  const zoom = Math.min(ZOOM.most, Math.max(ZOOM.least, graph.zoom * factor));
  graph.x = atX - ((atX - graph.x) * zoom) / graph.zoom;
  graph.y = atY - ((atY - graph.y) * zoom) / graph.zoom;
  graph.zoom = zoom;
  applyView();
}

// Moves the view only if the task isn't in it.
function revealTask(id) {
  const box = graph.boxes.get(graph.standsFor.get(id));
  if (!box) return;
  const view = byId("canvas").getBoundingClientRect();
  const [x, y] = [box.x * graph.zoom + graph.x, box.y * graph.zoom + graph.y];
  const [right, bottom] = [x + box.width * graph.zoom, y + box.height * graph.zoom];
  if (x >= 8 && y >= 8 && right <= view.width - 8 && bottom <= view.height - 8) return;
  graph.x = view.width / 2 - (box.x + box.width / 2) * graph.zoom;
  graph.y = view.height / 2 - (box.y + box.height / 2) * graph.zoom;
  applyView();
}

function hintTask(id, isOn) {
  graph.boxes.get(graph.standsFor.get(id))?.element.classList.toggle("hint", isOn);
}

// The wheel zooms, and the pointer drags. What ends a drag is no click.
function followPointer() {
  const canvas = byId("canvas");
  let drag = null;
  let hasMoved = false;
  const onWheel = (event) => {
    event.preventDefault();
    const view = canvas.getBoundingClientRect();
    zoomBy(Math.exp(-event.deltaY * 0.0015), event.clientX - view.left, event.clientY - view.top);
  };
  canvas.addEventListener("wheel", onWheel, { passive: false });
  canvas.addEventListener("pointerdown", ({ button, clientX, clientY }) => {
    hasMoved = false;
    if (button === 0) drag = { x: clientX - graph.x, y: clientY - graph.y, fromX: clientX, fromY: clientY };
  });
  addEventListener("pointermove", ({ clientX, clientY }) => {
    if (!drag) return;
    hasMoved ||= Math.abs(clientX - drag.fromX) + Math.abs(clientY - drag.fromY) > 4;
    if (!hasMoved) return;
    [graph.x, graph.y] = [clientX - drag.x, clientY - drag.y];
    applyView();
  });
  addEventListener("pointerup", () => (drag = null));
  canvas.addEventListener("click", (event) => hasMoved && event.stopPropagation(), { capture: true });
}
