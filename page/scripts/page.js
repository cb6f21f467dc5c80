// The page: its controls, its keys, its address, and its beginning.

const SECONDS_A_STEP = 0.7;
const THEME = "taskgraph-theme";

function setTheme(theme) {
  document.documentElement.dataset.theme = theme;
  try {
    localStorage.setItem(THEME, theme);
  } catch {
    // a page that is read from a file may have no storage
  }
}

function startTheme() {
  let stored = null;
  try {
    stored = localStorage.getItem(THEME);
  } catch {
    // the same
  }
  const usual = matchMedia("(prefers-color-scheme: dark)").matches ? "dark" : "light";
  document.documentElement.dataset.theme = stored || usual;
}
const turnTheme = () => setTheme(document.documentElement.dataset.theme === "dark" ? "light" : "dark");

// Plays the run, a step after another, until it ends or is stopped.
let timer = 0;
function stopPlaying() {
  clearInterval(timer);
  timer = 0;
  byId("play").setAttribute("aria-pressed", "false");
}
function playOrStop() {
  const run = chosenRun();
  if (timer || !run) return stopPlaying();
  if (now.step >= run.events.length) goTo(0);
  byId("play").setAttribute("aria-pressed", "true");
  const playStep = () => {
    goTo(now.step + 1);
    if (now.step >= (chosenRun()?.events.length ?? 0)) stopPlaying();
  };
  timer = setInterval(playStep, 1000 * SECONDS_A_STEP);
}

const CONTROLS = {
  first: () => goTo(0),
  previous: () => goTo(now.step - 1),
  next: () => goTo(now.step + 1),
  last: () => goTo(Infinity),
  back: () => goToCause(-1),
  on: () => goToCause(1),
  play: playOrStop,
  closer: () => zoomBy(1.25),
  wider: () => zoomBy(0.8),
  fit: () => fitView(),
  refold: () => {
    graph.opened.clear();
    showAll();
  },
  clock: turnClock,
  "lanes-closer": () => zoomLanes(1.5),
  "lanes-wider": () => zoomLanes(1 / 1.5),
  theme: turnTheme,
  help: () => byId("keys").showModal(),
};

const KEYS = {
  ArrowRight: (event) => (event.shiftKey ? goToCause(1) : CONTROLS.next()),
  ArrowLeft: (event) => (event.shiftKey ? goToCause(-1) : CONTROLS.previous()),
  Home: CONTROLS.first,
  End: CONTROLS.last,
  j: () => chooseNeighbour(1),
  k: () => chooseNeighbour(-1),
  ArrowDown: () => chooseNeighbour(1),
  ArrowUp: () => chooseNeighbour(-1),
  "/": () => byId("find").focus(),
  f: CONTROLS.fit,
  "+": CONTROLS.closer,
  "=": CONTROLS.closer,
  "-": CONTROLS.wider,
  "[": CONTROLS["lanes-wider"],
  "]": CONTROLS["lanes-closer"],
  g: () => chooseShown(SHOWN[(SHOWN.indexOf(now.shown) + 1) % (now.claim ? 3 : 2)]),
  t: turnTheme,
  "?": CONTROLS.help,
  Escape: () => now.task >= 0 && (now.group ? chooseGroup(now.task) : chooseTask(now.task)),
};

// Keys in the search: Escape ends it, Enter and the arrow down choose the first claim that is found.
function pressInSearch(event) {
  if (event.key === "Escape") {
    event.target.value = now.search = "";
    sift();
    event.target.blur();
  } else if (event.key === "Enter" || event.key === "ArrowDown") {
    const [first] = listed();
    if (!first) return;
    event.preventDefault();
    chooseClaim(first.number);
    byId("claims").focus();
  }
}

function press(event) {
  if (event.ctrlKey || event.metaKey || event.altKey || byId("keys").open) return;
  if (event.target === byId("find")) return pressInSearch(event);
  const isUpOrDown = event.key === "ArrowUp" || event.key === "ArrowDown";
  const act = Object.hasOwn(KEYS, event.key) && KEYS[event.key];
  if (!act || (isUpOrDown && !event.target.matches("body, #claims"))) return;
  event.preventDefault();
  act(event);
}

// Shows what the address says, or the first claim, which is the worst.
function followAddress() {
  const asked = new URLSearchParams(location.hash.slice(1));
  const number = Number(asked.get("claim"));
  const entry = entries.find((other) => other.number === number) || entries[0];
  chooseClaim(entry?.number ?? 0);
  if (asked.has("step") && now.claim === number) goTo(Number(asked.get("step")) || 0);
}

function connect() {
  for (const [id, act] of Object.entries(CONTROLS)) byId(id).addEventListener("click", () => act());
  for (const button of document.querySelectorAll("[data-shown]")) {
    button.addEventListener("click", () => chooseShown(button.dataset.shown));
  }
  byId("slider").addEventListener("input", ({ target }) => goTo(Number(target.value)));
  byId("find").addEventListener("input", ({ target }) => {
    now.search = target.value;
    sift();
  });
  followPointer();
  addEventListener("keydown", press);
  addEventListener("hashchange", followAddress);
  addEventListener("resize", () => {
    showLanes();
    showStep();
    fitView();
  });
  addEventListener("beforeprint", preparePrint);
  addEventListener("afterprint", endPrint);
}

function writeHead() {
  const counts = VERDICTS.filter((word) => sums[word]).map((word) => `${sums[word]} ${word}`);
  const said = audit ? byId("text").textContent.trim().split("\n") : counts;
  document.title = `${said.join(", ") || WORDS.noClaim} · taskgraph`;
  byId("title").textContent = audit ? WORDS.recorded : WORDS.title;
  byId("size").textContent = WORDS.size();
  byId("about").textContent = given.document.note === undefined ? "" : shown(given.document.note);
  byId("tokens").hidden = !tokens.length;
  byId("clock").hidden = !times;
  byId("legend").append(...WORDS.legend.map((word) => html("span", {}, icon(word), ` ${word}`)));
  for (const id of ["first", "previous", "next", "last"]) byId(id).append(icon(id));
}

// The answer as text stands there until the page does.
function start() {
  document.body.className = "live";
  try {
    startTheme();
    writeHead();
    listClaims();
    connect();
    followAddress();
  } catch (error) {
    document.body.className = "";
    throw error;
  }
}
start();
