// How the tasks of the graph stand at the chosen step, and what led there.

// Of a group the worst of its tasks' statuses says how it looks.
const WORST_FIRST = [FAULTED, CANCELED, RUNNING, WITH_CHILDREN, READY, RAN, WAITING, CREATED];

function paintGraph() {
  const run = chosenRun();
  const subject = chosenSubject();
  const event = run?.events[now.step - 1];
  const causes = chosenCauses().filter(({ event }) => event <= now.step);
  const causing = new Set(causes.map(({ event }) => run.events[event - 1].task));
  const statuses = run?.statusAt(now.step);
  for (const box of graph.boxes.values()) paintBox(box, statuses, { subject, event, causing });
  paintTrail(run, causes);
  paintTokens(run, subject.quiet);
}

// What a box says of its task or of the tasks of its group.
function looksOf({ id, group, line }, statuses) {
  if (!statuses) return { look: "none", mark: tasks[id].kind, words: line };
  const counts = new Map();
  for (const member of group ? group.members : [id]) counts.set(statuses[member], (counts.get(statuses[member]) || 0) + 1);
  const found = WORST_FIRST.filter((status) => counts.has(status));
  const look = STATUS_CLASSES[found[0]];
  const sums = found.map((status) => `${counts.get(status)} ${STATUS_WORDS[status]}`).join(", ");
  return { look, mark: look, words: group ? sums : STATUS_WORDS[found[0]] };
}

function paintBox(box, statuses, { subject, event, causing }) {
  const members = box.group ? box.group.members : [box.id];
  const has = (id) => members.includes(id);
  const { look, mark, words } = looksOf(box, statuses);
  const isSubject = subject.about.some(has);
  const classes = {
    group: box.group,
    subject: isSubject,
    given: !isSubject && subject.ended.some(has),
    current: has(event?.task),
    chosen: has(now.task),
    cause: members.some((member) => causing.has(member)),
  };
  const on = Object.keys(classes).filter((name) => classes[name]);
  box.element.setAttribute("class", ["node", tasks[box.id].kind, look, ...on].join(" "));
  box.mark.replaceChildren(sign(mark, 8, 15, statuses ? 12 : 11));
  box.lineText.textContent = clipped(words, box.width - 28, LINE_FONT);
  const label = `${box.group ? WORDS.group : ""}${tasks[box.id].name}, ${words}${isSubject ? WORDS.isSubject : ""}`;
  box.element.setAttribute("aria-label", label);
}

// The lines along which the causes went.
function paintTrail(run, causes) {
  const paths = causes.map(({ event, led_to }) => {
    const [from, to] = [event, led_to].map((number) => run.events[number - 1].task);
    if (from === undefined || to === undefined || from === to || led_to > now.step) return "";
    if (edgesTo[to].some((edge) => edge.from === from)) return graph.pathBetween(from, to);
    return edgesFrom[to].some((edge) => edge.to === from) ? graph.pathBetween(to, from) : "";
  });
  graph.trail.replaceChildren(...paths.filter(Boolean).map((path) => svg("path", { d: path })));
}

function paintTokens(run, quiet) {
  const requested = run?.requestedAt(now.step) ?? new Set();
  const shownToken = ({ name, linked }) => {
    const isRequested = requested.has(name);
    const from = linked?.length ? WORDS.linked(linked) : "";
    const stands = isRequested ? WORDS.requested : quiet.has(name) ? WORDS.neverRequested : "";
    return html("span", { class: isRequested ? "token asked" : "token" }, icon("request"), ` ${name}${from}${stands}`);
  };
  byId("tokens").replaceChildren(...tokens.map(shownToken));
}
