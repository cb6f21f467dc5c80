// What is said of the chosen task or group: what it is, what its body does, and where it stands.

const MOST_NEIGHBOURS = 12;
const MOST_CLAIMS = 20;

function showTask() {
  const panel = byId("task");
  panel.hidden = now.task < 0;
  if (now.task < 0) return;
  panel.replaceChildren(...(now.group ? groupElements(now.group) : taskElements(now.task)).flat(Infinity).filter(Boolean));
}

const shutButton = (act) => html("button", { type: "button", class: "shut", "aria-label": WORDS.close, onclick: act }, "×");

function groupElements({ parts, members }) {
  const partButton = (part) => {
    const title = part.map((member) => tasks[member].name).join(", ");
    return html("button", { type: "button", class: "go", title, onclick: () => openTasks(part) }, tasks[part[0]].name);
  };
  return [
    html("h2", {}, WORDS.alike(parts.length), shutButton(() => chooseGroup(now.task))),
    html("p", { class: "tells" }, WORDS.alikeTells(members.length)),
    html("p", {}, parts.map(partButton)),
    html("button", { type: "button", onclick: () => openTasks(members) }, WORDS.unfoldAll),
  ];
}

function taskElements(id) {
  const { name, note, token, body } = tasks[id];
  return [
    html("h2", {}, name, shutButton(() => chooseTask(id))),
    html("p", { class: "tells" }, kindWords(id)),
    standsElement(id),
    note !== undefined && html("p", { class: "note", dir: "auto" }, shown(note)),
    token !== undefined && html("p", {}, WORDS.token, html("span", { class: "token" }, token)),
    body && html("div", { class: "body" }, bodyLines(body, 0)),
    neighbourElement(WORDS.follows, edgesTo[id].map((edge) => edge.from)),
    neighbourElement(WORDS.followedBy, edgesFrom[id].map((edge) => edge.to)),
    ownEventsElement(id),
    ownClaimsElement(id),
  ];
}

function standsElement(id) {
  const run = chosenRun();
  if (!run) return "";
  const hasThrown = run.thrown[id] && run.threwAt[id] <= now.step;
  const stands = sentenceElements([statusPart(run.statusAt(now.step)[id])]);
  return html("p", {}, WORDS.atStep, stands, hasThrown ? WORDS.threw(run.thrown[id]) : "");
}

// The statements of a body, a line each, those of branches further in.
function bodyLines(body, depth) {
  const line = (sentence) => html("div", { class: "statement" }, "\u2003".repeat(depth), sentenceElements(sentence));
  const lines = (statement) => {
    if (typeof statement === "string") return [line([PLAIN_STATEMENTS[statement]])];
    const word = Object.keys(STATEMENT_WORDS).find((key) => statement[key] !== undefined);
    const otherwise = statement.else?.length ? [line([WORDS.else]), bodyLines(statement.else, depth + 1)] : [];
    return [line(STATEMENT_WORDS[word](statement)), bodyLines(statement.then || [], depth + 1), otherwise];
  };
  return body.map(lines);
}

function neighbourElement(words, ids) {
  if (!ids.length) return "";
  const names = ids.slice(0, MOST_NEIGHBOURS).map((id, place) => [place ? ", " : "", taskButton(id)]);
  return html("p", {}, words, names, ids.length > MOST_NEIGHBOURS ? WORDS.andMore(ids.length - MOST_NEIGHBOURS) : "");
}

function ownEventsElement(id) {
  const events = chosenRun()?.events.filter((event) => event.task === id) || [];
  return events.length && html("p", {}, WORDS.itsEvents, events.map((event) => stepButton(event.number, flat(event.sentence))));
}

function ownClaimsElement(id) {
  const names = (claim) => {
    const { about, ended } = subjectOf(claim);
    return about.includes(id) || ended.includes(id);
  };
  const own = verdicts.filter(({ claim }) => names(claims[claim - 1]));
  const button = ({ claim, verdict, text }) =>
    html("button", { type: "button", class: `go ${verdict}`, title: text, onclick: () => chooseClaim(claim) }, claim);
  const more = own.length > MOST_CLAIMS ? WORDS.andMore(own.length - MOST_CLAIMS) : "";
  return own.length && html("p", {}, WORDS.itsClaims, own.slice(0, MOST_CLAIMS).map(button), more);
}
