// What is said of the chosen claim: its verdict, what goes wrong, how it came to this, and the events.

// from so many steps on in which tasks only ran, those that a chain begins with are folded
const FOLDED_STEPS = 4;

function showDetails() {
  const [verdict, claim, run] = [verdictOf(now.claim), claimOf(now.claim), chosenRun()];
  const parts = verdict ? [verdictElements(verdict, claim), reasonElements(verdict)] : [html("p", {}, WORDS.noClaims)];
  const failing = runToFailure(now.claim);
  if (failing) parts.push(failureElements(claim, failing));
  if (audit) parts.push(recordElements());
  if (run) parts.push(inputElements(run), eventElements(run));
  byId("details").replaceChildren(...parts.flat(Infinity).filter(Boolean));
  showTask();
}

function verdictElements({ verdict, name, text }, claim) {
  return [
    html("p", { class: `verdict ${verdict}` }, icon(verdict), WORDS.claim(now.claim, verdict)),
    name !== undefined && html("h2", { dir: "auto" }, shown(name)),
    html("p", { class: name === undefined ? "says lead" : "says" }, withTasks(text)),
    claim.note !== undefined && html("p", { class: "note", dir: "auto" }, shown(claim.note)),
    html("p", { class: "tells" }, audit ? AUDIT_WORDS[verdict]() : VERDICT_WORDS[verdict]),
  ];
}

// The lines that belong to that of a claim in the program's own answer.
function saidLines(number) {
  const lines = byId("text").textContent.split("\n");
  const start = lines.findIndex((line) => line.startsWith(`claim ${number} `)) + 1;
  const isOther = (line, place) => place >= start && !line.startsWith("  ");
  return lines.slice(start, start && lines.findIndex(isOther));
}

// Why a claim holds, says nothing, or isn't known.
function reasonElements({ claim: number, verdict, splits, tree }) {
  const isToldByLines = !audit && (verdict === "empty" || verdict === "unknown");
  return [
    isToldByLines && saidLines(number).map((line) => html("p", {}, withTasks(line.trim()))),
    splits !== undefined && html("p", { class: "tells" }, SPLITS_WORDS(splits)),
    tree !== undefined && caseElements(tree, claimOf(number)),
  ];
}

function failureElements(claim, run) {
  const wrong = [html("h3", {}, WORDS.wrong), html("p", {}, sentenceElements(failureOf(claim, run)))];
  const causes = chosenCauses();
  return causes.length ? [...wrong, html("h3", {}, WORDS.causes), chainElement(run, causes)] : wrong;
}

// A chain of causes. Where it begins with many tasks that ran, those can be unfolded.
function chainElement(run, causes) {
  const isPlain = ({ event }) => run.events[event - 1].changes.some(([, status]) => status === RAN);
  const first = causes.findIndex((cause) => !isPlain(cause));
  const plain = first < 0 ? causes.length - 1 : first;
  const items = causes.map((cause) => causeElement(cause, isPlain(cause)));
  if (plain < FOLDED_STEPS) return html("ol", { class: "causes" }, items);
  const folded = html("ol", { class: "causes" }, items.slice(0, plain));
  const more = html("details", {}, html("summary", {}, WORDS.folded(plain)), folded);
  return [more, html("ol", { class: "causes" }, items.slice(plain))];
}

const stepButton = (number, title) =>
  html("button", { type: "button", class: "go", title: title ?? WORDS.toEvent(number), onclick: () => goTo(number) }, number);

function causeElement({ event, says }, isPlain) {
  const attributes = { "data-event": event, class: isPlain ? "plain" : "" };
  return html("li", attributes, stepButton(event), " ", withTasks(says));
}

function inputElements({ inputs }) {
  const values = [...inputs].map(([name, value]) => html("span", { class: "input" }, WORDS.input(name, value)));
  return values.length ? [html("h3", {}, WORDS.inputs), html("p", {}, values)] : [];
}

function eventElements(run) {
  const items = run.events.map(eventElement);
  const fails = () => html("li", { class: "fails" }, icon("fails"), WORDS.claimFailsHere(failingClaim()));
  if (failsAt(run) !== undefined) items.splice(failsAt(run), 0, fails());
  const list = html("ol", { class: "events", id: "events" }, items);
  return [html("h3", {}, WORDS.events), list, copyButton(run.journal)];
}

function eventElement({ number, actor, sentence: words, isBad }) {
  const go = ({ target }) => target.closest(".task") || goTo(number);
  const attributes = { "data-event": number, class: isBad ? "bad" : "", onclick: go };
  const inside = [html("span", { class: "number" }, number), html("span", { class: "actor" }, actor)];
  return html("li", attributes, inside, html("span", {}, sentenceElements(words)));
}

function copyButton(journal) {
  const button = html("button", { type: "button", class: "copy" }, WORDS.copy);
  const say = (words) => () => (button.textContent = words);
  button.addEventListener("click", () => navigator.clipboard?.writeText(journal).then(say(WORDS.copied), say(WORDS.notCopied)));
  return button;
}

// Marks the events that have happened, and the last of them.
function markEvents() {
  for (const item of byId("details").querySelectorAll("[data-event]")) {
    const number = Number(item.dataset.event);
    const isNow = number === now.step;
    item.classList.toggle("past", number < now.step);
    item.classList.toggle("now", isNow);
    if (!isNow) item.removeAttribute("aria-current");
    else {
      item.setAttribute("aria-current", "step");
      if (item.parentNode.id === "events") scrollInto(item.parentNode, item);
    }
  }
}

function scrollInto(list, item) {
  const isInView = item.offsetTop >= list.scrollTop && item.offsetTop + item.offsetHeight <= list.scrollTop + list.clientHeight;
  if (!isInView) list.scrollTop = item.offsetTop - list.clientHeight / 2;
}
