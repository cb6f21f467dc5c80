// What is chosen: a claim, a step of its run, a task or a group, and which tasks are shown.

// from so many tasks on, parts that look alike are folded at first
const FOLDED_FROM = 25;
const now = {
  claim: 0,
  step: 0,
  shown: tasks.length < FOLDED_FROM ? "all" : "grouped",
  task: -1,
  group: null,
  verdict: "",
  search: "",
};
const SHOWN = ["all", "grouped", "claim"];

const claimOf = (number) => claims[number - 1] || null;
const verdictOf = (number) => verdicts[number - 1] || null;
const chosenSubject = () => (claimOf(now.claim) ? subjectOf(claimOf(now.claim)) : NO_SUBJECT);

// The run of a claim that fails, played once; or the one that was recorded.
const runs = new Map();
function runOf(number) {
  if (audit) return recordedRun;
  if (!runs.has(number)) {
    const run = verdictOf(number)?.run;
    runs.set(number, run ? new Run(run) : null);
  }
  return runs.get(number);
}
const chosenRun = () => runOf(now.claim);
// The events that led to where the chosen claim fails, as the program says them.
const chosenCauses = () => verdictOf(now.claim)?.causes || [];
const causingEvents = () => chosenCauses().map(({ event }) => event);

// Chooses a claim, at the end of its run, or where it fails in the recorded one.
function chooseClaim(number) {
  Object.assign(now, { claim: number, task: -1, group: null });
  graph.opened.clear();
  now.step = endOf(number);
  showAll();
}

// Chooses a task, or none where it was chosen.
function chooseTask(id) {
  now.group = null;
  now.task = now.task === id ? -1 : id;
  showAll();
  if (now.task < 0) return;
  revealTask(id);
  byId("side").scrollTop = 0;
}

// Chooses the group for which a task stands.
function chooseGroup(id) {
  const isChosen = now.task === id && now.group;
  now.task = isChosen ? -1 : id;
  now.group = isChosen ? null : graph.groups.get(id);
  showAll();
  if (!isChosen) byId("side").scrollTop = 0;
}

// Shows these tasks alone, and no longer as part of a group.
function openTasks(members) {
  for (const member of members) graph.opened.add(member);
  Object.assign(now, { task: -1, group: null });
  showAll();
  revealTask(members[0]);
}

function chooseShown(word) {
  now.shown = word;
  showAll();
}

// Goes to a step: so many events have happened.
function goTo(step) {
  const run = chosenRun();
  if (!run) return;
  now.step = Math.max(0, Math.min(run.events.length, step));
  paintGraph();
  showStep();
  markEvents();
  const event = run.events[now.step - 1];
  if (event?.task !== undefined) revealTask(event.task);
  if (now.task >= 0) showTask();
  remember();
}

// Goes to the next cause, or to the one before; where there is none, by one event.
function goToCause(way) {
  const causes = causingEvents();
  const next = way > 0 ? causes.find((cause) => cause > now.step) : causes.findLast((cause) => cause < now.step);
  goTo(next ?? now.step + way);
}

// Shows everything anew for what is chosen.
function showAll() {
  showClaims();
  showLanes();
  buildGraph();
  showDetails();
  paintGraph();
  showStep();
  markEvents();
  remember();
}

// The address says which claim and which step are chosen, so that it can be handed on.
function remember() {
  const step = chosenRun() ? `&step=${now.step}` : "";
  history.replaceState(null, "", `#claim=${now.claim}${step}`);
}
