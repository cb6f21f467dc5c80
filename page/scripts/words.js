// Everything that the scripts say; what the controls are called stands in template.html.

// A sentence is a list of parts: texts, and parts that are shown in their own way: a task, a token, a status. It is made of a
// text with names in braces, and of what is to stand there: {token} a token, {status} a status, {ended} how a task ended, {task},
// {other} and {child} tasks, anything else a text.
const taskPart = (id) => ({ task: id });
const statusPart = (status) => ({ status });
const endedParts = (status) => [status === CANCELED ? "was " : "", statusPart(status)];
const PARTS = {
  task: ({ task }) => taskPart(task),
  other: ({ other }) => taskPart(other),
  child: ({ child }) => taskPart(child),
  token: ({ token }) => ({ token }),
  status: ({ status }) => statusPart(status),
  ended: ({ status }) => endedParts(status),
};
function sentence(text, parts) {
  const part = (name) => (PARTS[name] ? PARTS[name](parts) : String(parts[name]));
  return text.split(/\{(\w+)\}/).flatMap((word, place) => (place % 2 ? part(word) : word));
}
const flat = (parts) => parts.map(flatPart).join("");
function flatPart(part) {
  if (part.task !== undefined) return tasks[part.task].name;
  return part.token ?? STATUS_WORDS[part.status] ?? String(part);
}

const STATUS_WORDS = ["not started", "waiting", "ready", "running", "waits for children", "ran", "canceled", "faulted"];
const STATUS_CLASSES = ["created", "waits", "ready", "running", "running", "ran", "canceled", "faulted"];
const END_WORDS = { RanToCompletion: "ran", Canceled: "canceled", Faulted: "faulted" };
const counted = (count, word) => `${count.toLocaleString("en")} ${word}${count === 1 ? "" : "s"}`;
const isMost = (count, whole) => (count === whole ? `${whole} tasks` : `${count} of ${whole} shown`);

// When a continuation starts.
function conditionWords(ends) {
  if (ends.length === FINALS.length) return "";
  if (ends.length === 1) return `if ${END_WORDS[ends[0]]}`;
  return `unless ${END_WORDS[FINALS.find((end) => !ends.includes(end))]}`;
}
function edgeWords(edge) {
  if (edge.kind === "then") return conditionWords(edge.ends);
  return edge.kind === "child" ? (edge.attached ? "attached" : "detached") : "";
}
// What an event does.
const EVENTS = {
  request: "the outside requests {token}",
  release: "{task} becomes ready: {other} {ended}",
  begin: "{task} begins",
  return: "{task} returns",
  throw: "{task} throws {exception}",
  checkInVain: "{task} checks {token}, which isn't requested",
  checkOwn: "{task} sees that {token} is requested, and stops",
  checkOther: "{task} sees that {token} is requested: since it isn't its own token, that is an exception",
  cancel: "{task} requests {token}",
  start: "{task} starts its child {child}",
  observe: "{task} reads the exception of {other}",
  observeInVain: "{task} looks for an exception of {other}, which has none",
  if: "{task} finds {input} {value}",
  when: "{task} finds that {other} {ended}",
  worked: "the job {site} of {task} is done",
  failed: "the job {site} of {task} fails",
  wait: "{task} is over, and waits for {child}{more}",
  leave: "{task} ends: {status}",
  close: "{task} ends with its children: {status}",
  closeSince: "{task} ends with its children: {status}, since {other} faulted",
  misfit: "{task} is canceled: it starts only {how} {other} {end}, and it {ended}",
  drop: "{task} is canceled before it begins: {token} is requested",
  first: "{task} ends: {other} was the first",
  settle: "{task} ends: {status}, as all of its tasks have",
  settleSince: "{task} ends: {status}, since {other} {ended}",
};

// Where a claim fails.
const FAILURES = {
  final: "{task} ends {status}, which is none of the ends that are claimed.",
  never: "{task} begins.",
  afterOpen: "{task} begins, but {other} hasn't ended: it is {status}.",
  afterEnded: "{task} begins, but {other} ended {status} at event {event}.",
  excludes: "Both begin: {task} at event {event}, {other} at event {second}.",
  runs: "The run is complete, and {task} never began.",
  runsCanceled: "The run is complete, and {task} never began: it was canceled at event {event}.",
  observed: "The run is complete, and nobody read the exception that {task} threw at event {event} ({exception}).",
  given: " {task} ended {status}, as is given.",
};

// The verdicts, the worst first.
const VERDICTS = ["fails", "unknown", "empty", "holds", "kept"];
const VERDICT_WORDS = {
  fails: "It fails: here is a run in which it does.",
  unknown: "Neither a certificate nor a run in which it fails was found. It may hold or fail.",
  empty: "It holds, but says nothing.",
  holds: "It holds in every run: a certificate was found, and the proved check accepts it.",
};
// What the audit of a recorded run says of a claim.
const AUDIT_WORDS = {
  fails: () => "It fails in this run, and no claim fails earlier.",
  unknown: () => "The journal is no run, so nothing is said of the claim.",
  kept: () =>
    audit.fails
      ? `It holds up to where claim ${audit.fails.claim} fails. What comes after that wasn't looked at.`
      : "It holds after each event of this run.",
};
const SPLITS_WORDS = (splits) =>
  splits ? `The certificate has at most ${counted(splits, "split")} on a path.` : "The certificate has one case.";
// Where a case of a certificate speaks, and what its rows say of the claim's tasks.
const CASES = {
  end: "{task} ends {status} or not at all",
  first: "no other than {other} is the first of {task}",
  notFirst: "{other} isn't the first of {task}",
  settled: "{other} is settled when {task} begins",
  reads: "{other} reads the exception of {task}",
  neverBegins: "{task} never begins",
  neverEnds: "{task} never ends",
  mayEnd: "{task} may end {ways}",
};
const CASES_WORDS = (isLeast) =>
  `Each run is in one of these cases, and the claim holds in each${isLeast ? ": the check works out why" : ""}.`;

// What a task is.
const TASK_KINDS = {
  root: () => "a root",
  child: (id) => `a child of ${tasks[parentOf.get(id)].name}`,
  then: (id) => `continues ${tasks[id].after}`,
  all: () => "WhenAll",
  any: () => "WhenAny",
};
const kindWords = (id) => [TASK_KINDS[tasks[id].kind](id), ...(tasks[id].options || [])].join(", ");
const LINE_KINDS = {
  root: (task) => (task.token ? "" : "starts at once"),
  child: () => "child",
  then: (task) => {
    const isSynchronous = hasOption(task, "ExecuteSynchronously");
    const isLazy = hasOption(task, "LazyCancellation");
    return [!task.token && "then", isSynchronous && "sync", isLazy && "lazy"].filter(Boolean).join(" · ");
  },
  all: (task) => `all of ${task.of.length}`,
  any: (task) => `first of ${task.of.length}`,
};
// the second line in a task's box, where no run is shown
function lineWords(id) {
  const task = tasks[id];
  const cancels = requestedBy[id].length ? `cancels ${requestedBy[id].join(", ")}` : "";
  return [LINE_KINDS[task.kind](task), task.token ? `token ${task.token}` : "", cancels].filter(Boolean).join(" · ");
}
const STATEMENT_WORDS = {
  work: ({ work, may_fail }) => [`job ${work}`, may_fail ? " (may fail)" : ""],
  throw: (statement) => [`throw ${statement.throw}`],
  check: ({ check }) => sentence("check {token}", { token: check }),
  cancel: ({ cancel }) => sentence("cancel {token}", { token: cancel }),
  start: ({ start }) => sentence("start {child}", { child: idOf.get(start) }),
  if: (statement) => [`if ${statement.if}`],
  when: ({ when }) => [`when it ${END_WORDS[when]}`],
};
const PLAIN_STATEMENTS = { observe: "read the exception of what it continues", return: "return" };

const WORDS = {
  title: "Claims and their verdicts",
  recorded: "A recorded run",
  run: "The run",
  complete: (isComplete) => (isComplete ? "The run is complete." : "The run is not complete: some task has yet to end."),
  notAllowed: (place) => `Event ${place} isn't allowed after those before it:`,
  otherEnd: "The document says of {task}: {said}. The journal says: {status}.",
  ends: "How the tasks ended",
  endsBefore: "How the tasks stand before it",
  names: "their names",
  at: (time) => `, at ${time}`,
  time: "time",
  noClaims: "The document has no claims, so nothing was asked.",
  noClaim: "no claim",
  claim: (number, verdict) => ` claim ${number} ${verdict}`,
  size: () => `${counted(tasks.length, "task")} · ${counted(claims.length, "claim")}`,
  certificate: "The certificate",
  wrong: "What goes wrong",
  causes: "How it came to this",
  folded: (count) => `${counted(count, "step")} before, in which tasks ran`,
  inputs: "Inputs",
  input: (name, value) => `${name} is ${value}`,
  events: "Events",
  failsHere: "The claim fails here",
  claimFailsHere: (number) => ` claim ${number} fails here`,
  copy: "Copy the journal",
  copied: "Copied",
  notCopied: "Not allowed here",
  close: "close",
  alike: (count) => `${count} parts alike`,
  alikeTells: (count) =>
    `${count} tasks that have the same shape and the same neighbours are shown as one. Unfold one of them:`,
  unfoldAll: "unfold all",
  groupName: (first, last) => `${first} … ${last}`,
  groupLine: (parts, members) => `${parts} alike · ${members} tasks`,
  groupTitle: (names, more) => `${names.join(", ")}${more ? ` and ${more} more` : ""}. Click to unfold`,
  group: "group ",
  isSubject: ", the claim is about it",
  atStep: "At this step: ",
  threw: (exception) => `, it threw ${exception}`,
  token: "token ",
  follows: "follows ",
  followedBy: "followed by ",
  itsEvents: "its events ",
  itsClaims: "claims ",
  andMore: (count) => ` and ${count} more`,
  requested: ": requested",
  neverRequested: ": never requested",
  linked: (names) => ` ← ${names.join(", ")}`,
  event: "event",
  toEvent: (number) => `go to event ${number}`,
  lane: (actor) => `${actor[0] === "w" ? "worker" : "outside"} ${actor.slice(1)}`,
  bar: (name, from, to) => `${name}: events ${from} to ${to}`,
  fails: "fails here",
  beforeFirst: (count) => `before the first event of ${count}`,
  step: (number, count, says) => `${number} of ${count}: ${says}`,
  found: (count) => `${count} found`,
  printed: (count) => `The pictures of ${counted(count, "more failing claim")} are left out; each is in the page.`,
  legend: ["ran", "faulted", "canceled", "running", "ready", "waits"],
  else: "else",
};
