// The document that the page shows, what was found of it, and what is read off the graph. Names are looked up in maps, since a task
// may be called __proto__.

const given = JSON.parse(document.getElementById("data").textContent);
const tasks = given.document.tasks;
const claims = given.document.claims || [];
// of a recorded run what the audit found, else null; and what is said of each claim
const audit = given.audit || null;
const verdicts = audit ? auditedClaims() : given.verdicts.claims;
const sums = audit ? countedClaims() : given.verdicts.sums;
const tokens = (given.document.tokens || []).map((token) => (typeof token === "string" ? { name: token, linked: [] } : token));
const idOf = new Map(tasks.map((task, id) => [task.name, id]));
const tokenOf = new Map(tokens.map((token) => [token.name, token]));

// How tasks may stand, in the order of .NET's TaskStatus as far as the model has it.
const FINALS = ["RanToCompletion", "Canceled", "Faulted"];
const STATUSES = ["Created", "WaitingForActivation", "WaitingToRun", "Running", "WaitingForChildrenToComplete", ...FINALS];
const [CREATED, WAITING, READY, RUNNING, WITH_CHILDREN, RAN, CANCELED, FAULTED] = STATUSES.keys();
const hasEnded = (status) => status >= RAN;

const hasOption = (task, option) => (task.options || []).includes(option);

// The ends of its antecedent after which a continuation may start.
function allowedEnds(task) {
  const isAllowed = (end) =>
    !hasOption(task, `NotOn${end}`) && !FINALS.some((other) => other !== end && hasOption(task, `OnlyOn${other}`));
  return FINALS.filter(isAllowed);
}

// Calls a function for each statement of a body, those in its branches too.
function eachStatement(body, visit) {
  for (const statement of body || []) {
    visit(statement);
    eachStatement(statement.then, visit);
    eachStatement(statement.else, visit);
  }
}

// Which task starts a child, and which tokens a task requests.
const parentOf = new Map();
const requestedBy = tasks.map(() => []);
tasks.forEach((task, id) =>
  eachStatement(task.body, (statement) => {
    if (statement.start !== undefined) parentOf.set(idOf.get(statement.start), id);
    if (statement.cancel !== undefined) requestedBy[id].push(statement.cancel);
  }),
);
const childrenOf = tasks.map(() => []);
for (const [child, parent] of parentOf) childrenOf[parent].push(child);
const isAttached = (child) =>
  hasOption(tasks[child], "AttachedToParent") && !hasOption(tasks[parentOf.get(child)], "DenyChildAttach");

// The edges: from a task to its continuation, to a WhenAll or WhenAny of it, to its child.
const edges = [];
tasks.forEach((task, id) => {
  if (task.kind === "then") edges.push({ from: idOf.get(task.after), to: id, kind: "then", ends: allowedEnds(task) });
  for (const name of new Set(task.of || [])) edges.push({ from: idOf.get(name), to: id, kind: "argument" });
});
for (const [child, parent] of parentOf) edges.push({ from: parent, to: child, kind: "child", attached: isAttached(child) });
const edgesTo = tasks.map(() => []);
const edgesFrom = tasks.map(() => []);
for (const edge of edges) {
  edgesTo[edge.to].push(edge);
  edgesFrom[edge.from].push(edge);
}

// What a claim speaks of: its kind, the tasks that it is about, those whose ends are given, and the tokens that are given as
// never requested.
const KINDS = ["final", "after", "observed", "never", "excludes", "runs"];
function subjectOf(claim) {
  const kind = KINDS.find((word) => claim[word] !== undefined);
  const premises = claim.given || [];
  const about = [].concat(claim[kind]).map((name) => idOf.get(name));
  const ended = premises.filter((premise) => premise.ended !== undefined).map((premise) => idOf.get(premise.ended));
  const allTokens = tokens.map((token) => token.name);
  const quietIn = (premise) => (premise === "no_request" ? allTokens : premise.quiet ? [premise.quiet] : []);
  return { kind, about, ended, quiet: new Set(premises.flatMap(quietIn)) };
}
const NO_SUBJECT = { kind: "", about: [], ended: [], quiet: new Set() };

// The tasks that may have a say in what becomes of these: those before them, and those that request a token that one of them
// sees, but for tokens that are given as never requested.
function cone(from, quiet) {
  const met = new Set();
  const ahead = [...from];
  const addRequesters = (name) => {
    if (quiet.has(name)) return;
    requestedBy.forEach((names, id) => names.includes(name) && ahead.push(id));
    (tokenOf.get(name)?.linked || []).forEach(addRequesters);
  };
  while (ahead.length) {
    const id = ahead.pop();
    if (met.has(id)) continue;
    met.add(id);
    ahead.push(...edgesTo[id].map((edge) => edge.from));
    if (tasks[id].token) addRequesters(tasks[id].token);
    eachStatement(tasks[id].body, (statement) => statement.check && addRequesters(statement.check));
  }
  return met;
}
