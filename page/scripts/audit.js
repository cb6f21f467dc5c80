// A recorded run: what the audit found of it. The program judged it; here it is only told.

const CUT = "\n";
const recordedLines = (given.document.journal || "").replaceAll("\r\n", CUT).split(CUT).filter(Boolean);
const ofRecord = (count) => new Run({ inputs: given.document.start?.inputs, journal: recordedLines.slice(0, count).join(CUT) });
// all events that are allowed; and those up to where a claim fails
const allowedCount = audit?.not_allowed ? audit.not_allowed - 1 : recordedLines.length;
const recordedRun = audit && ofRecord(allowedCount);
const failingRun = audit?.fails ? ofRecord(audit.fails.place) : null;
// when each event came, in microseconds; null where that isn't said
const times = audit && given.document.times?.length ? given.document.times : null;

// The claims, as if each had a verdict: the first that fails, and those of which nothing else is known.
function auditedClaims() {
  const other = audit.not_allowed ? "unknown" : "kept";
  const said = (claim) => (claim === audit.fails?.claim ? { verdict: "fails", causes: audit.fails.causes } : { verdict: other });
  return audit.claims.map((text, place) => ({ claim: place + 1, text, name: claims[place].name, ...said(place + 1) }));
}
function countedClaims() {
  const count = (word) => verdicts.filter(({ verdict }) => verdict === word).length;
  return Object.fromEntries(VERDICTS.filter(count).map((word) => [word, count(word)]));
}

// Behind how many events of the run the chosen claim fails, and which one that is; none where none fails.
const failsAt = (run) => (audit ? audit.fails?.place : run.events.length);
const failingClaim = () => (audit ? audit.fails.claim : now.claim);
// The step at which a claim is shown.
const endOf = (number) => (number === audit?.fails?.claim ? audit.fails.place : (runOf(number)?.events.length ?? 0));
// The run that ends where the claim fails.
const runToFailure = (number) => (!audit ? runOf(number) : number === audit.fails?.claim ? failingRun : null);

// What is said of the recorded run, whichever claim is chosen.
function recordElements() {
  const head = audit.not_allowed ? WORDS.notAllowed(audit.not_allowed) : WORDS.complete(audit.complete);
  const refused = audit.not_allowed && html("p", { class: "journal" }, recordedLines[audit.not_allowed - 1]);
  const other = audit.other_end && html("p", { class: "other" }, sentenceElements(otherEnd(audit.other_end)));
  return [html("h3", {}, WORDS.run), html("p", {}, head), refused, other, endElements()];
}
function otherEnd({ task, said, status }) {
  const parts = { task: idOf.get(task), said: END_WORDS[said], status: STATUSES.indexOf(status) };
  return sentence(WORDS.otherEnd, parts);
}

// How each task stands at the end, those that didn't run first. Of many that stand alike the names are folded.
const MOST_ENDS = 40;
function endElements() {
  const ends = audit.ends ? audit.ends.map((name) => STATUSES.indexOf(name)) : recordedRun.status;
  const line = (status) => {
    const ids = tasks.map((_, id) => id).filter((id) => ends[id] === status);
    if (!ids.length) return "";
    const names = ids.map((id, place) => [place ? ", " : " ", taskButton(id)]);
    const folded = ids.length > MOST_ENDS && html("details", {}, html("summary", {}, WORDS.names), names);
    const said = [`${ids.length} `, sentenceElements([statusPart(status)]), folded ? "" : ":", folded || names];
    return html("div", { class: "ends", "data-status": STATUSES[status] }, said);
  };
  return [html("h3", {}, audit.ends ? WORDS.ends : WORDS.endsBefore), WORST_FIRST.map(line)];
}

// Times, as people read them.
const TIME_UNITS = [[1e6, "s"], [1e3, "ms"], [1, "µs"]];
function timeWords(microseconds) {
  const [size, unit] = TIME_UNITS.find(([size]) => microseconds >= size) || TIME_UNITS[2];
  return `${Number((microseconds / size).toPrecision(4))} ${unit}`;
}
