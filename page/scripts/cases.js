// The cases of a claim that holds, which are the leaves of its certificate's tree: where each speaks, and what the claim takes
// from its rows. A tree comes as documents have it, and a leaf may leave its rows out.

// more cases than so many are folded
const OPEN_CASES = 12;

function caseElements(tree, claim) {
  const cases = casesOf(tree, []);
  const parts = cases.map((one) => caseElement(one, subjectOf(claim)));
  if (!parts.some((part) => part.childNodes.length)) return [];
  const list = html("ol", { class: "cases" }, parts);
  const isLong = cases.length > OPEN_CASES;
  return [
    html("h3", {}, WORDS.certificate),
    cases.length > 1 && html("p", { class: "tells" }, CASES_WORDS(cases.some(({ rows }) => !rows))),
    isLong ? html("details", {}, html("summary", {}, counted(cases.length, "case")), list) : list,
  ];
}

// Each leaf of a tree, with the sentences that say where it speaks.
function casesOf(tree, where) {
  const branches = branchesOf(tree);
  if (!branches.length) return [{ where, rows: tree.rows }];
  return branches.flatMap(([says, branch]) => casesOf(branch, [...where, says]));
}

// The branches of a split, each with a sentence; none of a leaf.
function branchesOf({ split_input: input, split_end: end, split_winner: any, task, yes, no, ...tree }) {
  const isInput = (value) => [WORDS.input(input, value)];
  const ends = (status) => sentence(CASES.end, { task: idOf.get(end), status });
  const parts = { task: idOf.get(any), other: idOf.get(task) };
  if (input !== undefined) return [[isInput(true), yes], [isInput(false), no]];
  if (end !== undefined) return [[ends(RAN), tree.ran], [ends(CANCELED), tree.canceled], [ends(FAULTED), tree.faulted]];
  return any === undefined ? [] : [[sentence(CASES.first, parts), yes], [sentence(CASES.notFirst, parts), no]];
}

function caseElement({ where, rows }, { kind, about }) {
  const spoken = where.flatMap((says, place) => [place > 0 && ", ", sentenceElements(says)]);
  const said = rows ? rowSentences(rows, kind, about) : [];
  const list = said.length && html("ul", {}, said.map((says) => html("li", {}, sentenceElements(says))));
  return html("li", {}, spoken, said.length > 0 && list);
}

// What a claim of this kind takes from the rows of the tasks that it is about.
function rowSentences(rows, kind, about) {
  if (kind !== "after") return about.map((id) => rowSentence(rows[id], kind, id));
  const [other, task] = about;
  const isSettled = (rows[task].before || []).includes(tasks[other].name);
  return [isSettled ? sentence(CASES.settled, { task, other }) : rowSentence(rows[task], kind, task)];
}

function rowSentence({ runs, ends, chain = [] }, kind, task) {
  if (kind === "observed" && chain.length) return sentence(CASES.reads, { task, other: idOf.get(chain[chain.length - 1]) });
  if (!runs && kind !== "final" && kind !== "runs") return sentence(CASES.neverBegins, { task });
  if (!ends.length) return sentence(CASES.neverEnds, { task });
  return sentence(CASES.mayEnd, { task, ways: ends.map((end) => END_WORDS[end]).join(" or ") });
}
