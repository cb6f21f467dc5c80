// What is printed: for each claim that fails its graph where it fails, what goes wrong, and how it came to this.

const MOST_PRINTED = 24;

function printedElement(number) {
  Object.assign(now, { claim: number, step: endOf(number), task: -1, group: null });
  buildGraph();
  paintGraph();
  const picture = byId("canvas").cloneNode(true);
  picture.removeAttribute("id");
  picture.setAttribute("viewBox", `-8 -8 ${graph.width + 16} ${graph.height + 16}`);
  picture.classList.remove("far");
  picture.firstElementChild.removeAttribute("transform");
  picture.firstElementChild.removeAttribute("id");
  const verdict = verdictOf(number);
  const [claim, run] = [claimOf(number), runToFailure(number)];
  const said = [verdictElements(verdict, claim), failureElements(claim, run), inputElements(run)];
  const section = html("section", {}, said, picture);
  for (const folded of section.querySelectorAll("details")) folded.open = true;
  return section;
}

// Shows each claim that fails once, and then again what was chosen.
function preparePrint() {
  const before = { ...now };
  const failing = verdicts.filter(({ verdict }) => verdict === "fails").map(({ claim }) => claim);
  const sections = failing.slice(0, MOST_PRINTED).map(printedElement);
  const leftOut = failing.length - sections.length;
  byId("printed").replaceChildren(...sections, leftOut > 0 ? html("p", {}, WORDS.printed(leftOut)) : "");
  Object.assign(now, before);
  showAll();
}

function endPrint() {
  byId("printed").replaceChildren();
  fitView();
}
