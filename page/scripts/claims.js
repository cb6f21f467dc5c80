// The list of the claims, with their verdicts, and how it is searched.

const entries = [];

function listClaims() {
  const worst = (verdict) => VERDICTS.indexOf(verdict.verdict);
  const ordered = [...verdicts].sort((one, other) => worst(one) - worst(other) || one.claim - other.claim);
  for (const verdict of ordered) entries.push(claimEntry(verdict));
  byId("claims").append(...entries.map(({ element }) => element));
  const counted = VERDICTS.filter((word) => sums[word] !== undefined);
  byId("sums").append(...counted.map(sumButton));
  const meter = counted.filter((word) => sums[word]).map(meterPart);
  byId("meter").append(...meter);
  byId("meter").setAttribute("aria-label", counted.map((word) => `${sums[word]} ${word}`).join(", "));
}

function claimEntry({ claim, name, text, verdict }) {
  const said = [name !== undefined && html("b", { dir: "auto" }, shown(name)), html("span", { class: "words" }, text)];
  const attributes = { role: "option", id: `claim-${claim}`, class: verdict, "aria-selected": "false" };
  const inside = [icon(verdict), html("span", { class: "number" }, claim), html("div", {}, said)];
  const element = html("li", { ...attributes, onclick: () => chooseClaim(claim) }, inside);
  return { number: claim, verdict, element, searched: `${claim} ${name || ""} ${text} ${verdict}`.toLowerCase() };
}

// How many claims have a verdict; pressed, only those are listed.
function sumButton(word) {
  const sum = sums[word];
  const press = () => {
    now.verdict = now.verdict === word ? "" : word;
    sift();
  };
  const attributes = { type: "button", class: `sum ${word}`, "data-verdict": word, "aria-pressed": "false", disabled: !sum };
  return html("button", { ...attributes, onclick: press }, icon(word), html("b", {}, sum), ` ${word}`);
}

function meterPart(word) {
  const part = html("span", { class: word });
  part.style.flexGrow = sums[word];
  return part;
}

// Lists the claims that have the chosen verdict and all words of the search.
function sift() {
  const words = now.search.toLowerCase().split(/\s+/).filter(Boolean);
  const fits = (entry) => (!now.verdict || entry.verdict === now.verdict) && words.every((word) => entry.searched.includes(word));
  for (const entry of entries) entry.element.hidden = !fits(entry);
  for (const button of document.querySelectorAll("[data-verdict]")) {
    button.setAttribute("aria-pressed", String(button.dataset.verdict === now.verdict));
  }
  const isSifted = now.verdict || words.length;
  byId("found").textContent = isSifted ? WORDS.found(listed().length) : "";
}
const listed = () => entries.filter(({ element }) => !element.hidden);

// Chooses the claim so many places further in the list.
function chooseNeighbour(by) {
  const list = listed();
  const place = list.findIndex(({ number }) => number === now.claim) + by;
  const entry = list[Math.max(0, Math.min(list.length - 1, place))];
  if (entry) chooseClaim(entry.number);
}

// Marks the chosen claim, and what is pressed beside the graph.
function showClaims() {
  for (const { number, element } of entries) {
    const isChosen = number === now.claim;
    if (isChosen) byId("claims").setAttribute("aria-activedescendant", element.id);
    if (isChosen) element.scrollIntoView({ block: "nearest" });
    if (element.getAttribute("aria-selected") !== String(isChosen)) element.setAttribute("aria-selected", String(isChosen));
  }
  for (const button of document.querySelectorAll("[data-shown]")) {
    button.setAttribute("aria-pressed", String(button.dataset.shown === now.shown));
    button.disabled = button.dataset.shown === "claim" && !now.claim;
  }
}
