"""The page that `verify --as html` writes of a document and of its claims, in a real browser: Debian's Chromium, driven by
Selenium. Where they are missing and can't be installed, what needs them is skipped.

What the scripts show of a run is held against `draw`, which is asked for each moment of it; a script with a wrong rule has to be
seen. What the page is made of is held against the files of page/.
"""
import base64
import hashlib
import html
import json
import pathlib
import re
import sys

import pytest

from chromium import WIDE, Browser
from documents import LONGEST
from harness import TOP, Answer, Program, failing_runs, whole_run
from test_verify import worked_out

sys.path.insert(0, str(TOP / "page"))
import parts  # noqa: E402

# a page without its data, in bytes
MOST_BYTES = 97_000
# the status that `draw` names for what the page says of a task
STATUS = {
    "not started": "Created",
    "waiting": "WaitingForActivation",
    "ready": "WaitingToRun",
    "running": "Running",
    "waits for children": "WaitingForChildrenToComplete",
    "ran": "RanToCompletion",
    "canceled": "Canceled",
    "faulted": "Faulted",
}
# documents whose runs are compared moment by moment, and one with a task of each kind
COMPARED = 10
DRAWN = re.compile(rf"^\s*t_(\w+) \[.*?({'|'.join(sorted(STATUS.values(), key=len, reverse=True))})", re.MULTILINE)
FAILING = {run.name: run.document for run in failing_runs()}
# a claim with several steps, and texts that would leave the data if they could
NAMED = next(iter(FAILING))
HOSTILE = (
    "</script><script>window.hit=1</script>",
    "</pre><img src=x onerror=window.hit=1>",
    "<!--<script>",
    "]]><svg onload=window.hit=1>",
    "\u2028\u2029 line",
    "\u202e turned \u2066",
    "&lt;b&gt;&amp;",
    "@DATA@@SCRIPT@ \\u003c/script>",
    "'\"`${window.hit=1}",
    "\ud7ff\ue000\ufeff\U0010ffff",
)
MORE = "\u001b[31m\r\n</pre></SCRIPT ></pre ><script>window.hit=1</script>"
NAMES = ("__proto__", "constructor", "toString", "hasOwnProperty")
EMPTY = '{"version":1,"tasks":[]}'
NO_DOCUMENTS = {
    "nothing": b"",
    "no-json": b"{",
    "no-tasks": b'{"version":1}',
    "no-utf-8": b"\xff",
    "too-long": EMPTY.ljust(LONGEST + 1).encode(),
}
# what stands in the scripts, and a wrong rule in its place, each of which a run shows
WRONG_RULES = {
    "a body that threw ends well": ("this.carried[id].length?FAULTED:", "this.carried[id].length?RAN:"),
    "a task that is canceled waits on": ("this.change(event,id,CANCELED);", "this.change(event,id,WAITING);"),
    "a WhenAll of a task that faulted runs to its end": ("bad===undefined?RAN:this.status[bad]", "RAN"),
    "a released task runs": ("this.change(event,id,READY);", "this.change(event,id,RUNNING);"),
}
TASKS, SECONDS = 1024, 2.0
FEW_RUNS = ("--runs", "300")


@pytest.fixture(scope="module")
def written(program: Program, tmp_path_factory):
    """Writes the page of a document to a file, and gives its path."""
    folder = tmp_path_factory.mktemp("pages")

    def write(document: dict, name: str) -> pathlib.Path:
        answer = write_page(program, json.dumps(document))
        assert answer.exit in (0, 1), answer.stderr
        return put(folder / f"{name}.html", answer.stdout)

    return write


def write_page(program: Program, document: str | bytes, *words: str) -> Answer:
    return program("verify", "--as", "html", *words, given=document)


def put(path: pathlib.Path, text: str) -> pathlib.Path:
    path.write_text(text, encoding="utf-8")
    return path


def between(text: str, opening: str, closing: str) -> str:
    return text.partition(opening)[2].partition(closing)[0]


def with_policy(text: str) -> str:
    """The page with the checksum of its script, where that was changed."""
    script = between(text, "<script>", "</script>")
    return re.sub(r"script-src '[^']*'", f"script-src '{parts.checksum(script)}'", text, count=1)


# what the page is made of


def test_the_source_is_made_of_the_files_of_page():
    assert pathlib.Path(parts.SOURCE).read_text(encoding="utf-8") == parts.source(), "run page/make"


def test_the_page_is_small_and_names_its_own_script_and_style_alone():
    text = "".join(parts.parts())
    assert len(text.encode()) < MOST_BYTES
    inside = [between(text, f"<{tag}>", f"</{tag}>").encode() for tag in ("script", "style")]
    sums = [base64.b64encode(hashlib.sha256(part).digest()).decode() for part in inside]
    policy = between(text, 'http-equiv="Content-Security-Policy" content="', '"')
    allowed = [f"script-src 'sha256-{sums[0]}'", f"style-src 'sha256-{sums[1]}'"]
    assert policy.split("; ") == ["default-src 'none'", *allowed, "base-uri 'none'", "form-action 'none'"]


@pytest.mark.parametrize("indented", (None, 2), ids=("one-line", "indented"))
def test_the_page_has_the_answer_and_the_data(program: Program, indented: int | None):
    """Which are what the other styles write, and the document's own text, whatever its blanks."""
    document = json.dumps(FAILING[NAMED], indent=indented).replace("\n", "\r\n") + "\r\n"
    page = write_page(program, f"\ufeff{document}")
    assert (page.exit, page.stderr) == (1, "")
    head, middle, tail = parts.parts()
    has_parts = page.stdout.startswith(head) and page.stdout.endswith(tail)
    assert has_parts
    answer, shown = (html.unescape(part) for part in page.stdout[len(head) : -len(tail)].split(middle))
    assert answer == program("verify", given=document).stdout
    verdicts = program("verify", "--as", "json", given=document).stdout
    assert shown == f'{{"document":{document},"verdicts":{verdicts}}}'
    assert json.loads(shown) == {"document": FAILING[NAMED], "verdicts": json.loads(verdicts)}


@pytest.mark.parametrize("kind", NO_DOCUMENTS)
def test_what_is_no_document_has_its_line_and_no_page(program: Program, kind: str):
    given = NO_DOCUMENTS[kind]
    plain = program("verify", given=given)
    assert plain.exit == 3 and plain.stdout.startswith("unreadable: ")
    assert write_page(program, given) == plain


def test_each_claim_holds_or_there_is_none(program: Program):
    document = {"version": 1, "tasks": [{"name": "A", "kind": "root", "body": []}]}
    assert write_page(program, json.dumps({**document, "claims": [{"final": "A", "in": ["RanToCompletion"]}]})).exit == 0
    page = write_page(program, json.dumps(document))
    assert (page.exit, page.stdout.startswith(parts.parts()[0])) == (1, True)


# the states of a run


def shown_states(chromium: Browser, path: pathlib.Path) -> dict:
    """What the page says of each task at each step of each run: by the claim, and then by the step."""
    assert chromium.open(path) == []
    return chromium.ask(
        """
        document.querySelector("[data-shown=all]").click();
        const slider = document.getElementById("slider");
        const boxes = () => [...document.querySelectorAll(".node")].map((box) => box.getAttribute("aria-label").split(", "));
        const at = (step) => {
          slider.value = step;
          slider.dispatchEvent(new Event("input"));
          return Object.fromEntries(boxes().map(([name, words]) => [name, words]));
        };
        const runs = {};
        for (const claim of document.querySelectorAll("#claims > .fails")) {
          claim.click();
          runs[claim.id.slice("claim-".length)] = [...Array(Number(slider.max) + 1).keys()].map(at);
        }
        return runs;
    """
    )


def drawn_states(program: Program, document: dict, run: dict, count: int) -> dict[str, str]:
    """How the tasks stand behind so many events of a run, as `draw` says."""
    journal = "".join(run["journal"].splitlines(keepends=True)[:count])
    kept = {name: member for name, member in document.items() if name not in ("certificate", "times", "ended")}
    moment = {**kept, "claims": [], "start": {"inputs": run["inputs"]}, "journal": journal}
    answer = program("draw", "--as", "dot", given=json.dumps(moment))
    assert answer.exit == 0, answer.stdout
    return dict(DRAWN.findall(answer.stdout))


def verdicts_of(program: Program, document: dict) -> list[dict]:
    return json.loads(program("verify", "--as", "json", given=json.dumps(document)).stdout)["claims"]


def compare_states(program: Program, chromium: Browser, document: dict, path: pathlib.Path) -> tuple[int, int]:
    """How many moments of the document's runs were compared, and of how many the page says otherwise than `draw`."""
    shown = shown_states(chromium, path)
    moments = different = 0
    for verdict in verdicts_of(program, document):
        # (before the first event `draw` has no moment to show)
        for count in range(1, verdict.get("run", {"events": 0})["events"] + 1):
            said = {name: STATUS.get(words) for name, words in shown[str(verdict["claim"])][count].items()}
            moments += 1
            different += said != drawn_states(program, document, verdict["run"], count)
    return moments, different


@pytest.mark.parametrize("name", list(FAILING)[:COMPARED])
def test_the_states_are_those_of_draw(program: Program, chromium: Browser, written, name: str):
    moments, different = compare_states(program, chromium, FAILING[name], written(FAILING[name], name))
    assert moments and not different


@pytest.mark.parametrize("wrong", WRONG_RULES)
def test_a_wrong_rule_is_seen(program: Program, chromium: Browser, written, tmp_path: pathlib.Path, wrong: str):
    old, new = WRONG_RULES[wrong]
    different = 0
    for name in list(FAILING)[:COMPARED]:
        text = written(FAILING[name], name).read_text(encoding="utf-8")
        assert text.count(old) == 1
        path = put(tmp_path / "wrong.html", with_policy(text.replace(old, new)))
        different += compare_states(program, chromium, FAILING[name], path)[1]
        if different:
            return
    pytest.fail("no state differs")


# nothing gets out of the data, and nothing is fetched


def hostile_document() -> dict:
    document = json.loads(json.dumps(FAILING[NAMED]))
    document["claims"] = [{**document["claims"][0], "name": text, "note": f"{text}{MORE}"} for text in HOSTILE]
    document["note"] = "".join(HOSTILE)
    document["tasks"][0]["note"] = "</script ><script>window.hit=1</script>"
    document["tasks"] += [{"name": name, "kind": "root", "body": []} for name in NAMES]
    document["claims"] += [{"never": "__proto__"}, {"final": "constructor", "in": ["Faulted"]}]
    document.pop("journal", None)
    document.pop("start", None)
    return {**document, "version": 3}


def read_back(chromium: Browser):
    return chromium.ask("return JSON.parse(document.getElementById('data').textContent).document")


def test_hostile_texts_stay_texts(chromium: Browser, written):
    document = hostile_document()
    assert chromium.open(written(document, "hostile")) == []
    assert read_back(chromium) == document
    assert chromium.ask("return document.scripts.length") == 1
    fetching = "img, iframe, object, embed, link, a[href], form:not([method=dialog])"
    assert chromium.ask("return document.querySelectorAll(arguments[0]).length", fetching) == 0
    chromium.ask("for (const claim of document.querySelectorAll('#claims li')) claim.click()")
    assert chromium.ask("return window.hit") is None
    listed = chromium.ask("return document.getElementById('claims').textContent")
    assert "\\u202e" in listed and not re.search("[\u2028\u2029\u202a-\u202e\u2066-\u2069]", listed)
    assert chromium.complaints() == []
    assert chromium.ask("return performance.getEntriesByType('resource').length") == 0


def test_a_missing_escape_is_seen_and_runs_nothing(chromium: Browser, written, tmp_path: pathlib.Path):
    document = hostile_document()
    text = written(document, "hostile").read_text(encoding="utf-8")
    raw = text.replace("&lt;/script>&lt;script>", "</script><script>").replace("&lt;/pre>", "</pre>").replace("&lt;img", "<img")
    assert raw != text
    assert chromium.open(put(tmp_path / "raw.html", raw)) != []
    # (the policy alone keeps the script from being run)
    assert chromium.ask("return window.hit") is None
    assert chromium.ask("return document.scripts.length") > 1


# what is said of claims


def lines_below(text: str) -> dict[int, list[str]]:
    """The lines of the text that belong to the line of each claim, by its number."""
    found: dict[int, list[str]] = {}
    for line in text.splitlines()[:-1]:
        if line.startswith("claim "):
            found[int(line.split()[1])] = []
        else:
            found[max(found)].append(line.strip())
    return found


def told_words(program: Program, chromium: Browser, document: str, path: pathlib.Path) -> set[str]:
    """The verdicts of the document's claims. Of each that is empty or unknown the page has the lines of the program."""
    assert chromium.open(put(path, write_page(program, document, *FEW_RUNS).stdout)) == []
    below = lines_below(program("verify", *FEW_RUNS, given=document).stdout)
    verdicts = json.loads(program("verify", *FEW_RUNS, "--as", "json", given=document).stdout)["claims"]
    for verdict in verdicts:
        chromium.ask("document.getElementById(arguments[0]).click()", f"claim-{verdict['claim']}")
        paragraphs = chromium.ask("return [...document.querySelectorAll('#details > p')].map((said) => said.textContent)")
        told = [line for line in below[verdict["claim"]] if line in paragraphs]
        assert told == (below[verdict["claim"]] if verdict["verdict"] in ("empty", "unknown") else [])
    assert chromium.complaints() == []
    return {verdict["verdict"] for verdict in verdicts}


def test_what_is_wrong_with_a_claim_is_told_in_the_words_of_the_program(program: Program, chromium: Browser, tmp_path):
    has_unknown = next(case for case in worked_out() if "unknown" in case.values[1])
    cases = (*worked_out("says"), has_unknown)
    words = [told_words(program, chromium, case.values[0], tmp_path / f"{case.id}.html") for case in cases]
    assert set().union(*words) == {"holds", "fails", "empty", "unknown"}


@pytest.mark.parametrize("name", list(FAILING)[:COMPARED])
def test_how_a_run_came_to_it_is_told_in_the_words_of_the_program(program: Program, chromium: Browser, written, name: str):
    assert chromium.open(written(FAILING[name], name)) == []
    for verdict in verdicts_of(program, FAILING[name]):
        chromium.ask("document.getElementById(arguments[0]).click()", f"claim-{verdict['claim']}")
        told = chromium.ask("return [...document.querySelectorAll('.causes li')].map((cause) => cause.textContent)")
        assert told == [f"{cause['event']} {cause['says']}" for cause in verdict.get("causes", [])]


# claims of version 1, whose leaves have rows: for each its cases, and what follows in each
WITH_ROWS = {
    "version": 1,
    "inputs": ["full"],
    "tasks": [
        {"name": "Pick", "kind": "root", "body": [{"if": "full", "then": [{"start": "All"}], "else": [{"start": "Some"}]}]},
        {"name": "All", "kind": "child", "body": []},
        {"name": "Some", "kind": "child", "body": []},
        {"name": "Load", "kind": "root", "body": [{"work": "load", "may_fail": True}]},
        {"name": "Save", "kind": "then", "after": "Load", "body": [], "options": ["NotOnFaulted"]},
        {"name": "Lost", "kind": "root", "body": [{"throw": "lost"}]},
        {"name": "Both", "kind": "all", "of": ["Lost"]},
        {"name": "Told", "kind": "then", "after": "Both", "body": ["observe"]},
    ],
}
ROWS_SAY = [
    (
        {"excludes": ["All", "Some"]},
        [("full is true", ["All may end ran", "Some never begins"]), ("full is false", ["All never begins", "Some may end ran"])],
    ),
    ({"after": ["Load", "Save"]}, [("", ["Load is settled when Save begins"])]),
    ({"final": "Load", "in": ["RanToCompletion", "Faulted"]}, [("", ["Load may end ran or faulted"])]),
    ({"observed": "Lost"}, [("", ["Told reads the exception of Lost"])]),
]
# claims of version 3, whose leaves have none
WITHOUT_ROWS = {
    "version": 3,
    "tasks": [
        {"name": "Load", "kind": "root", "body": [{"work": "load", "may_fail": True}]},
        {"name": "Yes", "kind": "then", "after": "Load", "body": [], "options": ["OnlyOnRanToCompletion"]},
        {"name": "No", "kind": "then", "after": "Load", "body": [], "options": ["OnlyOnFaulted"]},
    ],
}
SPLITS_SAY = [
    (
        {"excludes": ["Yes", "No"]},
        [(f"Load ends {end} or not at all", []) for end in ("ran", "canceled", "faulted")],
    ),
    ({"after": ["Load", "No"]}, []),
    ({"never": "Yes"}, []),
]


@pytest.mark.parametrize("bare, says", [(WITH_ROWS, ROWS_SAY), (WITHOUT_ROWS, SPLITS_SAY)], ids=("rows", "no-rows"))
def test_the_cases_of_a_certificate_are_shown(chromium: Browser, written, bare: dict, says: list):
    """Where a claim holds: what each leaf of its tree assumes, and what its rows say of the claim's tasks."""
    document = {**bare, "claims": [claim for claim, _ in says]}
    assert chromium.open(written(document, f"cases-{bare['version']}")) == []
    shown = []
    for number in range(1, len(says) + 1):
        chromium.ask("document.getElementById(arguments[0]).click()", f"claim-{number}")
        cases = chromium.ask(
            """
            const own = (item) => [...item.childNodes].filter((node) => node.tagName !== "UL").map((node) => node.textContent);
            const listed = (item) => [...item.querySelectorAll("li")].map((said) => said.textContent);
            return [...document.querySelectorAll(".cases > li")].map((item) => [own(item).join(""), listed(item)]);
        """
        )
        shown.append([(where, rows) for where, rows in cases])
    assert shown == [cases for _, cases in says]
    assert chromium.complaints() == []


# how it is used


@pytest.fixture
def opened(chromium: Browser, written) -> Browser:
    """The browser with a page of a claim that fails, some that hold, and one with a name."""
    document = json.loads(json.dumps(FAILING[NAMED]))
    first = document["tasks"][0]["name"]
    document["claims"] += [{"final": first, "in": list(STATUS.values())[-3:]}, {"never": first, "name": "never begun"}]
    assert chromium.open(written({**document, "version": 3}, "used")) == []
    return chromium


def chosen(chromium: Browser) -> tuple[str, int]:
    claim = chromium.ask("return document.querySelector('#claims [aria-selected=true]').id")
    return claim, chromium.ask("return Number(document.getElementById('slider').value)")


def listed(chromium: Browser) -> list[str]:
    claims = "[...document.querySelectorAll('#claims li')]"
    return chromium.ask(f"return {claims}.filter((claim) => !claim.hidden).map((claim) => claim.id)")


def test_keys_go_through_the_run_and_the_claims(opened: Browser):
    from selenium.webdriver.common.keys import Keys

    claim, last = chosen(opened)
    assert claim == listed(opened)[0] and last > 2
    for key, step in ((Keys.ARROW_LEFT, last - 1), (Keys.HOME, 0), (Keys.ARROW_RIGHT, 1), (Keys.END, last)):
        opened.press(key)
        assert chosen(opened) == (claim, step)
    opened.press(Keys.ARROW_LEFT, holding=Keys.SHIFT)
    causes = opened.ask("return [...document.querySelectorAll('.causes li')].map((cause) => Number(cause.dataset.event))")
    assert chosen(opened)[1] == max(cause for cause in causes if cause < last)
    opened.press("j")
    assert chosen(opened)[0] == listed(opened)[1]
    opened.press("k")
    assert chosen(opened) == (claim, last)
    shown = [opened.ask("return document.querySelector('[data-shown][aria-pressed=true]').dataset.shown")]
    for _ in range(3):
        opened.press("g")
        shown.append(opened.ask("return document.querySelector('[data-shown][aria-pressed=true]').dataset.shown"))
    assert shown == ["all", "grouped", "claim", "all"]
    assert opened.complaints() == []


def test_an_address_leads_to_a_claim_and_a_step(opened: Browser, written):
    path = pathlib.Path(opened.ask("return location.pathname"))
    claim, last = chosen(opened)
    number = claim.removeprefix("claim-")
    assert opened.ask("return location.hash") == f"#claim={number}&step={last}"
    assert opened.open(path, f"#claim={number}&step=2") == []
    assert chosen(opened) == (claim, 2)
    assert opened.open(path, "#claim=2") == []
    assert chosen(opened)[0] == "claim-2"
    for nonsense in ("#claim=99&step=1", "#step=x", "#claim=__proto__", "#%"):
        assert opened.open(path, nonsense) == []
        assert chosen(opened) == (claim, last)


def test_in_a_frame_it_comes_up_too(chromium: Browser, written, tmp_path: pathlib.Path):
    """Of a page that lets it run its scripts, and no more."""
    page = written(FAILING[NAMED], "framed").read_text(encoding="utf-8")
    frame = f'<!doctype html><title>frame</title><iframe sandbox="allow-scripts" srcdoc="{html.escape(page)}"></iframe>'
    assert chromium.open(put(tmp_path / "frame.html", frame)) == []
    chromium.driver.switch_to.frame(0)
    try:
        assert listed(chromium) == ["claim-1"]
        claim, last = chosen(chromium)
        chromium.ask("document.getElementById('first').click()")
        assert chosen(chromium) == (claim, 0) and last > 0
    finally:
        chromium.driver.switch_to.default_content()
    assert chromium.complaints() == []


def test_the_list_is_searched_and_sifted(opened: Browser):
    from selenium.webdriver.common.keys import Keys

    opened.press("/", "never begun")
    assert listed(opened) == ["claim-3"]
    opened.press(Keys.ENTER)
    assert chosen(opened)[0] == "claim-3"
    opened.press("/", Keys.ESCAPE)
    assert len(listed(opened)) == 3
    opened.ask("document.querySelector('.sum.empty').click()")
    assert listed(opened) == ["claim-2"]


# who sees it how


def test_each_control_has_a_name_and_each_step_is_said(opened: Browser):
    controls = {"button", "slider", "searchbox", "listbox", "option", "region", "navigation", "main", "complementary", "group"}
    roles = opened.accessible()
    assert [role for role, name in roles if role in {*controls, "dialog"} and not name] == []
    assert controls <= {role for role, _ in roles}
    _, last = chosen(opened)
    opened.ask("document.getElementById('previous').click()")
    said = opened.ask("return document.getElementById('live').textContent")
    assert said.startswith(f"{last - 1} of {last}: ")
    assert opened.ask("return document.getElementById('slider').getAttribute('aria-valuetext')") == said


CONTRAST = """
    const canvas = document.createElement("canvas").getContext("2d", { willReadFrequently: true });
    const rgb = (colour) => {
      canvas.clearRect(0, 0, 1, 1);
      canvas.fillStyle = colour;
      canvas.fillRect(0, 0, 1, 1);
      return [...canvas.getImageData(0, 0, 1, 1).data];
    };
    const behind = (element) => {
      for (let at = element; at; at = at.parentElement) {
        const colour = rgb(getComputedStyle(at).backgroundColor);
        if (colour[3] === 255) return colour;
      }
      return [255, 255, 255, 255];
    };
    const card = (element) => element.closest(".node")?.querySelector(".card:not(.under)");
    const texts = [...document.querySelectorAll("body *")].filter((element) =>
      [...element.childNodes].some((node) => node.nodeType === 3 && node.data.trim()) &&
      element.checkVisibility({ opacityProperty: true, visibilityProperty: true }) &&
      !element.closest("button:disabled, title, script, style"));
    return texts.map((element) => {
      const style = getComputedStyle(element);
      const on = card(element) ? rgb(getComputedStyle(card(element)).fill) : behind(element);
      return [element.className.baseVal ?? element.className, rgb(element.ownerSVGElement ? style.fill : style.color), on];
    });
"""


def luminance(colour: list[int]) -> float:
    parts_ = [value / 255 for value in colour[:3]]
    red, green, blue = (value / 12.92 if value <= 0.04045 else ((value + 0.055) / 1.055) ** 2.4 for value in parts_)
    return 0.2126 * red + 0.7152 * green + 0.0722 * blue


def contrast(one: list[int], other: list[int]) -> float:
    """As the Web Content Accessibility Guidelines define it: from 1 to 21; text needs 4.5."""
    dark, light = sorted((luminance(one), luminance(other)))
    return (light + 0.05) / (dark + 0.05)


@pytest.mark.parametrize("theme", ("light", "dark"))
def test_texts_can_be_read(chromium: Browser, written, theme: str):
    # (colours don't change by and by)
    chromium.emulate(prefers_color_scheme=theme, prefers_reduced_motion="reduce")
    try:
        assert chromium.open(written(FAILING[NAMED], "contrast")) == []
        assert chromium.ask("return document.documentElement.dataset.theme") == theme
        texts = chromium.ask(CONTRAST)
        assert len(texts) > 50
        assert [name for name, ink, ground in texts if contrast(ink, ground) < 4.5] == []
    finally:
        chromium.emulate()


def test_a_narrow_screen_shows_it_all_in_one_column(chromium: Browser, written):
    chromium.resize(420, 900)
    try:
        assert chromium.open(written(FAILING[NAMED], "narrow")) == []
        assert chromium.ask("return document.documentElement.scrollWidth") <= 420
        ids = "['list', 'graph', 'run', 'side']"
        tops = chromium.ask(f"return {ids}.map((id) => document.getElementById(id).getBoundingClientRect().top)")
        assert tops == sorted(tops) and len(set(tops)) == 4
    finally:
        chromium.resize(*WIDE)


def test_without_scripts_the_answer_is_there(program: Program, chromium: Browser, written):
    path = written(FAILING[NAMED], "silent")
    chromium.allow_scripts(False)
    try:
        chromium.open(path)
        chromium.picture(path.with_suffix(".png"))
    finally:
        chromium.allow_scripts(True)
    shown = chromium.ask(
        """
        const display = (id) => getComputedStyle(document.getElementById(id)).display;
        return ["text", "app", "data"].map((id) => display(id) !== "none");
    """
    )
    assert shown == [True, False, False]
    text = chromium.ask("return document.getElementById('text').textContent")
    assert text == program("verify", given=json.dumps(FAILING[NAMED])).stdout


def test_each_failing_claim_is_printed_with_its_picture(chromium: Browser, written):
    document = json.loads(json.dumps(FAILING[NAMED]))
    document["claims"] = document["claims"] * 3
    assert chromium.open(written(document, "printed")) == []
    before = chosen(chromium)
    chromium.ask("dispatchEvent(new Event('beforeprint'))")
    count = "return document.querySelectorAll(arguments[0]).length"
    assert chromium.ask(count, "#printed section svg[viewBox] .node.subject") >= 3
    assert chromium.ask(count, "#printed section") == 3
    chromium.ask("dispatchEvent(new Event('afterprint'))")
    assert chromium.ask(count, "#printed section") == 0 and chosen(chromium) == before
    sheets = re.findall(rb"/Type\s*/Page\b", chromium.printed())
    assert 2 <= len(sheets) <= 12
    assert chromium.complaints() == []


# a large document


def tree_of(count: int) -> list[dict]:
    """So many tasks, of which each but the first continues the one of half its number: none has more than ten before it."""
    root: dict = {"name": "Task0", "kind": "root", "body": [{"work": "first"}]}
    then: dict = {"kind": "then", "body": [], "options": ["OnlyOnRanToCompletion"]}
    return [root, *({"name": f"Task{place}", "after": f"Task{(place - 1) // 2}", **then} for place in range(1, count))]


def told(place: int, journal: str) -> dict:
    """What `verify` could say of the claim that a task never begins. Of early tasks it fails, and of a few late ones, whose runs
    are long."""
    said = {"claim": place + 1, "text": f"Task{place} never begins"}
    if place < 64 or place % 100 == 0:
        last = journal.count("\n")
        causes = [{"event": last, "led_to": last, "says": f"Task{place} begins"}]
        run = {"events": last, "inputs": {}, "journal": journal}
        return {**said, "verdict": "fails", "causes": causes, "run": run}
    return {**said, "verdict": "holds", "splits": 0}


def test_many_tasks_and_claims_open_soon(program: Program, chromium: Browser, tmp_path: pathlib.Path):
    document = {"version": 3, "tasks": tree_of(TASKS), "claims": [{"never": f"Task{place}"} for place in range(TASKS)]}
    ran, _ = whole_run(program, {**document, "claims": [], "start": {"inputs": {}}}, 1)
    lines = ran["journal"].splitlines(keepends=True)
    begun = {line.split()[2]: place for place, line in enumerate(lines, 1) if " begin " in line}
    claims = [told(place, "".join(lines[: begun[f"Task{place}"]])) for place in range(TASKS)]
    failing = sum(claim["verdict"] == "fails" for claim in claims)
    sums = {"claims": TASKS, "empty": 0, "fails": failing, "holds": TASKS - failing, "unknown": 0}
    shown = json.dumps({"document": document, "verdicts": {"claims": claims, "sums": sums}})
    head, middle, tail = parts.parts()
    path = put(tmp_path / "large.html", head + middle + html.escape(shown, quote=False) + tail)
    chromium.driver.execute_cdp_cmd("Performance.enable", {"timeDomain": "threadTicks"})
    assert chromium.open(path) == []
    metrics = {
        metric["name"]: metric["value"] for metric in chromium.driver.execute_cdp_cmd("Performance.getMetrics", {})["metrics"]
    }
    assert len(listed(chromium)) == TASKS
    assert metrics["TaskDuration"] < SECONDS
