"""The page that `audit --as html` writes of a recorded run, in a real browser, as `test_verdict_page.py` has it for the page of
verdicts. What the audit found is held against the lines of `audit` and the pictures of `draw`; what is made of it on the page
against rules that are read here once more.
"""
import html
import json
import pathlib

import pytest

from chromium import Browser
from harness import Answer, Program, failing_runs
from test_verdict_page import DRAWN, STATUS, parts, put, write_page

FAILING = {run.name: run for run in failing_runs()}
# examples whose runs are compared moment by moment
COMPARED = 10
ROOT = {"name": "A", "kind": "root", "body": [{"work": "w", "may_fail": True}]}
THEN = {"name": "B", "kind": "then", "after": "A", "body": []}
RUN = ("w1 begin A", "w1 worked A done", "w1 leave A", "w1 release B", "w2 begin B", "w2 leave B")
TIMES = (5, 1_205, 5_305, 5_405, 9_005, 9_005)
# a run that goes on behind where its third claim fails
DOCUMENT: dict = {
    "version": 3,
    "tasks": [ROOT, THEN],
    "claims": [{"final": "A", "in": ["RanToCompletion"]}, {"never": "B", "name": "no second"}, {"never": "A"}],
}
FIRST_FAILS = "claim 3 fails at 1"


def journal_of(*lines: str) -> str:
    return "".join(f"{line}\n" for line in lines)


def audit_page(program: Program, document: dict, *words: str) -> Answer:
    return program("audit", "--as", "html", *words, given=json.dumps(document))


def lines_of(program: Program, document: dict) -> list[str]:
    return program("audit", given=json.dumps(document)).stdout.splitlines()


def data_in(page: str) -> tuple[str, dict]:
    """The lines that the page has for a browser without scripts, and the data that its scripts show."""
    head, middle, tail = parts.parts()
    assert page.startswith(head) and page.endswith(tail)
    answer, shown = (html.unescape(part) for part in page[len(head) : -len(tail)].split(middle))
    return answer, json.loads(shown)


@pytest.fixture
def show(program: Program, chromium: Browser, tmp_path: pathlib.Path):
    """Opens the page of a document's audit, and gives what the audit found."""

    def opened(document: dict) -> dict:
        page = audit_page(program, document)
        assert page.exit in (0, 1), page.stdout
        assert chromium.open(put(tmp_path / "audit.html", page.stdout)) == []
        return data_in(page.stdout)[1]["audit"]

    return opened


def told(browser: Browser) -> list[str]:
    return browser.ask("return [...document.querySelectorAll('#details p')].map((said) => said.textContent)")


def ends_shown(browser: Browser) -> dict[str, str]:
    """How the page says that each task ended, by its name."""
    found = browser.ask(
        """
        const lines = [...document.querySelectorAll("#details [data-status]")];
        const names = (line) => [...line.querySelectorAll(".task")].map((task) => task.textContent);
        return lines.map((line) => [line.dataset.status, names(line)]);
    """
    )
    return {name: status for status, names in found for name in names}


# what is written


@pytest.mark.parametrize("name", FAILING)
def test_the_page_has_the_lines_and_the_first_failure(program: Program, name: str):
    document, place = FAILING[name].document, FAILING[name].place
    plain = program("audit", given=json.dumps(document))
    page = audit_page(program, document)
    assert page.exit == plain.exit == 1
    answer, data = data_in(page.stdout)
    assert answer == plain.stdout
    assert data["document"] == document
    found = data["audit"]
    assert found["fails"] == {"claim": 1, "place": place} and found["other_end"] is None
    assert found["complete"] == plain.stdout.startswith("run complete\n")
    assert len(found["ends"]) == len(document["tasks"]) and len(found["claims"]) == 1


def test_the_text_of_the_document_is_kept(program: Program):
    text = f" {json.dumps({**DOCUMENT, 'journal': journal_of(*RUN)}, indent=1)}\r\n"
    page = program("audit", "--as", "html", given=f"\ufeff{text}")
    head, middle, tail = parts.parts()
    shown = html.unescape(page.stdout[len(head) : -len(tail)].split(middle)[1])
    assert shown.startswith(f'{{"document":{text},"audit":{{"claims":[')


@pytest.mark.parametrize("journal", ("w1 begin X\n", "w1 begin A", "begin A\n"))
def test_a_journal_that_is_none_has_its_line_and_no_page(program: Program, journal: str):
    document = {**DOCUMENT, "journal": journal}
    plain = program("audit", given=json.dumps(document))
    assert plain.exit == 3 and plain.stdout == "unreadable: journal line 1\n"
    assert audit_page(program, document) == plain


@pytest.mark.parametrize("given", (b"", b"{", b'{"version":1}', b"\xff"), ids=("nothing", "no-json", "no-tasks", "no-utf-8"))
def test_what_is_no_document_has_its_line_and_no_page(program: Program, given: bytes):
    plain = program("audit", given=given)
    assert plain.exit == 3 and plain.stdout.startswith("unreadable: ")
    assert program("audit", "--as", "html", given=given) == plain


def test_inputs_without_values_have_their_line_and_no_page(program: Program):
    document = {"version": 3, "inputs": ["dry"], "tasks": [ROOT]}
    plain = program("audit", given=json.dumps(document))
    assert (plain.exit, plain.stdout) == (3, "unreadable: start Missing\n")
    assert audit_page(program, document) == plain


def test_the_text_is_written_as_ever(program: Program):
    given = json.dumps({**DOCUMENT, "journal": journal_of(*RUN)})
    assert program("audit", "--as", "text", given=given) == program("audit", given=given)


def test_a_run_in_which_each_claim_holds(program: Program):
    document = {**DOCUMENT, "claims": DOCUMENT["claims"][:1], "journal": journal_of(*RUN)}
    page = audit_page(program, document)
    assert page.exit == 0
    both = ["RanToCompletion"] * 2
    expected = {"claims": ["A ends RanToCompletion"], "complete": True, "ends": both, "fails": None, "other_end": None}
    assert data_in(page.stdout)[1]["audit"] == expected


def test_a_run_that_ended_otherwise_than_is_said(program: Program):
    document = {**DOCUMENT, "claims": [], "journal": journal_of(*RUN[:3]), "ended": {"B": "Faulted", "A": "RanToCompletion"}}
    page = audit_page(program, document)
    assert page.exit == 1
    found = data_in(page.stdout)[1]["audit"]
    assert found["other_end"] == {"said": "Faulted", "status": "WaitingForActivation", "task": "B"}
    assert (found["complete"], found["ends"]) == (False, ["RanToCompletion", "WaitingForActivation"])


def test_an_event_that_is_not_allowed(program: Program):
    document = {**DOCUMENT, "journal": journal_of(*RUN[:2], RUN[4])}
    page = audit_page(program, document)
    assert page.exit == 1
    claims = ["A ends RanToCompletion", "B never begins", "A never begins"]
    assert data_in(page.stdout)[1]["audit"] == {"claims": claims, "not_allowed": 3}


# what is shown


def test_the_first_claim_that_fails_is_shown_where_it_does(chromium: Browser, show):
    found = show({**DOCUMENT, "journal": journal_of(*RUN)})
    assert found["fails"] == {"claim": 3, "place": 1}
    listed = chromium.ask("return [...document.querySelectorAll('#claims li')].map((claim) => [claim.id, claim.className])")
    assert listed == [["claim-3", "fails"], ["claim-1", "kept"], ["claim-2", "kept"]]
    assert chromium.ask("return location.hash") == "#claim=3&step=1"
    slider = "document.getElementById('slider')"
    assert chromium.ask(f"return [{slider}.value, {slider}.max]") == ["1", "6"]
    assert "The claim fails here" in chromium.ask("return document.getElementById('says').textContent")
    assert chromium.ask("return document.querySelector('.events .fails').previousSibling.dataset.event") == "1"
    assert chromium.ask("return document.title") == f"run complete, {FIRST_FAILS} · taskgraph"
    assert "A begins." in told(chromium)
    chromium.ask("document.getElementById('claim-2').click()")
    assert "It holds up to where claim 3 fails. What comes after that wasn't looked at." in told(chromium)
    assert chromium.ask(f"return {slider}.value") == "6"
    assert chromium.complaints() == []


def test_each_event_is_shown_and_how_each_task_ended(chromium: Browser, show):
    show({**DOCUMENT, "claims": [], "journal": journal_of(*RUN)})
    assert chromium.ask("return document.querySelectorAll('.events li').length") == len(RUN)
    assert ends_shown(chromium) == {"A": "RanToCompletion", "B": "RanToCompletion"}
    assert "The run is complete." in told(chromium)
    assert chromium.ask("return document.querySelectorAll('.fail, .events .fails').length") == 0
    assert chromium.ask("return document.getElementById('slider').value") == str(len(RUN))


@pytest.mark.parametrize("name", list(FAILING)[:COMPARED])
def test_the_states_and_the_ends_are_those_of_draw(program: Program, chromium: Browser, show, name: str):
    document = FAILING[name].document
    count = len(document["journal"].splitlines())
    show(document)
    states = chromium.ask(
        """
        document.querySelector("[data-shown=all]").click();
        const slider = document.getElementById("slider");
        const boxes = () => [...document.querySelectorAll(".node")].map((box) => box.getAttribute("aria-label").split(", "));
        return [...Array(Number(slider.max) + 1).keys()].map((step) => {
          slider.value = step;
          slider.dispatchEvent(new Event("input"));
          return Object.fromEntries(boxes().map(([name, words]) => [name, words]));
        });
    """
    )
    assert len(states) == count + 1
    for step in range(1, count + 1):
        journal = "".join(document["journal"].splitlines(keepends=True)[:step])
        drawn = program("draw", "--as", "dot", given=json.dumps({**document, "claims": [], "journal": journal}))
        assert {box: STATUS.get(words) for box, words in states[step].items()} == dict(DRAWN.findall(drawn.stdout))
        if step == count:
            assert ends_shown(chromium) == dict(DRAWN.findall(drawn.stdout))


def test_an_event_that_is_not_allowed_is_shown(chromium: Browser, show):
    show({**DOCUMENT, "journal": journal_of(*RUN[:2], RUN[4], *RUN[3:])})
    said = told(chromium)
    assert "Event 3 isn't allowed after those before it:" in said and RUN[4] in said
    assert "The journal is no run, so nothing is said of the claim." in said
    assert ends_shown(chromium) == {"A": "Running", "B": "WaitingForActivation"}
    assert chromium.ask("return document.querySelectorAll('.events li').length") == 2


def test_a_document_without_a_journal_is_shown(chromium: Browser, show):
    show(DOCUMENT)
    assert chromium.ask("return document.getElementById('says').textContent").startswith("0 / 0")
    assert ends_shown(chromium) == {"A": "WaitingToRun", "B": "WaitingForActivation"}


# how long things took


def lefts(browser: Browser) -> dict[str, tuple[float, float]]:
    """Where each bar begins and ends, by its task."""
    found = browser.ask(
        """
        const edges = (bar) => [parseFloat(bar.style.left), parseFloat(bar.style.left) + parseFloat(bar.style.width)];
        return [...document.querySelectorAll(".bar")].map((bar) => [bar.textContent, edges(bar)]);
    """
    )
    return {name: (left, right) for name, (left, right) in found}


def test_lanes_are_as_long_as_the_bodies_took(chromium: Browser, show):
    show({**DOCUMENT, "claims": [], "journal": journal_of(*RUN), "times": list(TIMES)})
    bars = lefts(chromium)
    begun, ended = bars["A"]
    scale = (bars["B"][0] - begun) / (TIMES[4] - TIMES[0])
    # (each bar leaves two pixels to the next one)
    assert ended - begun == pytest.approx((TIMES[2] - TIMES[0]) * scale - 2, abs=0.1)
    assert "at 9.005 ms" in chromium.ask("return document.getElementById('says').textContent")
    ticks = chromium.ask("return [...document.querySelectorAll('.axis span')].map((tick) => tick.textContent)")
    assert ticks[0] == "0 µs" and ticks[1] in ("1 ms", "2 ms")
    chromium.ask("document.getElementById('clock').click()")
    by_events = lefts(chromium)
    widths = [right - left + 2 for left, right in by_events.values()]
    assert widths[0] / 3 == pytest.approx(widths[1] / 2, abs=0.1)
    assert chromium.ask("return document.getElementById('clock').getAttribute('aria-pressed')") == "false"
    assert chromium.complaints() == []


def test_without_times_and_for_verdicts_there_is_no_clock(program: Program, chromium: Browser, show, tmp_path):
    show({**DOCUMENT, "journal": journal_of(*RUN)})
    hidden = "return document.getElementById('clock').hidden"
    assert chromium.ask(hidden)
    document = {**DOCUMENT, "journal": journal_of(*RUN), "times": list(TIMES)}
    verdicts = write_page(program, json.dumps(document))
    assert chromium.open(put(tmp_path / "verdicts.html", verdicts.stdout)) == []
    assert chromium.ask(hidden)


def test_a_large_run_opens(chromium: Browser, show):
    """A chain of 200 tasks, as a document has it that was recorded: each with two events, all with their times."""
    count = 200
    root: dict = {"name": "T0", "kind": "root", "body": []}
    tasks = [root, *({"name": f"T{place}", "kind": "then", "after": f"T{place - 1}", "body": []} for place in range(1, count))]
    events = [line for place in range(count) for line in (f"w1 release T{place}", f"w1 begin T{place}", f"w1 leave T{place}")][1:]
    times = [place * 37 for place in range(len(events))]
    found = show({"version": 3, "tasks": tasks, "claims": [], "journal": journal_of(*events), "times": times})
    assert found["complete"] and found["ends"] == ["RanToCompletion"] * count
    assert ends_shown(chromium) == {f"T{place}": "RanToCompletion" for place in range(count)}
