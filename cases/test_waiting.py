"""Documents of version 4, whose bodies wait: what is read of them (refusals.py) and what their runs are (machine.py, audited.py),
by models that are written from the rules alone.

The program has no part in this. The rows of version4/ were worked out by hand; each mistake that is planted in a model is found
by one of them. What the cases say of documents of versions 1 to 3 is said by the models too. The methods of methods/ stand there
in C# too; test_methods.py runs that.
"""
import json
import random
import re

import pytest

import every_run
import reader_mistakes
import run_mistakes
from audited import Played, audit
from bodies import Started
from drawn_waiting import Waiting
from every_run import TooManyStates, Truth
from harness import HERE, Case, all_cases, cases_of
from machine import Machine
from refusals import Reading
from small import body_of, statements_of
from sound import KINDS
from waiting import Runs, outcomes, stuck, told

METHODS = HERE / "methods"
# how many outcomes the runs of each document have
COUNTS = {
    "Canceled": 22,
    "Early": 9,
    "Exists": 6,
    "Handle": 3,
    "Nested": 9,
    "Retry": 7,
    "Seq": 3,
    "Show": 15,
    "Timeout": 31,
    "Using": 6,
}


def method(name: str) -> dict:
    return json.loads((METHODS / f"{name}.json").read_text(encoding="utf-8"))


def test_each_method_has_a_count():
    assert {path.stem for path in METHODS.glob("*.json")} == set(COUNTS)


@pytest.mark.parametrize("name", COUNTS)
def test_outcomes_of_a_method(name: str):
    """They are what was seen of the method in C#, and of Timeout four more, which were worked out by hand."""
    lines = (METHODS / f"{name}.txt").read_text(encoding="utf-8").splitlines()
    assert len(lines) == COUNTS[name]
    assert sorted(map(told, outcomes(method(name)))) == sorted(lines)


def seen(*events: str, unread: tuple[str, ...] = ()):
    return events, unread


def test_outcomes_of_two_calls():
    """Worked out by hand: the second call is made if the first one ends well."""
    ran = "call Load", "end Load RanToCompletion", "call Save"
    assert outcomes(method("Seq")) == {
        seen("call Load", "end Load Faulted", "end M Faulted"),
        seen(*ran, "end Save Faulted", "end M Faulted"),
        seen(*ran, "end Save RanToCompletion", "end M RanToCompletion"),
    }


def test_outcomes_of_a_handler():
    """Worked out by hand: whatever fails is logged, and the end is the same."""
    ran, log = ("call Load", "end Load RanToCompletion", "call Save"), "do log done"
    end = "do close done", "end M RanToCompletion"
    assert outcomes(method("Handle")) == {
        seen("call Load", "end Load Faulted", log, *end),
        seen(*ran, "end Save Faulted", log, *end),
        seen(*ran, "end Save RanToCompletion", *end),
    }


def test_outcomes_of_a_call_that_nobody_awaits():
    """Worked out by hand: the method may end before the call does, and its exception stays unread."""
    child = {"name": "Load", "kind": "child", "async": True, "body": [{"work": "load", "may_fail": True}]}
    document = {"version": 4, "tasks": [{"name": "M", "kind": "root", "async": True, "body": [{"start": "Load"}]}, child]}
    failed, end = "end Load Faulted", "end M RanToCompletion"
    assert outcomes(document) == {
        seen("call Load", "end Load RanToCompletion", end),
        seen("call Load", end, "end Load RanToCompletion"),
        seen("call Load", failed, end, unread=("Load",)),
        seen("call Load", end, failed, unread=("Load",)),
    }


def finds(cases: tuple[Case, ...]) -> list:
    """Each row with each of the mistakes that it finds."""
    return [pytest.param(case, mistake, id=f"{mistake}-{case}") for case in cases for mistake in case.finds]


def found(cases: tuple[Case, ...]) -> set[str]:
    return {mistake for case in cases for mistake in case.finds}


# ---- what is read

READ = cases_of("version4/reading")


def read_with(case: Case, started: type[Started] = Started) -> str:
    """What is said of a document without a certificate, by rules with these of what is surely started."""
    document = json.loads(case.stdin)
    fault = Reading(document, started).fault()
    return f"unreadable: {fault}\n" if fault else "refused: shape claim 1\n" if document.get("claims") else "accepted\n"


@pytest.mark.parametrize("case", READ, ids=str)
def test_what_is_read(case: Case):
    assert read_with(case) == case.stdout


@pytest.mark.parametrize("case, mistake", finds(READ))
def test_a_mistake_of_a_reader_is_found(case: Case, mistake: str):
    assert read_with(case, reader_mistakes.MISTAKES[mistake]) != case.stdout


def test_each_mistake_of_a_reader_is_found_by_a_row():
    assert found(READ) == set(reader_mistakes.MISTAKES)


def cases_of_version_3() -> list[Case]:
    """Those in which a document of version 3 is asked."""
    is_new = re.compile(rb'\s*\{\s*"version": *3,').match
    asked = [case for case in all_cases() if is_new(case.stdin) and "--each" not in case.words and case.stdout]
    return [case for case in asked if not re.match("unreadable: (not JSON|too long)", case.stdout or "")]


@pytest.mark.parametrize("version", [3, 4])
def test_what_was_worked_out_of_version_3(version: int):
    """What the cases say of documents of version 3 is said by this model too, and of the same documents as version 4."""
    cases = cases_of_version_3()
    assert len(cases) > 400
    for case in cases:
        told = re.match("unreadable: ((?:shape|graph|claim|certificate|start) (?!Missing).+)\n", case.stdout or "")
        fault = Reading({**json.loads(case.stdin), "version": version}).fault()
        assert fault == (told and told[1]), str(case)


def test_a_try_is_read_in_one_order():
    """Its list, then what catches cancellations, then the catch and the finally, in whatever order they stand."""
    said = {"finally": [{"work": "d"}], "catch": [{"work": "c"}], "try": [{"work": "a"}], "catch_canceled": [{"work": "b"}]}
    assert [statement[1] for statement in statements_of(body_of([said])) if statement[0] == "work"] == [*"abcd"]


# ---- which journals are runs

RUN = cases_of("version4/runs")


def audit_with(case: Case, kind: type) -> str:
    """What is written of a journal by a machine, or by workers, of this kind."""
    document = json.loads(case.stdin)
    if issubclass(kind, Machine):
        return audit(document, kind)
    assert issubclass(kind, Played)
    return audit(document, played=kind)


@pytest.mark.parametrize("case", RUN, ids=str)
def test_what_is_a_run(case: Case):
    assert audit_with(case, Machine) == case.stdout


@pytest.mark.parametrize("case, mistake", finds(RUN))
def test_a_mistake_about_runs_is_found(case: Case, mistake: str):
    assert audit_with(case, run_mistakes.MISTAKES[mistake]) != case.stdout


def test_each_mistake_about_runs_is_found_by_a_row():
    assert found(RUN) == set(run_mistakes.MISTAKES)


# how many tasks a document has at most that is audited here
FEW = 20


def test_journals_of_older_versions():
    """What the cases say of journals of versions 1 to 3 is said by this model of the same documents as version 4, but for line
    breaks that versions 1 and 2 don't take."""
    audited = 0
    for case in all_cases():
        is_line = re.match(r"run |not allowed|unreadable: journal", case.stdout or "")
        document = json.loads(case.stdin) if case.words == ("audit",) and is_line else {"tasks": []}
        if 0 < len(document["tasks"]) <= FEW and not (document["version"] < 3 and "\r" in document.get("journal", "")):
            assert audit({**document, "version": 4}) == case.stdout, str(case)
            audited += 1
    assert audited > 100


# ---- all runs of small graphs

# how many graphs are drawn, and of how many states they may have
DRAWN, STATES = 50, 4000


@pytest.mark.drawn(DRAWN)
def test_no_run_gets_stuck(number: int):
    try:
        assert stuck(Waiting(number).read(), STATES) == []
    except TooManyStates:
        pytest.skip("too many states")


def root(name: str, *body, **more) -> dict:
    return {"name": name, "kind": "root", "async": True, "body": [*body], **more}


def child(name: str, *body) -> dict:
    return {**root(name, *body), "kind": "child"}


# bodies that wait for what may not have been started, which the reader refuses
STUCK = {
    "itself": [root("A", {"await": "A"})],
    "a child that is never started": [root("A", "return", {"start": "C"}), child("C"), root("B", {"await": "C"})],
    "a child that may not be started": [root("A", {"if": "i", "then": [{"start": "C"}]}, {"await": "C"}), child("C")],
    "each other": [root("A", {"await": "B"}), root("B", {"await": "A"})],
    "its parent, which waits for it": [root("A", {"start": "C"}, {"await": "C"}), child("C", {"wait": "A"})],
    "a child that the handler starts": [root("A", {"try": [], "catch": [{"start": "C"}]}, {"await_any": ["C"]}), child("C")],
}


@pytest.mark.parametrize("what", STUCK)
def test_what_is_refused_gets_stuck(what: str):
    document = {"version": 4, "inputs": ["i"], "tasks": STUCK[what]}
    fault = Reading(document).fault() or ""
    assert fault.startswith("graph NotStarted")
    assert stuck(document, STATES)


# how many graphs of version 3 are drawn
OLDER = 15


@pytest.mark.drawn(OLDER)
def test_runs_of_version_3(number: int):
    """The runs of a document of version 3 are the same in version 4."""
    document = KINDS[number % len(KINDS)](random.Random(number), 2, 5).document()
    try:
        older, newer = (Truth(document, STATES, kind) for kind in (every_run.Runs, Runs))
    except TooManyStates:
        pytest.skip("too many states")
    for one, other in zip(older.all, newer.all):
        assert (one.facts, one.begins) == (other.facts, other.begins)


def claims(name: str) -> list:
    """Claims about a method, worked out by hand: those that hold in all of its runs, and those that don't."""
    found: list = []
    for is_true, said in ((True, TRUE[name]), (False, FALSE[name])):
        found += [pytest.param(name, claim, is_true, id=f"{name}-{json.dumps(claim)}") for claim in said]
    return found


BEGUN, LATER, LATE = {"given": [{"begins": "Load"}]}, {"given": [{"begins": "Save"}]}, ["RanToCompletion", "Canceled"]
TRUE: dict[str, list[dict]] = {
    "Using": [
        {**BEGUN, "runs": "Dispose"},
        {"given": ["no_failure"], "runs": "Send"},
        {"given": [{"ended": "Load", "in": ["Faulted"]}], "never": "Send"},
        {"after": ["Dispose", "Send"]},
        *({"observed": name} for name in ("Open", "Load", "Dispose", "Send")),
    ],
    "Canceled": [
        {"given": [{"begins": "Save"}, {"succeeds": "j_Load"}], "final": "Load", "in": LATE},
        {"given": ["no_request"], "final": "Load", "in": ["RanToCompletion", "Faulted"]},
        {"final": "M", "in": ["RanToCompletion", "Faulted"]},
        {"observed": "Load"},
    ],
    "Timeout": [{"observed": "Save"}, {"given": ["no_failure"], "observed": "Load"}, {"after": ["Load", "Save"]}],
    "Early": [
        {"runs": "Close"},
        {"given": [{"ended": "Close", "in": ["Faulted"]}], "never": "Send"},
        {"after": ["Close", "Send"]},
    ],
    "Nested": [{"given": [{"succeeds": "j_A"}, {"succeeds": "j_B"}, {"succeeds": "j_C"}], "never": "D"}, {"after": ["B", "D"]}],
}
FALSE: dict[str, list[dict]] = {
    "Using": [{"runs": "Dispose"}, {"never": "Send"}, {"observed": "M"}, {"given": [{"never": "Dispose"}], "never": "Load"}],
    "Canceled": [{"given": ["no_failure"], "final": "Load", "in": ["RanToCompletion"]}, {**LATER, "final": "Load", "in": LATE}],
    "Timeout": [{"observed": "Load"}, {"after": ["Delay", "Save"]}, {"given": ["no_failure"], "runs": "Save"}],
    "Early": [{"given": ["no_failure"], "runs": "Send"}, {"excludes": ["Send", "Close"]}],
    "Nested": [{"never": "D"}, {"excludes": ["C", "D"]}, {"given": [{"succeeds": "j_A"}], "runs": "C"}],
}


@pytest.mark.parametrize("name, claim, is_true", [case for name in TRUE for case in claims(name)])
def test_claims_hold_or_fail(name: str, claim: dict, is_true: bool):
    assert Truth(method(name), STATES, Runs).holds(claim) == is_true
