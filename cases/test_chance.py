"""Graphs that are drawn by chance are run, what was run is audited, and so are journals in which one character is another.

Each graph is run by 1 to 16 workers, where inputs, requests and the jobs that fail are drawn too. The report says that the
run is complete. Its journal begins with the requests, in their order, but for a link that is requested by them, and just
the jobs that are to fail have failed. It is a run, in which each task ends as the report says, and just those exceptions
are observed by nobody that the report names. The journal with which `run --whole` writes a document is a run of it too.
Where other ends were seen, `audit` names the first task that has one, as it stands by task_statuses.py. Of a journal with another
character somewhere, `audit` names the first line that is no event, as is read here by the rules of
docs/FORMAT.md; where each line is one, the line that was changed or a later one isn't allowed, or it is a run.
"""
import functools
import json
import random
import re
from typing import NamedTuple

import pytest

from chance import LINK, Wide
from graphs import FINALS
from harness import Answer, Program, whole_run
from task_statuses import statuses

# of the graphs that are run
COUNT, TASKS, WORKERS = 500, (4, 30), 16
# how many of them are written with their run, and of how many it is said how their tasks ended
WHOLE, SEEN = 100, 200
# how many journals are made of each run by another character, and what it may be
CHANGES = 2
CHARACTERS = "wo0123456789 \t+-ABCKTabcdefghiklmnoprstuvwxyz"

BODIES = ("root", "then", "child")
# an event: a worker or an outside seat, an act, a name, and how a job answered
LINE = re.compile(r"(?:w(?P<worker>[1-9]\d?)|o(?P<seat>[1-8])) (?P<act>[a-z]+) (?P<name>\w+)(?: (?P<answer>done|failed))?")
MOST_WORKERS = 64
# the seat outside that makes the first requests
ASKER, REQUEST = "o1 ", "o1 request "
# what anyone does, what workers alone do, and what outside seats alone do
ANYONE = {"release", "close", "drop", "settle"}
WORKER = {"begin", "step", "worked", "leave"}
SEAT = {"request"}


class Report:
    """What `run` writes of a run."""

    def __init__(self, text: str):
        head, _, events = text.partition("journal ")
        count, _, self.journal = events.partition("\n")
        self.count, self.first = int(count), head.split("\n")[0]
        self.ends = dict(re.findall(r"(?m)^task (\w+) (\w+)", head))
        self.unobserved = re.findall(r"(?m)^unobserved (\w+):", head)

    def requests(self) -> list[str] | None:
        """The tokens that the seat outside requests; None where it acts after a worker."""
        lines = self.journal.splitlines()
        first = [line for line in lines if line.startswith(ASKER)]
        if lines[: len(first)] != first:
            return None
        return [line.removeprefix(REQUEST) for line in first if line.startswith(REQUEST)]

    def answers(self, name: str) -> list[str]:
        """How the jobs of a task answered, in order."""
        return re.findall(rf"(?m)^w\d+ worked {name} (\w+)$", self.journal)

    def ended(self, name: str) -> int:
        """The place of the event by which a task ended."""
        ends = re.compile(rf"\w+ (leave|close|drop|settle) {name}")
        return max(place for place, line in enumerate(self.journal.splitlines()) if ends.fullmatch(line))

    def subject(self, drawn: Wide, task: dict) -> str | None:
        """How the task ended that a continuation's body sees, or None: its antecedent, or the winner of a WhenAny task."""
        after = [each_task for each_task in drawn.tasks if each_task["name"] == task.get("after")]
        names = [min(each_task["of"], key=self.ended) if each_task["kind"] == "any" else each_task["name"] for each_task in after]
        return self.ends[names[0]] if names else None

    def claims(self, drawn: Wide) -> list[dict]:
        """That each task that has ended ends so, and that each exception is observed but for those that aren't."""
        finals = [{"final": name, "in": [end]} for name, end in self.ends.items() if end in FINALS]
        bodies = [task["name"] for task in drawn.having(*BODIES) if task["name"] not in self.unobserved]
        return [*finals, *({"observed": name} for name in bodies)]


def wanted(request: list[str]) -> list[str]:
    """The requests that a run starts with: those of `start`, but for a link to a token that is requested before it."""
    return [it for place, it in enumerate(request) if it != LINK or place == 0]


def jobs(body: list, inputs: dict, end: str | None):
    """The jobs of a body with these inputs, where its subject ended so, up to its end."""
    for statement in body:
        if not isinstance(statement, dict):
            continue
        if "work" in statement:
            yield statement["work"]
        elif "if" in statement or "when" in statement:
            is_so = inputs[statement["if"]] if "if" in statement else statement["when"] == end
            yield from jobs(statement["then"] if is_so else statement.get("else", []), inputs, end)


class Run(NamedTuple):
    """A graph that was drawn, how its run starts, and what `run` answered."""

    drawn: Wide
    start: dict
    answer: Answer


def asked(program: Program, *words: str, document: dict) -> Answer:
    return program(*words, given=json.dumps(document))


@pytest.fixture(scope="module")
def run(program):
    """Runs the graph of a number, once."""

    def run_of(number: int) -> Run:
        chance = random.Random(number)
        drawn, workers = Wide(chance, *TASKS), chance.randint(1, WORKERS)
        start = drawn.start()
        answer = asked(program, "run", "--workers", str(workers), document=drawn.document(start=start))
        return Run(drawn, start, answer)

    return functools.cache(run_of)


@pytest.mark.drawn(COUNT)
def test_graph(program, run, number: int):
    drawn, start, answer = run(number)
    assert answer.exit == 0
    report = Report(answer.stdout)
    assert (report.first, report.count) == ("complete", report.journal.count("\n"))
    assert report.requests() == wanted(start["request"])
    for task in drawn.having(*BODIES):
        said = report.answers(task["name"])
        sites = [*jobs(task["body"], start["inputs"], report.subject(drawn, task))] if said else []
        # (a body may be left before its last job)
        assert said == ["failed" if site in start["fail"] else "done" for site in sites[: len(said)]], task["name"]
    kept = {"start": start, "journal": report.journal}
    audit = asked(program, "audit", document=drawn.document(*report.claims(drawn), **kept))
    assert (audit.stdout, audit.exit) == ("run complete\n", 0)
    for name in report.unobserved:
        audit = asked(program, "audit", document=drawn.document({"observed": name}, **kept))
        assert (audit.stdout, audit.exit) == (f"run complete\nclaim 1 fails at {report.count}\n", 1), name


@pytest.mark.drawn(WHOLE)
def test_whole_run(program, number: int):
    chance = random.Random(number)
    drawn, workers = Wide(chance, *TASKS), chance.randint(1, WORKERS)
    _, text = whole_run(program, drawn.document(start=drawn.start()), workers)
    audit = program("audit", given=text)
    assert (audit.stdout, audit.exit) == ("run complete\n", 0)


@pytest.mark.drawn(SEEN)
def test_ends_that_were_seen(program, number: int):
    """The first task that stands otherwise after the run, or after a beginning of it, is named."""
    chance = random.Random(number)
    drawn = Wide(chance, *TASKS)
    ran, _ = whole_run(program, drawn.document(start=drawn.start()), WORKERS)
    lines = ran["journal"].splitlines(keepends=True)
    place = chance.choice((len(lines), chance.randint(0, len(lines))))
    document = {**ran, "version": 3, "journal": "".join(lines[:place])}
    stand = {name: it for name, it in statuses(document).items() if chance.random() < 0.5}
    ended = {name: it if it in FINALS and chance.random() < 0.9 else chance.choice(FINALS) for name, it in stand.items()}
    first = next((name for name, it in stand.items() if ended[name] != it), None)
    said = f"task {first} ended {stand[first]}\n" if first else ""
    plain = asked(program, "audit", document=document)
    answer = asked(program, "audit", document={**document, "ended": dict(reversed(ended.items()))})
    assert (answer.stdout, answer.exit) == (plain.stdout + said, 1 if first else plain.exit)


# ---- journals with another character


def is_event(line: str, tasks: set[str], tokens: set[str]) -> bool:
    """The line spells an event of a graph with these tasks and tokens."""
    found = LINE.fullmatch(line)
    if not found or int(found["worker"] or 0) > MOST_WORKERS:
        return False
    act = found["act"]
    may = act in ANYONE or act in (WORKER if found["worker"] else SEAT)
    is_known = found["name"] in (tokens if act in SEAT else tasks)
    return may and is_known and (act == "worked") == (found["answer"] is not None)


def first_fault(journal: str, tasks: set[str], tokens: set[str]) -> int | None:
    """The number of the first line that is no event, or None; a line without its end is none."""
    *lines, rest = journal.split("\n")
    for number, line in enumerate(lines, 1):
        if not is_event(line, tasks, tokens):
            return number
    return len(lines) + 1 if rest else None


def changed(chance: random.Random, journal: str) -> tuple[str, int]:
    """The journal with another character at one place, and the number of the line there."""
    at = chance.randrange(len(journal))
    other = chance.choice([character for character in CHARACTERS if character != journal[at]])
    return journal[:at] + other + journal[at + 1 :], journal.count("\n", 0, at) + 1


@pytest.mark.parametrize("change", range(CHANGES))
@pytest.mark.drawn(COUNT)
def test_changed_journal(program, run, number: int, change: int):
    drawn, start, ran = run(number)
    journal, line = changed(random.Random(f"{number} {change}"), Report(ran.stdout).journal)
    fault = first_fault(journal, {task["name"] for task in drawn.tasks}, {*drawn.tokens})
    answer = asked(program, "audit", document=drawn.document(start=start, journal=journal))
    refused = re.fullmatch(r"not allowed at (\d+)\n", answer.stdout)
    if fault is not None:
        assert (answer.stdout, answer.exit) == (f"unreadable: journal line {fault}\n", 3)
    elif refused:
        assert answer.exit == 1 and int(refused[1]) >= line
    else:
        assert (answer.stdout, answer.exit) in (("run complete\n", 0), ("run not complete\n", 1))


# ---- how lines and reports are read


def test_lines_of_journals_are_told_from_others():
    events = ["w1 begin A", "w64 worked A failed", "o8 request k", "o1 drop A", "w10 settle A"]
    others = ["w0 begin A", "w65 begin A", "w01 begin A", "o9 request k", "w1 request k", "o1 begin A", "w1 begin k"]
    others += ["o1 request A", "w1 worked A", "w1 begin A done", "w1  begin A", "w1 begin A ", "W1 begin A", "w1 start A", ""]
    assert [line for line in events if not is_event(line, {"A"}, {"k"})] == []
    assert [line for line in others if is_event(line, {"A"}, {"k"})] == []
    assert first_fault("w1 begin A\nw1 step A", {"A"}, set()) == 2
    assert first_fault("w1 begin A\nw1 step A\n", {"A"}, set()) is None


def test_reports_are_read():
    report = Report("complete\ntask A Faulted A:x\ntask K Created\nunobserved A:x\ncalled 0\nreturned 0\njournal 1\nw1 begin A\n")
    assert (report.first, report.count, report.journal) == ("complete", 1, "w1 begin A\n")
    assert (report.ends, report.unobserved) == ({"A": "Faulted", "K": "Created"}, ["A"])
