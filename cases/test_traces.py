"""The journal of each example, and of each run of one that `run --whole` writes, is traced as it follows from the rules of
docs/PICTURES.md.

The rules are those of expected_traces.py. Runs of graphs that are drawn by chance are traced by them too, with times and without.
What `run --whole` writes is the example with a run, in which `audit` finds no claim that fails. The traces of the examples'
own journals are also held against the files of traces/, at which a person has looked. Each trace is read back as a viewer
does, with a stack for each track, of which each end closes the innermost slice: its slices have to be the bodies that the
journal begins and leaves, on the tracks of those who do it, and each arrow has to lead from the ending of a task to the
release of one that continues it. Some runs have bodies of one worker that don't nest.
"""
import json
import random

import pytest

from chance import Wide
from expected_pictures import accepted
from expected_traces import ENDINGS, kept_trace, trace
from harness import Answer, Program, examples, whole_run

WORKERS = (1, 4)
LIMIT = 300
# of graphs that are drawn by chance, and the end of the times that their events have
DRAWN, TASKS, LATEST = 50, (4, 14), 100
# Three roots, and a continuation that the worker which ended A begins. By hand: which journal, and which bodies have a track
# of their own.
CROSSED = {
    "version": 1,
    "tasks": [
        {"name": "A", "kind": "root", "body": []},
        {"name": "B", "kind": "root", "body": [{"work": "b"}]},
        {"name": "C", "kind": "then", "after": "A", "body": [{"work": "c"}], "options": ["ExecuteSynchronously"]},
        {"name": "D", "kind": "root", "body": []},
    ],
}
CROSSINGS = {
    "nested": ("w1 begin B\nw1 begin D\nw1 leave D\nw1 worked B done\nw1 leave B\n", []),
    "crossing": ("w1 begin B\nw1 begin D\nw1 worked B done\nw1 leave B\nw1 leave D\n", ["worker 1: D"]),
    "never left": ("w1 begin B\nw1 begin D\nw1 worked B done\nw1 leave B\n", ["worker 1: D"]),
    "by two workers": ("w1 begin B\nw2 begin D\nw1 worked B done\nw1 leave B\nw2 leave D\n", []),
    "three at once": (
        "w1 begin A\nw1 begin B\nw1 leave A\nw1 release C\nw1 begin D\nw1 begin C\nw1 worked B done\nw1 leave B\n"
        "w1 worked C done\nw1 leave C\nw1 leave D\n",
        ["worker 1: B", "worker 1: C", "worker 1: D"],
    ),
    "one inside, one across": (
        "w1 begin B\nw1 begin A\nw1 begin D\nw1 leave A\nw1 leave D\nw1 worked B done\nw1 leave B\n",
        ["worker 1: D"],
    ),
}
DOCUMENTS = {file.stem: json.loads(file.read_text(encoding="utf-8")) for file in examples()}


def tracks(found: list[dict]) -> dict[int, str]:
    """The names of the tracks by their numbers."""
    return {event["tid"]: event["args"]["name"] for event in found if event["name"] == "thread_name"}


def slices(found: list[dict]):
    """Each slice as a viewer reads it, an end closing the innermost slice that its track has open: whose it is, what it is
    called, from where to where; of one that doesn't end, no end."""
    names = tracks(found)
    begun: dict[int, list[tuple[str, int]]] = {}
    for event in found:
        track = begun.setdefault(event.get("tid", 0), [])
        if event["ph"] == "B":
            track.append((event["name"], event["ts"]))
        if event["ph"] == "E":
            name, start = track.pop()
            yield names[event["tid"]].split(":")[0], name, start, event["ts"]
    for tid, left in begun.items():
        for name, start in left:
            yield names[tid].split(":")[0], name, start, None


def bodies(lines: list[str]):
    """Each body that the journal's lines begin: by whom, of which task, from where to where."""
    for at, line in enumerate(lines, 1):
        actor, verb, task = line.split(" ")[:3]
        if verb == "begin":
            left = [other for other, it in enumerate(lines, 1) if it == f"{actor} leave {task}"]
            yield f"worker {actor[1:]}", task, at, left[0] if left else None


def check_arrows(document: dict, found: list[dict]):
    """Each arrow of a trace leads from the ending of a task to the release of one that continues it."""
    lines = document["journal"].splitlines()
    after = {task["name"]: task.get("after") for task in document["tasks"]}
    starts = {event["id"]: event["ts"] for event in found if event["ph"] == "s"}
    ends = {event["id"]: event["ts"] for event in found if event["ph"] == "f"}
    assert starts.keys() == ends.keys()
    for number, start in starts.items():
        assert number == ends[number]
        _, verb, released = lines[number - 1].split(" ")
        _, ending, ended = lines[start - 1].split(" ")
        assert verb == "release" and ending in ENDINGS and after[released] == ended


def check_trace(program: Program, document: dict) -> str:
    """The trace follows from the rules, and is read as it is meant."""
    answer = program("trace", given=json.dumps(document), limit=LIMIT)
    assert (answer.exit, answer.stdout) == (0, trace(document))
    found = json.loads(answer.stdout)["traceEvents"]
    assert sorted(map(str, slices(found))) == sorted(map(str, bodies(document["journal"].splitlines())))
    check_arrows(document, found)
    return answer.stdout


@pytest.mark.parametrize("journal, own", CROSSINGS.values(), ids=CROSSINGS)
def test_bodies_that_overlap(program, journal: str, own: list[str]):
    found = json.loads(check_trace(program, {**CROSSED, "journal": journal}))["traceEvents"]
    assert sorted(name for name in tracks(found).values() if ":" in name) == own


@pytest.mark.parametrize("name", [name for name, it in DOCUMENTS.items() if "journal" in it])
def test_example(program, name: str):
    assert check_trace(program, DOCUMENTS[name]) == kept_trace(name).read_text(encoding="utf-8")


@pytest.mark.parametrize("workers", WORKERS)
@pytest.mark.parametrize("name", [name for name, it in DOCUMENTS.items() if accepted(it)])
def test_run(program, name: str, workers: int):
    ran, text = whole_run(program, DOCUMENTS[name], workers, LIMIT)
    assert program("audit", given=text, limit=LIMIT) == Answer(0, "run complete\n", "")
    assert program("trace", given=text, limit=LIMIT).stdout == check_trace(program, ran)


@pytest.mark.drawn(DRAWN)
def test_run_of_a_drawn_graph(program, number: int):
    """By the places of its events, and by times, of which some are the same."""
    chance = random.Random(number)
    drawn = Wide(chance, *TASKS)
    ran, _ = whole_run(program, drawn.document(start=drawn.start()), chance.randint(*WORKERS))
    check_trace(program, ran)
    times = sorted(chance.randrange(LATEST) for _ in ran["journal"].splitlines())
    timed = {**ran, "version": 3, "times": times}
    answer = program("trace", given=json.dumps(timed))
    assert (answer.exit, answer.stdout) == (0, trace(timed))
