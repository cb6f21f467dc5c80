#!/usr/bin/env python3
"""The trace of a document's journal, worked out by the rules of docs/PICTURES.md alone. As a script it traces the examples."""
import json
import math
import pathlib
import sys

from harness import HERE, compact, examples, tell_kept

TRACES = HERE / "traces"
SEATS_BEHIND = 64
# the track of the first task's body, if it has one of its own
BODIES_BEHIND = 73
ENDINGS = ("leave", "close", "drop", "settle")
INSTANTS = ("request", "release", "close", "drop", "settle")


def events(document):
    """The events of the journal: place, actor, verb, task or token."""
    lines = document.get("journal", "").splitlines()
    for place, line in enumerate(lines, 1):
        actor, verb, name, *_ = line.split(" ")
        yield place, actor, verb, name


def track(actor):
    """The number of an actor's track."""
    return int(actor[1:]) + (SEATS_BEHIND if actor[0] == "o" else 0)


def crossing(document):
    """The tasks whose bodies don't nest: each is begun inside another body of its worker, and not left before that one."""
    begun = {name: (place, actor) for place, actor, verb, name in events(document) if verb == "begin"}
    left = {name: place for place, _, verb, name in events(document) if verb == "leave"}
    return {
        inner
        for inner, (start, actor) in begun.items()
        for outer, (before, other) in begun.items()
        if actor == other and before < start < left.get(outer, math.inf) < left.get(inner, math.inf)
    }


def arrows(document):
    """Each arrow: the place of the ending, that of the release, by the last ending before it."""
    after = {task["name"]: task.get("after") for task in document["tasks"]}
    ended = {}
    for place, _, verb, name in events(document):
        if verb == "release" and after[name] in ended:
            yield ended[after[name]], place
        if verb in ENDINGS:
            ended[name] = place


def entry(phase, name, tid, ts, **more):
    return {"name": name, "ph": phase, "pid": 1, "tid": tid, "ts": ts, **more}


def arrow(phase, number, tid, ts, **more):
    return entry(phase, "release", tid, ts, cat="release", id=number, **more)


def entries(document):
    """Each entry, in the order in which they stand."""
    yield {"args": {"name": "taskgraph"}, "name": "process_name", "ph": "M", "pid": 1}
    drawn, named, alone = list(arrows(document)), set(), crossing(document)
    times = document.get("times", range(1, len(list(events(document))) + 1))
    number = {task["name"]: at for at, task in enumerate(document["tasks"])}
    for place, actor, verb, name in events(document):
        tid, time = track(actor), times[place - 1]
        called = ("worker " if actor[0] == "w" else "outside ") + actor[1:]
        if actor not in named:
            yield {"args": {"name": called}, "name": "thread_name", "ph": "M", "pid": 1, "tid": tid}
            named.add(actor)
        if verb in ("begin", "leave") and name in alone:
            tid = BODIES_BEHIND + number[name]
            if verb == "begin":
                yield {"args": {"name": f"{called}: {name}"}, "name": "thread_name", "ph": "M", "pid": 1, "tid": tid}
        if verb == "begin":
            yield entry("B", name, tid, time)
        if verb in INSTANTS:
            yield entry("i", f"{verb} {name}", tid, time, s="t")
        yield from (arrow("s", end, tid, time) for start, end in drawn if start == place)
        yield from (arrow("f", place, tid, time, bp="e") for _, end in drawn if end == place)
        if verb == "leave":
            yield entry("E", name, tid, time)


def trace(document):
    """The text of the trace."""
    return compact({"traceEvents": list(entries(document))})


def kept_trace(name: str) -> pathlib.Path:
    """The file of the trace of an example's journal, at which a person has looked."""
    return TRACES / f"{name}.json"


def main() -> int:
    documents = ((file, json.loads(file.read_text(encoding="utf-8"))) for file in examples())
    return tell_kept(
        "Traces",
        TRACES,
        ((kept_trace(file.stem), trace(document)) for file, document in documents if "journal" in document),
    )


if __name__ == "__main__":
    sys.exit(main())
