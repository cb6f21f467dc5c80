#!/usr/bin/env python3
"""Writes the file `limits` beside it: documents that reach each limit of a graph, and documents that exceed it by one.

The answers were worked out by hand."""
import json
import pathlib

# how large each graph is, or why there is none
ANSWERS = {
    "inputs 16": "0 tasks, 0 tokens, 16 inputs, 0 sites, 0 labels, 0 events",
    "inputs 17": "graph TooMany task 0",
    "tokens 32": "0 tasks, 32 tokens, 0 inputs, 0 sites, 0 labels, 32 events",
    "tokens 33": "graph TooMany task 0",
    "sources 32": "0 tasks, 32 tokens, 0 inputs, 0 sites, 0 labels, 32 events",
    "sources 33": "graph TooMany task 0",
    "tasks 1024": "1024 tasks, 0 tokens, 0 inputs, 0 sites, 0 labels, 4096 events",
    "tasks 1025": "graph TooMany task 1025",
    "statements 64": "1 tasks, 0 tokens, 1 inputs, 0 sites, 0 labels, 68 events",
    "statements 65": "graph TooMany task 1",
    "levels 8 of if": "1 tasks, 0 tokens, 1 inputs, 0 sites, 0 labels, 11 events",
    "levels 9 of if": "graph TooMany task 1",
    "levels 8 of when": "2 tasks, 0 tokens, 0 inputs, 0 sites, 0 labels, 15 events",
    "levels 9 of when": "graph TooMany task 2",
    "sites 256": "4 tasks, 0 tokens, 0 inputs, 256 sites, 0 labels, 272 events",
    "sites 257": "graph TooMany task 5",
    "sites 257 in the sixth task": "graph TooMany task 6",
    "arguments 256 of all": "2 tasks, 0 tokens, 0 inputs, 0 sites, 0 labels, 8 events",
    "arguments 257 of all": "graph TooMany task 2",
    "arguments 256 of any": "2 tasks, 0 tokens, 0 inputs, 0 sites, 0 labels, 8 events",
    "arguments 257 of any": "graph TooMany task 2",
    "letters 32 of a task": "1 tasks, 0 tokens, 0 inputs, 0 sites, 0 labels, 4 events",
    "letters 33 of a task": "graph BadName task 1",
    "letters 32 of a label": "1 tasks, 0 tokens, 0 inputs, 0 sites, 1 labels, 5 events",
    "letters 33 of a label": "graph BadName task 1",
}


def task(name, kind="root", body=(), **more):
    return {"name": name, "kind": kind, "body": list(body), **more}


def join(name, kind, of):
    return {"name": name, "kind": kind, "of": of}


def names(word, count):
    return [f"{word}{number}" for number in range(1, count + 1)]


def linked(count):
    """A token that is linked to so many, the first of 31 plain ones named more than once."""
    plain = names("t", 31)
    return [*plain, {"name": "u", "linked": plain + ["t1"] * (count - 31)}]


def branches(count):
    """So many statements of four each, two of them in the second list."""
    return [{"if": "i", "then": ["return"], "else": ["return", "return"]} for _ in range(count)]


def nested(levels, **choice):
    """A body of so many levels, each list in the second list of the one before."""
    body = []
    for _ in range(levels - 1):
        body = [{**choice, "then": [], "else": body}]
    return body


def worker(name, first, count):
    return task(name, body=[{"work": f"s{number}"} for number in range(first, first + count)])


def workers():
    """Four tasks with 64 sites each."""
    return [worker(f"A{number}", 64 * number, 64) for number in range(4)]


def cases():
    """The names of the documents, and what they have."""
    for count in (16, 17):
        yield f"inputs_{count}", {"inputs": names("i", count)}
    for count in (32, 33):
        yield f"tokens_{count}", {"tokens": names("t", count)}
    for count in (32, 33):
        yield f"sources_{count}", {"version": 2, "tokens": linked(count)}
    for count in (1024, 1025):
        yield f"tasks_{count}", {"tasks": [task(name) for name in names("A", count)]}
    yield "statements_64", {"inputs": ["i"], "tasks": [task("A", body=branches(16))]}
    yield "statements_65", {"inputs": ["i"], "tasks": [task("A", body=[*branches(16), "return"])]}
    for levels in (8, 9):
        body = nested(levels, **{"if": "i"})
        yield f"levels_{levels}_of_if", {"inputs": ["i"], "tasks": [task("A", body=body)]}
    for levels in (8, 9):
        body = nested(levels, when="Faulted")
        yield f"levels_{levels}_of_when", {"tasks": [task("A"), task("B", "then", body, after="A")]}
    yield "sites_256", {"tasks": workers()}
    yield "sites_257", {"tasks": [*workers(), worker("B", 256, 1)]}
    yield "sites_257_in_the_sixth_task", {"tasks": [*workers(), task("B"), worker("C", 256, 1)]}
    for kind in ("all", "any"):
        for count in (256, 257):
            yield f"arguments_{count}_of_{kind}", {"tasks": [task("A"), join("W", kind, ["A"] * count)]}
    for count in (32, 33):
        yield f"letters_{count}_of_a_task", {"tasks": [task("A" * count)]}
    for count in (32, 33):
        yield f"letters_{count}_of_a_label", {"tasks": [task("A", body=[{"throw": "x" * count}])]}


def main():
    lines = []
    for name, parts in cases():
        document = {"version": 1, "tasks": [], **parts}
        title = name.replace("_", " ")
        lines.append(f"# {title}\n{json.dumps(document, separators=(',', ':'))}\n=> {ANSWERS[title]}\n")
    pathlib.Path(__file__).with_name("limits").write_text("".join(lines), encoding="ascii")


if __name__ == "__main__":
    main()
