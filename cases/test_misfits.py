"""One value of a document is of the wrong shape, and the reason that is given names its place.

Each value of a document with every part becomes one of another type, each object gets a member that none may have, and
loses each of its members in turn. The place is known beforehand: it is where the document was changed. A member that may
be left out is missed by nobody.
"""
import copy
import json
import re
from collections.abc import Iterator

import pytest

from harness import case_named

ROW = {"ends": ["Faulted"], "runs": True, "before": ["a"], "past": ["a"], "chain": ["a"], "asked": ["stop"], "asks": ["stop"]}
# a document of version 3 with every part that it may have
WIDE = {
    "version": 3,
    "note": "all that may stand in a document",
    "inputs": ["fast"],
    "tokens": ["stop", {"name": "both", "linked": ["stop"]}],
    "tasks": [
        {
            "name": "a",
            "kind": "root",
            "note": "the first",
            "token": "both",
            "options": ["LongRunning"],
            "body": [
                {"if": "fast", "then": ["return"], "else": [{"work": "s", "may_fail": True}]},
                {"check": "stop"},
                {"cancel": "stop"},
                {"start": "k"},
            ],
        },
        {"name": "k", "kind": "child", "options": ["AttachedToParent"], "body": [{"throw": "Boom"}]},
        {
            "name": "t",
            "kind": "then",
            "after": "a",
            "options": ["OnlyOnFaulted"],
            "body": [{"when": "Faulted", "then": ["observe"], "else": []}],
        },
        {"name": "w", "kind": "any", "of": ["a", "t"]},
    ],
    "claims": [
        {
            "name": "one",
            "note": "a claim",
            "given": [
                {"input": "fast", "is": True},
                {"quiet": "stop"},
                {"ended": "a", "in": ["Faulted"]},
                {"succeeds": "s"},
            ],
            "final": "a",
            "in": ["RanToCompletion"],
        },
        {"after": ["a", "t"], "given": ["no_failure", "no_request"]},
        {"observed": "a"},
        {"never": "k"},
        {"excludes": ["a", "t"]},
        {"runs": "a"},
    ],
    "certificate": [
        "least",
        {"split_input": "fast", "yes": "least", "no": "least"},
        {"split_end": "a", "ran": "least", "canceled": "least", "faulted": "least"},
        {"split_winner": "w", "task": "a", "yes": "least", "no": "least"},
        {"rows": [ROW]},
        "least",
    ],
    "journal": "o1 request stop\n",
    "times": [3],
    "start": {"inputs": {"fast": True}, "request": ["stop"], "fail": ["s"]},
    "ended": {"a": "Faulted"},
}
DOCUMENTS = {
    "narrow": json.loads(case_named("every-part", "each kind of task, statement, claim and tree, and a start").stdin),
    "wide": WIDE,
}
# objects whose members are named by the document: the fault is the whole object's
NAMED_BY_DOCUMENT = [("start", "inputs"), ("ended",)]
STRANGER = "no member of any object"
# the members that may be left out, by the name of the list or the member in which the object stands (docs/FORMAT.md)
OPTIONAL = {
    "": {"note", "inputs", "tokens", "claims", "certificate", "journal", "times", "start", "ended"},
    "tasks": {"note", "token", "options"},
    "body": {"may_fail", "else"},
    "then": {"may_fail", "else"},
    "else": {"may_fail", "else"},
    "claims": {"name", "note", "given"},
    "rows": {"before", "past", "chain", "asked", "asks"},
    "start": {"inputs", "request", "fail"},
}
Path = tuple[str | int, ...]

# what doesn't fit any more where this member is lost: there is a time for each line of the journal
NEEDED_BY: dict[Path, Path] = {("journal",): ("times",)}


def places(value, path: Path = ()) -> Iterator[Path]:
    """The paths of the value and of all values in it."""
    yield path
    if isinstance(value, dict):
        for name, member in value.items():
            yield from places(member, (*path, name))
    elif isinstance(value, list):
        for index, element in enumerate(value):
            yield from places(element, (*path, index))


def at(document, path: Path):
    """What stands at the path."""
    for step in path:
        document = document[step]
    return document


def objects(document) -> Iterator[Path]:
    """The paths of the objects with members that the format names."""
    return (path for path in places(document) if isinstance(at(document, path), dict) and path not in NAMED_BY_DOCUMENT)


def with_another_type(document, path: Path):
    """The document with a value of another type at the path: a number, and a text in place of a number."""
    changed = copy.deepcopy(document)
    at(changed, path[:-1])[path[-1]] = "x" if type(at(document, path)) is int else 7
    return changed


def with_stranger(document, path: Path):
    """The document with one more member in the object at the path."""
    changed = copy.deepcopy(document)
    at(changed, path)[STRANGER] = 7
    return changed


def without(document, path: Path):
    """The document without the member at the path."""
    changed = copy.deepcopy(document)
    del at(changed, path[:-1])[path[-1]]
    return changed


def spelled(path: Path) -> str:
    """The path as reasons spell it."""
    steps = [f"[{step}]" if isinstance(step, int) else f".{step}" for step in path]
    return "".join(steps).removeprefix(".") or "the document"


def changes() -> Iterator:
    """Documents that were changed at one place, with the place of the fault."""
    for name, document in DOCUMENTS.items():
        for path in places(document):
            if path:
                fault = path[:-1] if path[:-1] in NAMED_BY_DOCUMENT else path
                yield pytest.param(with_another_type(document, path), fault, id=f"{name} {spelled(path)} of another type")
        for path in objects(document):
            yield pytest.param(with_stranger(document, path), path, id=f"{name} {spelled(path)} with a stranger")


def may_be_left_out(document, path: Path) -> bool:
    """Whether the member at the path need not be there, and nothing that is there needs it."""
    names = [step for step in path[:-1] if isinstance(step, str)]
    optional = OPTIONAL.get(names[-1] if names else "", ())
    needy = NEEDED_BY.get(path)
    return path[-1] in optional and (needy is None or needy not in places(document))


def losses(optional: bool) -> Iterator:
    """Documents in which one object has lost a member that may be left out, or has to be there, with the member's path."""
    for name, document in DOCUMENTS.items():
        for path in objects(document):
            for member in at(document, path):
                lost = (*path, member)
                if may_be_left_out(document, lost) == optional:
                    yield pytest.param(without(document, lost), lost, id=f"{name} without {spelled(lost)}")


def says_shape(answer: str) -> bool:
    """Whether the answer says that a part has the wrong shape."""
    return re.match(r"unreadable: (shape |certificate \d+ Shape$)", answer) is not None


def names_place(reason: str, path: Path) -> bool:
    """Whether the reason speaks of this place."""
    return re.match(re.escape(spelled(path)) + r"( \(task .*\))?: ", reason) is not None


@pytest.mark.parametrize("name", DOCUMENTS)
def test_unchanged(program, name: str):
    assert not program("check", given=json.dumps(DOCUMENTS[name])).stdout.startswith("unreadable")


@pytest.mark.parametrize("document, path", changes())
def test_place_of_the_change(program, document, path: Path):
    answer = program("check", "--explain", given=json.dumps(document))
    assert says_shape(answer.stdout)
    assert names_place(answer.stderr, path)


@pytest.mark.parametrize("document, lost", losses(optional=False))
def test_place_of_the_loss(program, document, lost: Path):
    answer = program("check", "--explain", given=json.dumps(document))
    assert says_shape(answer.stdout)
    assert names_place(answer.stderr, NEEDED_BY.get(lost, lost[:-1]))


@pytest.mark.parametrize("document, lost", losses(optional=True))
def test_what_may_be_left_out(program, document, lost: Path):
    answer = program("check", "--explain", given=json.dumps(document))
    assert not says_shape(answer.stdout)
    assert "see what may stand there" not in answer.stderr
