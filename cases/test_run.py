"""The program answers each case as its file says, and what it says on standard error is safe for a terminal.

A document that is written with what was found for it is just as long as one that is read, or isn't written.
"""
import re

import pytest

from documents import LONGEST
from harness import USAGE, Case, all_cases, compact

# control characters other than the line break, and the characters that turn the direction in which a text is read
HIDDEN = re.compile(r"[\x00-\x09\x0b-\x1f\x7f-\x9f\u061c\u200e\u200f\u202a-\u202e\u2066-\u2069]")


@pytest.mark.parametrize("case", all_cases(), ids=str)
def test_case(program, case: Case):
    answer = program(*case.words, given=case.stdin)
    assert answer.exit == case.exit
    if case.stdout is not None:
        assert answer.stdout == case.stdout
    if case.exit == USAGE:
        assert answer.stderr
    assert set(case.contains) <= set(answer.stdout.split("\n"))
    assert not HIDDEN.search(answer.stderr)
    if case.stderr is not None:
        assert all(item in answer.stderr for item in case.stderr), [item for item in case.stderr if item not in answer.stderr]
        assert bool(answer.stderr) == bool(case.stderr)


# with what is found for it
ROOT = {"version": 3, "tasks": [{"name": "A", "kind": "root", "body": []}]}
RUN = {"journal": "w1 begin A\nw1 leave A\n", "start": {"inputs": {}}}


@pytest.mark.parametrize(
    "words, found",
    [(("analyse", "--whole"), {"certificate": []}), (("run", "--whole", "--workers", "1"), RUN)],
    ids=["a-certificate", "a-run"],
)
def test_whole_documents_are_as_long_as_one_that_is_read(program, words: tuple[str, ...], found: dict):
    room = LONGEST - len(compact({**ROOT, **found, "note": ""}))
    longest, longer = ({"note": "n" * item} for item in (room, room + 1))
    answer = program(*words, given=compact({**ROOT, **longest}))
    is_whole = answer.stdout == compact({**ROOT, **found, **longest})
    assert (is_whole, answer.exit) == (True, 0)
    answer = program(*words, given=compact({**ROOT, **longer}))
    assert (answer.stdout, answer.exit) == ("too long\n", 1)
