"""Each allocation of two sessions is refused in turn, alone and with all after it: each call gives its answer, or says that
there was no memory, and no item is lost.

The test program of runs plays the sessions with the word `memory` (src/memory.rt), and judges each call itself: here its
lines are counted, and each call has to have been without memory once. refuse.c is what the program loads for that.
"""
import functools
from typing import NamedTuple

import pytest

from harness import TOP, Program

DATA = TOP / "tests/sessions/data"

# with ample memory: one session that two workers run, and one in which a token is requested
FULL = ["run", "closed", "requested", "closed"]
# what each call says where it has no memory, a run where that leaves it no thread; each has to be met
WITHOUT = {
    "no memory for the document",
    "no memory to open",
    "no memory for a watcher",
    "no memory for a seat",
    "no memory for a seat, and then there is",
    "no memory to run",
    "no memory to run, and one works alone",
    "no thread to run",
    "no memory to close",
}
# what the last call of a session says
LAST = {"closed", "no memory for the document", "no memory to open", "no memory to close"}
HOLDS = ": holds"


class Played(NamedTuple):
    """What the program says of each call, whether each is as it has to be, how it ends, and its standard error."""

    calls: list[str]
    hold: bool
    exit: int
    stderr: str


class Sessions:
    """The sessions, played with other allocations refused."""

    def __init__(self, program: Program, refuse: str):
        self.program, self.refuse = program, refuse
        self.refused = functools.cache(self._refused)

    def played(self, **refusing: str) -> Played:
        """The sessions, once."""
        answer = self.program("memory", environment={"LD_PRELOAD": self.refuse, **refusing})
        lines = [line.removeprefix("session, ") for line in answer.stdout.splitlines()]
        calls = [line.removesuffix(HOLDS) for line in lines]
        return Played(calls, all(line.endswith(HOLDS) for line in lines), answer.exit, answer.stderr)

    def _refused(self, *rest: tuple[str, str]) -> list[Played]:
        """The sessions with ample memory, and then with each allocation refused."""
        ample = self.played()
        numbers = range(1, int(ample.stderr) + 1)
        return [ample, *(self.played(**{"REFUSED": str(number), **dict(rest)}) for number in numbers)]


@pytest.fixture(scope="module")
def sessions(runs, library) -> Sessions:
    return Sessions(Program(runs.path, DATA), library("refuse.c"))


ALONE, ALL_AFTER = (), (("REFUSE_REST", "1"),)


@pytest.mark.parametrize("rest", [ALONE, ALL_AFTER], ids=["one-allocation", "all-from-one-on"])
def test_refused(sessions, rest):
    ample, *others = sessions.refused(*rest)
    assert (ample.calls, ample.hold, ample.exit) == (FULL, True, 0)
    assert others
    for number, it in enumerate(others, 1):
        assert it.hold, f"allocation {number}"
        assert {*it.calls} <= WITHOUT | {*FULL}, f"allocation {number}"
        if it.exit:
            assert "OutOfMemory" in it.stderr, f"allocation {number}"
        else:
            assert sum(call in LAST for call in it.calls) == FULL.count("closed"), f"allocation {number}"


def test_each_call_had_no_memory(sessions):
    met = {call for rest in (ALONE, ALL_AFTER) for item in sessions.refused(*rest) for call in item.calls}
    assert WITHOUT <= met
