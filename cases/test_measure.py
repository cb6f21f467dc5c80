"""Each measurement is made once over a small document, and answered as the rules say."""
from typing import NamedTuple

import pytest

from documents import (
    Groups,
    Length,
    Size,
    Stages,
    Widths,
    chain_antecedent,
    courses,
    fan_antecedent,
    for_threads,
    grouped,
    sized,
    staged,
    text_of,
    with_claims,
)
from harness import slug
from measure import analyse, called, refute, speed

NARROW = Widths(statements=4, arguments=3, children=4, tokens=2)
SHORT = Length(tasks=3, rounds=2, combined=8, families=2)
COMPLETE, OPEN = "run complete\n", "run not complete\n"
# the course that passes two statements of each body, so that it is no complete run
NOT_COMPLETE = "the first of 5 side by side"


class Small(NamedTuple):
    """A measurement over a small document, and how the answer begins."""

    name: str
    words: list[str]
    document: dict
    answer: str


def small():
    """Each measurement over a small document, with what is answered by the rules."""
    size = Size(4, statements=3, line=2, claims=2, splits=1, ends=1)
    yield Small("sized", ["check"], sized(size), "accepted\n")
    groups, false_groups = grouped(Groups(2, joined=True, splits=2)), grouped(Groups(2, joined=True, splits=3))
    yield Small("groups, splits enough", analyse(2), groups, "[{")
    yield Small("groups, splits too few", analyse(1), groups, "not found: claim 1\n")
    yield Small("groups, refuted", refute(100), groups, "not refuted")
    yield Small("false groups, searched", analyse(2), false_groups, "not found: claim 1\n")
    yield Small("false groups, refuted", refute(100), false_groups, "{")
    stages = staged(Stages(10, 4, holds=True))
    yield Small("stages, splits enough", analyse(4), stages, "[{")
    yield Small("stages, splits too few", analyse(3), stages, "not found: claim 1\n")
    yield Small("false stages", analyse(4), staged(Stages(10, 4, holds=False)), "not found: claim 1\n")
    for name, document in courses(NARROW, SHORT, many=5):
        yield Small(name, ["audit"], with_claims(document, 5), OPEN if name == NOT_COMPLETE else COMPLETE)
    # a root has two events, a continuation three, and a job one more
    loads = {16: for_threads(8), 23: for_threads(8, chain_antecedent), 22: for_threads(8, fan_antecedent(4))}
    for events, document in {**loads, 24: for_threads(8, has_jobs=True)}.items():
        yield Small(f"{events} events", speed(2, 1), document, f"{events} events, complete true\n")


@pytest.mark.parametrize("measured", small(), ids=lambda letter: slug(letter.name))
def test_small(request, measured: Small):
    program = request.getfixturevalue("runs" if measured.words[0] == "speed" else "bare_program")
    answer, _, _ = called(program.path, measured.words, text_of(measured.document))
    assert answer.startswith(measured.answer)
