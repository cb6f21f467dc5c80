"""Documents in which one word is another are answered the same with and without `--explain`.

What is written and the exit status are the same. Without the word nothing is said on standard error. With it there is a
reason just where the answer isn't yes, and it speaks of the place that the answer names. Two members of one name are warned
of where the document is read.
"""
import functools
import json
import random
import re

import pytest

from harness import Answer, Program, case_named

# a document with each part that a command reads
DOCUMENT = case_named("journals", "a document with a certificate, a start and a journal").stdin.decode()
# how many documents each command is asked of
COUNTS = {("check",): 1_000, ("analyse", "--depth", "1"): 500, ("audit",): 500}
SEED = 3
WORD = re.compile(r"\w+|.", re.DOTALL)
# the exit statuses of yes, of no, and of what can't be read
YES, NO, UNREADABLE = 0, 1, 3
# what is said without being asked for
NO_CLAIM = "no claim was asked, so nothing is shown\n"
NO_JOURNAL = "the document has no journal, so nothing was recorded\n"
# what the reason of an answer says; a task, a claim or a tree counts from 0 in a path
PLACES = [
    (r"unreadable: not JSON", lambda _: r"line \d+, column \d+"),
    (r"unreadable: shape task (\d+)", lambda number: rf"tasks\[{number - 1}\]"),
    (r"unreadable: shape claim (\d+)", lambda number: rf"claims\[{number - 1}\]"),
    (r"unreadable: claim (\d+)", lambda number: rf"claims\[{number - 1}\]"),
    (r"unreadable: certificate (\d+)", lambda number: rf"certificate\[{number - 1}\]"),
    (r"unreadable: journal line (\d+)", lambda number: rf"line {number} of the journal"),
    (r"refused: .*\bclaim (\d+)", lambda number: rf"(?:claim|tree) {number}\b"),
    (r"not found: claim (\d+)", lambda number: rf"not found: claim {number}\b"),
    (r"not allowed at (\d+)", lambda number: rf"line {number} of the journal"),
    (r"", lambda _: r"."),
]


def changed(chance: random.Random, text: str) -> str:
    """The text with one of its words in the place of another, long ones more often; what is of no word stands alone."""
    found = list(WORD.finditer(text))
    out, word = chance.choices(found, [len(item[0]) for item in found], k=2)
    return text[: out.start()] + word[0] + text[out.end() :]


def documents(count: int) -> list[str]:
    """So many documents in which one word is another, always the same ones."""
    chance = random.Random(SEED)
    return [changed(chance, DOCUMENT) for _ in range(count)]


def reason_of(answer: str) -> str:
    """What the reason of an answer has to say, as an expression."""
    found, reason = next((found, reason) for line, reason in PLACES if (found := re.match(line, answer)))
    return reason(int(found[1]) if found.groups() else None)


def twice_in(text: str) -> list[str]:
    """The names that stand twice in an object of the text, object by object."""
    names: list[str] = []

    def members(pairs: list[tuple[str, object]]) -> dict[str, object]:
        seen = dict(pairs)
        if len(seen) < len(pairs):
            own = [name for name, _ in pairs]
            names.append(next(name for at, name in enumerate(own) if name in own[:at]))
        return seen

    json.loads(text, object_pairs_hook=members)
    return names


def asked() -> list:
    """Each command with each of its documents."""
    return [
        pytest.param(words, text, id=f"{words[0]}-{number}")
        for words, count in COUNTS.items()
        for number, text in enumerate(documents(count))
    ]


@pytest.fixture(scope="module")
def answer(program: Program):
    """What a command answers to a document without being asked for reasons; each is asked once."""
    return functools.cache(lambda words, text: program(*words, given=text))


@pytest.mark.parametrize("words, text", asked())
def test_reason(program, answer, words: tuple[str, ...], text: str):
    plain: Answer = answer(words, text)
    explained = program(*words, "--explain", given=text)
    assert (explained.stdout, explained.exit) == (plain.stdout, plain.exit)
    assert plain.stderr in ("", NO_CLAIM, NO_JOURNAL)
    if plain.exit == YES and (twice := twice_in(text)):
        assert any(f'the member "{name}" stands twice' in explained.stderr for name in twice)
    elif plain.exit == YES:
        assert explained.stderr == ""
    else:
        assert re.search(reason_of(plain.stdout), explained.stderr)


@pytest.mark.parametrize("words, count", COUNTS.items(), ids=[words[0] for words in COUNTS])
def test_each_kind_of_answer_is_met(answer, words: tuple[str, ...], count: int):
    assert {answer(words, text).exit for text in documents(count)} == {YES, NO, UNREADABLE}
