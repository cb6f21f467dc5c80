"""Each example, with its run and without, with one that `run --whole` writes, and with each run in which a claim fails by its
page, a pipeline of 40 and one of 300 tasks, and runs of graphs that are drawn by chance are drawn as it follows from the
rules of docs/PICTURES.md.

The rules are those of expected_pictures.py. The pictures of the examples are also held against the files of pictures/, at which a
person has looked, and Graphviz has to read what is written for it: one node for each task and token, one line for each
edge. A certificate of these documents that has a tree for each claim is taken as accepted, and `check` has to say the same;
their journals are taken as runs, and in that of a false claim the claim fails where its page says so.
"""
import json
import pathlib
import random
import re
import shutil
import subprocess
import warnings
from typing import NamedTuple

import pytest

import debian
from chance import Wide
from expected_pictures import LANGUAGES, Failure, accepted, drawn_examples, edges, kept_picture, picture
from harness import TOP, Answer, Program, failing_runs, whole_run

PIPELINES = {"pipeline-of-40": 8, "pipeline-of-300": 73}
# a run in which a claim fails, and an event that may follow it there
FAILED, FURTHER = "exactly-one-excludes-Rollback-Notify", "w1 step Notify\n"
WORKERS = 4
LIMIT = 300
# of graphs that are drawn by chance, and how many runs are tried for a claim of each
DRAWN, TASKS, FEW = 50, (4, 14), "200"
REFUTED = 1


class Drawn(NamedTuple):
    """A document, where a claim of it fails in its run, and whether its pictures are kept."""

    name: str
    document: dict
    failure: Failure | None
    is_kept: bool

    @property
    def text(self) -> str:
        return json.dumps(self.document)


def pipeline(shards: int) -> dict:
    """The pipeline that the script of the examples makes."""
    ran = subprocess.run([str(TOP / "examples/pipeline"), str(shards)], capture_output=True, text=True, check=True)
    return json.loads(ran.stdout)


def documents() -> list[Drawn]:
    failing = {run.name: (run.document, Failure(claim=1, place=run.place)) for run in failing_runs()}
    document, failure = failing[FAILED]
    goes_on = {**document, "journal": document["journal"] + FURTHER}
    return [
        *(Drawn(name, document, None, True) for name, document in drawn_examples()),
        *(Drawn(name, *shown, False) for name, shown in failing.items()),
        Drawn(f"{FAILED}-before-the-end", goes_on, failure, False),
        *(Drawn(name, pipeline(shards), None, False) for name, shards in PIPELINES.items()),
    ]


DOCUMENTS = [pytest.param(each_document, id=each_document.name) for each_document in documents()]


@pytest.fixture(scope="module")
def graphviz() -> str | None:
    """Graphviz' program, installed if that can be."""
    if not shutil.which("dot"):
        debian.install("graphviz")
    found = shutil.which("dot")
    if not found:
        warnings.warn("Graphviz isn't there: no picture is read by it", stacklevel=1)
    return found


def check_read(dot: str, document: dict, text: str):
    """Graphviz reads the picture as it is meant."""
    ended = subprocess.run([dot, "-Tsvg"], input=text, capture_output=True, text=True, check=False)
    assert (ended.returncode, ended.stderr) == (0, "")
    nodes, lines = (len(re.findall(f'class="{word}"', ended.stdout)) for word in ("node", "edge"))
    assert nodes == len(document["tasks"]) + len(document.get("tokens", []))
    assert lines == len(list(edges(document)))


@pytest.mark.parametrize("language", LANGUAGES)
@pytest.mark.parametrize("drawn", DOCUMENTS)
def test_picture(program, graphviz, drawn: Drawn, language: str):
    answer = program("draw", "--as", language, given=drawn.text, limit=LIMIT)
    assert answer.exit == 0
    assert answer.stdout == picture(drawn.document, language, accepted(drawn.document), drawn.failure)
    if drawn.is_kept:
        kept: pathlib.Path = kept_picture(drawn.name, language)
        assert answer.stdout == kept.read_text(encoding="utf-8")
    if graphviz and language == "dot":
        check_read(graphviz, drawn.document, answer.stdout)


@pytest.mark.parametrize(
    "drawn", [pytest.param(document, id=document.name) for document in documents() if accepted(document.document)]
)
def test_run(program, drawn: Drawn):
    """What `run --whole` writes is drawn."""
    ran, text = whole_run(program, drawn.document, WORKERS, LIMIT)
    answer = program("draw", given=text, limit=LIMIT)
    assert (answer.exit, answer.stdout) == (0, picture(ran, "mermaid", True))


@pytest.mark.parametrize("language", LANGUAGES)
@pytest.mark.drawn(DRAWN)
def test_run_of_a_drawn_graph(program, number: int, language: str):
    """Its end, and a moment before it."""
    chance = random.Random(number)
    drawn = Wide(chance, *TASKS)
    ran, _ = whole_run(program, drawn.document(start=drawn.start()), WORKERS)
    lines = ran["journal"].splitlines(keepends=True)
    for place in (len(lines), chance.randint(1, len(lines))):
        document = {**ran, "journal": "".join(lines[:place])}
        answer = program("draw", "--as", language, given=json.dumps(document))
        assert (answer.exit, answer.stdout) == (0, picture(document, language, True))


def refuted(program: Program, number: int) -> Answer:
    """What `refute` answers to a claim about a graph that is drawn by chance."""
    drawn = Wide(random.Random(number), *TASKS)
    return program("refute", "--runs", FEW, given=json.dumps(drawn.document(drawn.claim())))


def test_refutations_of_drawn_graphs(program):
    """By the last event of each journal the claim fails."""
    answers = [refuted(program, number) for number in range(DRAWN)]
    texts = [each_answer.stdout for each_answer in answers if each_answer.exit == REFUTED]
    assert len(texts) > DRAWN // 2
    for text in texts:
        document = json.loads(text)
        failure = Failure(claim=1, place=document["journal"].count("\n"))
        answer = program("draw", given=text)
        assert (answer.exit, answer.stdout) == (0, picture(document, "mermaid", False, failure))


@pytest.mark.parametrize("drawn", DOCUMENTS)
def test_check(program, drawn: Drawn):
    answer = program("check", given=drawn.text, limit=LIMIT)
    assert (answer.stdout == "accepted\n") == accepted(drawn.document)
