"""Runs in which claims fail are searched for, over each document of examples/ and of the cases, claim by claim.

A claim for which `analyse` finds a certificate is never refuted, also where all its runs are tried. Of a document with many
claims the answer is that to the first one that fails, whichever are passed over. Each claim of which a page of examples/
shows a run in which it fails, or of which a case of `audit` says where it fails, is refuted within the runs that are tried
unless told otherwise. The same words give the same text. Of two smallest runs each is found by some seed, and no larger one.
Where one request does it no job fails, where no job has to fail none does, and one worker acts where one is enough. Of a
release nothing is shown but what has to come before. Each document that is written is the one that was read but for the
inputs and the journal, and without what was seen of another run; `audit` finds a run there, and that the claim fails after
its last event; and `check` refuses the document. In each run bodies nest, also in those of graphs that are drawn by chance;
no run is found where only one that no thread makes would do; and a large document is answered before the time is over.
"""
import json
import random
import re
import time

import pytest

from body_nesting import unnested
from graphs import Drawn
from harness import Answer, Program, all_cases, cases_of, compact, examples, failing_runs
from hostile import release
from test_verify import worked_out

FAILS = re.compile(r"claim (\d+) fails at")
# how many runs are tried where none is to be found
FEW = "2000"
DEPTH = "3"
LONGEST = 16_777_216
LIMIT = 300
# the exit statuses of a claim that isn't refuted, of one that is, and of a document that can't be read
HOLDS, REFUTED, UNREADABLE = 0, 1, 3
# what was seen of another run, which isn't written
SEEN = ("ended", "times")
NOT_REFUTED = Answer(HOLDS, "not refuted\n", "")
# Two of ten roots may begin in either order, and by both the claim fails. No run is smaller than one by one worker, which
# leaves the one body before it begins the other. The other roots aren't needed.
EITHER = json.dumps(
    {
        "version": 1,
        "tasks": [{"name": name, "kind": "root", "body": ["return"]} for name in "ABCDEFGHIJ"],
        "claims": [{"excludes": ["A", "B"]}],
    }
)
SEEDS = 32
# how many graphs are drawn by chance, with a claim each
DRAWN = 400
# Two synchronous continuations of one task cancel and check crosswise: on the thread that ends the task one of them runs
# after the other, so exactly one faults. Both do only where somebody outside requests a token first.
SYNCHRONOUS, FAULTED = {"options": ["ExecuteSynchronously"]}, {"options": ["OnlyOnFaulted"]}
CROSSWISE = json.dumps(
    {
        "version": 1,
        "tokens": ["one", "other"],
        "tasks": [
            {"name": "A", "kind": "root", "body": []},
            {"name": "B", "kind": "then", "after": "A", "body": [{"cancel": "one"}, {"check": "other"}], **SYNCHRONOUS},
            {"name": "C", "kind": "then", "after": "A", "body": [{"cancel": "other"}, {"check": "one"}], **SYNCHRONOUS},
            {"name": "E", "kind": "then", "after": "B", "body": [], **FAULTED},
            {"name": "F", "kind": "then", "after": "C", "body": [], **FAULTED},
        ],
        "claims": [{"excludes": ["E", "F"]}],
    }
)
# A run of each of 1,024 tasks, none of which can be left out; and 64 true claims over as many roots.
CHAIN = json.dumps(
    {
        "version": 1,
        "tasks": [
            {"name": "T0", "kind": "root", "body": []},
            *({"name": f"T{number}", "kind": "then", "after": f"T{number - 1}", "body": []} for number in range(1, 1024)),
        ],
        "claims": [{"never": "T1023"}],
    }
)


def long_root(number: int) -> dict:
    """A root, of the first 256 with a job and other statements."""
    body = [{"work": f"w{number}", "may_fail": True}, *["return"] * 9] if number < 256 else []
    return {"name": f"T{number}", "kind": "root", "body": body}


TRUE = json.dumps(
    {
        "version": 1,
        "tasks": [long_root(number) for number in range(1024)],
        "claims": [{"final": f"T{number}", "in": ["RanToCompletion", "Canceled", "Faulted"]} for number in range(64)],
    }
)
# how many seeds each of the claims is searched by whose givens a body would break
KEPT_SEEDS = 20
# seconds, on a machine that does much else
FOUND_WITHIN = 10
ENDED_WITHIN = 60


# Many jobs, any of which keeps Publish from its begin by failing, and a request does it to all of them at once.
JOBS = 23
ENDED_BY_REQUEST = json.dumps(
    {
        "version": 3,
        "tokens": ["stop"],
        "tasks": [
            *(
                {"name": f"Job{number}", "kind": "root", "body": [{"work": f"job{number}", "may_fail": True}], "token": "stop"}
                for number in range(JOBS)
            ),
            {"name": "All", "kind": "all", "of": [f"Job{number}" for number in range(JOBS)]},
            {"name": "Publish", "kind": "then", "after": "All", "body": [], "options": ["OnlyOnRanToCompletion"]},
        ],
        "claims": [{"runs": "Publish"}],
    }
)
# Each job may fail, and Report doesn't begin in runs in which the first one doesn't.
NO_FAILURE_NEEDED = json.dumps(
    {
        "version": 3,
        "tasks": [
            *(
                {"name": f"Job{number}", "kind": "root", "body": [{"work": f"job{number}", "may_fail": True}]}
                for number in range(JOBS)
            ),
            {"name": "Report", "kind": "then", "after": "Job0", "body": [], **FAULTED},
        ],
        "claims": [{"runs": "Report"}],
    }
)
# What one worker does in a body, and another beside it, one does after the other.
ONE_WORKER = json.dumps(
    {
        "version": 1,
        "tasks": [
            {"name": "Parent", "kind": "root", "body": [{"start": "Child"}, {"work": "rest"}]},
            {"name": "Child", "kind": "child", "body": []},
        ],
        "claims": [{"excludes": ["Parent", "Child"]}],
    }
)
SMALL_SEEDS = 8
# layers of a release, and the jobs of each
LAYERS, WIDTH = 12, 8


def stages(count: int, *, tokens: list, last: list, watch: list, claim: dict) -> str:
    """A chain of stages whose jobs may fail. The last one has the body `last` and its own token `local`, a handler runs where
    it is canceled, and beside them stands a root with the body `watch`."""
    ran, canceled = {"options": ["OnlyOnRanToCompletion"]}, {"options": ["OnlyOnCanceled"]}
    names = [f"S{number}" for number in range(count)]
    job = {name: [{"work": f"w{name}", "may_fail": True}] for name in names[:-1]}
    chain = [
        {"name": name, "kind": "then", "after": before, "body": job.get(name, last), **ran}
        for before, name in zip(names, names[1:])
    ]
    chain[-1]["token"] = "local"
    return json.dumps(
        {
            "version": 3,
            "tokens": tokens,
            "tasks": [
                {"name": "S0", "kind": "root", "body": job["S0"]},
                *chain,
                {"name": "H", "kind": "then", "after": names[-1], "body": [], **canceled},
                {"name": "Watch", "kind": "root", "body": watch},
            ],
            "claims": [claim],
        }
    )


def kept():
    """Claims that fail only in runs in which what is given isn't broken by a body that may do so at any moment."""
    check, both = [{"check": "local"}], {"name": "both", "linked": ["stop"]}
    for count in (8, 12):
        body = {"excludes": ["H", f"S{count - 1}"]}
        quiet = {"given": [{"quiet": "stop"}], **body}
        cancel, tokens = [{"cancel": "stop"}], ["local", "stop"]
        yield f"{count} stages", stages(count, tokens=tokens, last=check, watch=cancel, claim=quiet)
        # a request of a token to which the one that is given is linked
        linked = {"given": [{"quiet": "both"}], **body}
        yield f"{count} stages, linked", stages(count, tokens=[*tokens, both], last=check, watch=cancel, claim=linked)
        # the statement stands behind others, and the job before them has to succeed
        sure = {"given": ["no_failure", {"quiet": "stop"}], **body}
        behind = [{"work": "watched", "may_fail": True}, {"check": "stop"}, *cancel]
        yield f"{count} stages, no failure", stages(count, tokens=tokens, last=check, watch=behind, claim=sure)


def alone(document: dict, claim: dict) -> str:
    """The document with this claim only, and without a journal."""
    kept = {name: it for name, it in document.items() if name not in ("certificate", "journal", "times")}
    return json.dumps({**kept, "claims": [claim]})


def false_claims():
    """Documents with one claim each, of which it is known that it fails in some run."""
    for shown in failing_runs():
        yield pytest.param(alone(shown.document, shown.document["claims"][0]), id=shown.name)
    for case in cases_of("audits"):
        fails = FAILS.search(case.stdout or "")
        if fails:
            document = json.loads(case.stdin)
            yield pytest.param(alone(document, document["claims"][int(fails.group(1)) - 1]), id=str(case))


def documents():
    """Each document of the examples and the cases."""
    for file in examples():
        yield file.stem, file.read_bytes()
    for case in all_cases():
        yield str(case), case.stdin


def claims():
    """Each claim of a document that can be read, once."""
    seen = set()
    for name, text in documents():
        try:
            document = json.loads(text.decode())
            each = document["claims"]
        except (ValueError, KeyError, TypeError):
            continue
        for number, claim in enumerate(each if isinstance(each, list) else [], 1):
            one = alone(document, claim)
            if one not in seen:
                seen.add(one)
                yield pytest.param(one, id=f"{name}-claim-{number}")


def refute(program: Program, *words: str, text: str) -> Answer:
    return program("refute", *words, given=text, limit=LIMIT)


def without_run(document: dict) -> dict:
    """The document without the parts that are filled in: the journal, and the inputs of the start."""
    start = {name: it for name, it in document.get("start", {}).items() if name != "inputs"}
    return {**{name: it for name, it in document.items() if name != "journal"}, "start": start}


def check_refutation(program: Program, text: str, wrote: str):
    """The document that was written for a claim that is refuted is as it has to be."""
    document = json.loads(wrote)
    assert wrote == compact(document)
    read = {name: it for name, it in json.loads(text).items() if name not in SEEN}
    assert without_run(document) == without_run(read)
    assert unnested(document) is None, "no thread makes this run"
    audit = program("audit", given=wrote, limit=LIMIT)
    (head, *fails), events = audit.stdout.splitlines(), document["journal"].count("\n")
    assert head in ("run complete", "run not complete")
    assert (audit.exit, fails) == (REFUTED, [f"claim 1 fails at {events}"])
    assert program("check", given=wrote, limit=LIMIT).exit == REFUTED


@pytest.mark.parametrize("text", false_claims())
def test_false_claim(program, text: str):
    answer = refute(program, text=text)
    assert answer.exit == REFUTED, answer.stdout
    again = refute(program, "--seed", "0", "--runs", "100000", text=text)
    assert (again.stdout, again.exit) == (answer.stdout, answer.exit)
    check_refutation(program, text, answer.stdout)


@pytest.mark.parametrize("text", claims())
def test_claim(program, text: str):
    """A claim that may be true or false. Its runs are tried also where it has a certificate."""
    found = program("analyse", "--depth", DEPTH, given=text, limit=LIMIT)
    answer = refute(program, "--claim", "1", "--runs", FEW, text=text)
    if found.exit == UNREADABLE:
        assert (answer.stdout, answer.exit) == (found.stdout, found.exit)
    elif found.exit != HOLDS and answer.exit == REFUTED:
        check_refutation(program, text, answer.stdout)
    else:
        assert answer == NOT_REFUTED


@pytest.mark.parametrize("text, wanted", worked_out())
def test_claims(program, text: str, wanted: list[str]):
    """Claims that hold, fail or aren't known to do either, beside each other."""
    answer = refute(program, "--runs", FEW, text=text)
    if "fails" in wanted:
        number = str(wanted.index("fails") + 1)
        assert answer == refute(program, "--claim", number, "--runs", FEW, text=text)
        assert answer.exit == REFUTED
    else:
        assert answer == NOT_REFUTED


def test_a_document_that_gets_too_long(program):
    """Once its journal is filled in."""
    head = '{"certificate":[{"rows":[{"before":["A"'
    tail = '],"ends":[],"runs":true}]}],"claims":[{"never":"A"}],"tasks":[{"body":[],"kind":"root","name":"A"}],"version":1}'
    more = (LONGEST - len(head) - len(tail)) // len(',"A"')
    answer = refute(program, text=head + ',"A"' * more + tail)
    assert (answer.stdout, answer.exit) == ("unreadable: too long\n", UNREADABLE)


@pytest.mark.drawn(DRAWN)
def test_drawn_graph(program, number: int):
    graph = Drawn(random.Random(number))
    text = json.dumps(graph.document(graph.claim()))
    answer = refute(program, "--claim", "1", "--runs", "300", text=text)
    if answer.exit == REFUTED:
        check_refutation(program, text, answer.stdout)
    elif answer.exit == UNREADABLE:
        assert program("check", given=text).stdout == answer.stdout
    else:
        assert answer == NOT_REFUTED


def test_crosswise_continuations(program):
    """Both fault only where somebody outside requests a token."""
    for seed in range(SEEDS):
        answer = refute(program, "--seed", str(seed), text=CROSSWISE)
        if answer.exit == REFUTED:
            check_refutation(program, CROSSWISE, answer.stdout)
            assert "o1 request" in json.loads(answer.stdout)["journal"], f"seed {seed}"


@pytest.mark.parametrize(
    "text, exit_status, seconds",
    [(CHAIN, REFUTED, FOUND_WITHIN), (TRUE, HOLDS, ENDED_WITHIN)],
    ids=["a-chain-of-1024-tasks", "64-true-claims-over-1024-tasks"],
)
def test_large_document(program, text: str, exit_status: int, seconds: float):
    started = time.monotonic()
    answer = refute(program, text=text)
    assert answer.exit == exit_status
    assert time.monotonic() - started < seconds


def test_seeds_find_each_smallest_run(program):
    orders = set()
    for seed in range(SEEDS):
        answer = refute(program, "--seed", str(seed), text=EITHER)
        assert answer.exit == REFUTED, f"seed {seed}"
        check_refutation(program, EITHER, answer.stdout)
        orders.add(tuple(line.partition(" ")[2] for line in json.loads(answer.stdout)["journal"].splitlines()))
    assert orders == {("begin A", "step A", "leave A", "begin B"), ("begin B", "step B", "leave B", "begin A")}


def journal_of(program: Program, text: str, seed: int) -> list[str]:
    """The events of the run that is found."""
    answer = refute(program, "--seed", str(seed), text=text)
    assert answer.exit == REFUTED, answer.stdout
    check_refutation(program, text, answer.stdout)
    return json.loads(answer.stdout)["journal"].splitlines()


@pytest.mark.parametrize("seed", range(SMALL_SEEDS))
def test_one_request_does_it(program, seed: int):
    """Rather than failures: each task ends by one event, and no body is begun."""
    events = journal_of(program, ENDED_BY_REQUEST, seed)
    drops = {f"o1 drop Job{number}" for number in range(JOBS)}
    assert events[0] == "o1 request stop"
    assert set(events[1:-2]) == drops and len(events) == 1 + JOBS + 2
    assert events[-2:] == ["o1 settle All", "o1 drop Publish"]


@pytest.mark.parametrize("seed", range(SMALL_SEEDS))
def test_no_job_fails_needlessly(program, seed: int):
    events = journal_of(program, NO_FAILURE_NEEDED, seed)
    done = [
        f"w1 {act}" for number in range(JOBS) for act in (f"begin Job{number}", f"worked Job{number} done", f"leave Job{number}")
    ]
    assert sorted(events) == sorted([*done, "w1 drop Report"])


@pytest.mark.parametrize("seed", range(SMALL_SEEDS))
def test_one_worker_does_it(program, seed: int):
    events = journal_of(program, ONE_WORKER, seed)
    body = ["w1 begin Parent", "w1 step Parent", "w1 worked Parent done", "w1 leave Parent"]
    assert events == [*body, "w1 begin Child"]


@pytest.mark.parametrize("layer", range(1, LAYERS))
def test_no_layer_of_a_release_can_be_left_out(program, layer: int):
    """A job begins before the cleanup of the layer before it, once all jobs of the layers before it have run."""
    claim = {"after": [f"Clean{layer - 1}", f"J{layer}_0"]}
    text = json.dumps({**release(LAYERS, WIDTH), "claims": [claim]})
    events = []
    for before in range(layer):
        jobs = [f"J{before}_{number}" for number in range(WIDTH)]
        events += [f"release {job}" for job in jobs if before]
        events += [event for job in jobs for event in (f"begin {job}", f"worked {job} done", f"leave {job}")]
        events.append(f"settle All{before}")
    events += [f"release J{layer}_0", f"begin J{layer}_0"]
    assert sorted(journal_of(program, text, 0)) == sorted(f"w1 {event}" for event in events)


@pytest.mark.parametrize("seed", range(KEPT_SEEDS))
@pytest.mark.parametrize("text", [pytest.param(text, id=name) for name, text in kept()])
def test_what_is_given_is_kept(program, text: str, seed: int):
    """The step that would break it isn't played, and the run goes on."""
    answer = refute(program, "--claim", "1", "--seed", str(seed), text=text)
    assert answer.exit == REFUTED, answer.stdout
    check_refutation(program, text, answer.stdout)
