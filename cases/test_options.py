"""The options of `verify` and `refute` do what they say, what `verify` shows is the run, and a claim is told as it is.

What a fixed text can show stands in verifies.toml.
"""
import json
import os
import pathlib
import subprocess
import time

import pytest

from harness import Answer, Program

SEEDS = ("0", "1", "2", "3")
# how many processors this test may use, and so how many threads search where no number is given
PROCESSORS = len(os.sched_getaffinity(0))
# how long a program is watched for its threads at most, in seconds
WATCHED = 20
PAUSE = 0.002
# the most runs that may be asked for: the search goes on for longer than it is watched
MOST_RUNS = "1000000"
# how many tasks are tried of which one may never end, by docs/OUTPUT.md
MOST_TRIED = 32
INPUTS = [f"i{number}" for number in range(12)]
# each run has 2 ** 12 possible starts, and the claim fails in each of them
STARTS = {"version": 3, "inputs": INPUTS, "tasks": [{"name": "A", "kind": "root", "body": []}], "claims": [{"never": "A"}]}
# one of two tasks begins: no tree without a split says so
OPPOSITE = [
    {"name": "A", "kind": "root", "body": [{"work": "a", "may_fail": True}]},
    {"name": "Yes", "kind": "then", "after": "A", "body": [], "options": ["OnlyOnRanToCompletion"]},
    {"name": "No", "kind": "then", "after": "A", "body": [], "options": ["OnlyOnFaulted"]},
]
EXCLUDES = {"excludes": ["Yes", "No"]}
EACH_KIND = {
    "version": 3,
    "inputs": ["dry"],
    "tokens": ["stop"],
    "tasks": [
        {"name": "A", "kind": "root", "body": [{"work": "a", "may_fail": True}, {"work": "b", "may_fail": True}]},
        {"name": "B", "kind": "then", "after": "A", "token": "stop", "body": []},
        {"name": "C", "kind": "then", "after": "B", "body": ["observe"]},
    ],
}
# a claim of each kind, with what it says
TOLD = [
    ({"final": "A", "in": ["RanToCompletion"]}, "A ends RanToCompletion"),
    ({"final": "A", "in": ["Canceled"]}, "A ends Canceled"),
    ({"final": "A", "in": ["Faulted"]}, "A ends Faulted"),
    ({"final": "A", "in": ["RanToCompletion", "Canceled"]}, "A ends RanToCompletion or Canceled"),
    ({"final": "A", "in": ["Faulted", "RanToCompletion"]}, "A ends RanToCompletion or Faulted"),
    ({"final": "A", "in": ["Canceled", "Faulted"]}, "A ends Canceled or Faulted"),
    ({"final": "A", "in": ["RanToCompletion", "Canceled", "Faulted"]}, "A ends RanToCompletion or Canceled or Faulted"),
    ({"after": ["A", "C"]}, "C begins only after A is settled"),
    ({"observed": "A"}, "the exception of A is observed"),
    ({"never": "C"}, "C never begins"),
    ({"excludes": ["A", "C"]}, "A and C don't both begin"),
    ({"runs": "A"}, "A begins in each complete run"),
    ({"given": [{"input": "dry", "is": True}], "runs": "A"}, "A begins in each complete run, where dry is true"),
    ({"given": [{"input": "dry", "is": False}], "runs": "A"}, "A begins in each complete run, where dry is false"),
    ({"given": [{"quiet": "stop"}], "never": "C"}, "C never begins, where stop is never requested"),
    (
        {"given": [{"ended": "B", "in": ["Canceled"]}, {"quiet": "stop"}], "never": "C"},
        "C never begins, where B ends Canceled or not at all and stop is never requested",
    ),
    ({"given": [{"succeeds": "b"}], "never": "C"}, "C never begins, where the job b doesn't fail"),
    (
        {"given": ["no_failure", {"input": "dry", "is": True}], "never": "C"},
        "C never begins, where dry is true and no job fails",
    ),
]


def verify(program: Program, document: dict, *words: str) -> Answer:
    return program("verify", *words, given=json.dumps(document))


def said(program: Program, document: dict, *words: str) -> list[dict]:
    """What is said of each claim."""
    return json.loads(verify(program, document, "--as", "json", *words).stdout)["claims"]


@pytest.mark.parametrize("claim, words", TOLD, ids=[words for _, words in TOLD])
def test_a_claim_is_told_as_it_is(program, claim: dict, words: str):
    (told,) = said(program, {**EACH_KIND, "claims": [claim]}, "--runs", "100")
    assert told["text"] == words


@pytest.mark.parametrize("command", ["verify", "refute"])
def test_another_seed_gives_other_runs(program, command: str):
    """Four starts out of 4,096 each are all the same once in 2 ** 36 times; the same seed gives the same one."""
    each = [[program(command, "--seed", seed, given=json.dumps(STARTS)).stdout for seed in SEEDS] for _ in range(2)]
    assert each[0] == each[1]
    assert len(set(each[0])) > 1


@pytest.mark.parametrize("runs", ["0", "1", "999", "1001"])
def test_as_many_runs_are_made_as_may_be(program, runs: str):
    (told,) = said(program, {"version": 3, "tasks": OPPOSITE, "claims": [EXCLUDES]}, "--depth", "0", "--runs", runs)
    assert told["tried"] == {"events_ran_out": False, "ran_out": "Depth", "runs": int(runs)}


def test_the_events_run_out_before_the_runs(program):
    """To open a run of 1,024 tasks counts as more than 400 events, and so many are played for each of 100,000 runs."""
    others = [{"name": f"T{number}", "kind": "root", "body": []} for number in range(1_024 - len(OPPOSITE))]
    document = {"version": 3, "tasks": OPPOSITE + others, "claims": [EXCLUDES]}
    (told,) = said(program, document, "--depth", "0", "--runs", "100000")
    assert told["tried"]["events_ran_out"]
    assert 0 < told["tried"]["runs"] < 100_000
    written = verify(program, document, "--depth", "0", "--runs", "100000").stdout
    assert f"\n  it fails in none of {told['tried']['runs']} random runs, and no more may be made\n" in written


@pytest.mark.parametrize("number", [64, 65, 130])
def test_each_claim_is_searched(program, number: int):
    """Only the last of more than 64 claims fails."""
    tasks = [{"name": name, "kind": "root", "body": []} for name in ("A", "B")]
    claims = [*([{"final": "A", "in": ["RanToCompletion"]}] * (number - 1)), {"never": "B"}]
    document = {"version": 3, "tasks": tasks, "claims": claims}
    answer = program("refute", "--explain", given=json.dumps(document))
    assert (answer.exit, json.loads(answer.stdout)["journal"]) == (1, "w1 begin B\n")
    assert f"claim {number} fails here" in answer.stderr
    assert program("refute", given=json.dumps({**document, "claims": claims[:-1]})).stdout == "not refuted\n"
    assert [verdict["verdict"] for verdict in said(program, document)] == ["holds"] * (number - 1) + ["fails"]


def searched(claims: int) -> str:
    """A document with so many claims, each of which is searched for long."""
    return json.dumps({"version": 3, "tasks": OPPOSITE, "claims": [EXCLUDES] * claims})


def most_threads(program: Program, wanted: int, *words: str, given: str) -> int:
    """The most threads that are seen of a program that searches what is given; once they are as many as wanted, for one second
    more."""
    command = [str(program.path), "verify", "--depth", "0", "--runs", MOST_RUNS, *words]
    with subprocess.Popen(command, stdin=subprocess.PIPE, stdout=subprocess.DEVNULL, stderr=subprocess.DEVNULL) as started:
        try:
            assert started.stdin
            started.stdin.write(given.encode())
            started.stdin.close()
            most = watched(pathlib.Path(f"/proc/{started.pid}/task"), wanted)
            assert started.poll() is None
            return most
        finally:
            started.kill()


def watched(threads: pathlib.Path, wanted: int) -> int:
    """The most threads that are seen in this folder."""
    most, end = 0, time.monotonic() + WATCHED
    while time.monotonic() < end:
        now = len(list(threads.iterdir()))
        if most < wanted <= now:
            end = time.monotonic() + 1
        most = max(most, now)
        time.sleep(PAUSE)
    return most


def with_writer(jobs: int) -> int:
    """How many threads there are where so many search and verdicts are written as they come."""
    return jobs + 1 if jobs > 1 else jobs


@pytest.mark.parametrize("jobs", [1, 2, 5])
def test_as_many_threads_search_as_are_asked_for(bare_program, jobs: int):
    assert most_threads(bare_program, jobs, "--jobs", str(jobs), "--as", "json", given=searched(64)) == jobs


@pytest.mark.parametrize("jobs", [1, 2, 5])
def test_one_thread_more_writes_what_the_others_find(bare_program, jobs: int):
    assert most_threads(bare_program, with_writer(jobs), "--jobs", str(jobs), given=searched(64)) == with_writer(jobs)


@pytest.mark.parametrize("jobs", [1, 2, 5])
def test_as_many_threads_answer_lines_as_are_asked_for(bare_program, jobs: int):
    lines = f"{searched(1)}\n" * 64
    assert most_threads(bare_program, jobs, "--each", "--jobs", str(jobs), given=lines) == jobs


def test_a_thread_for_each_processor_searches_where_no_number_is_given(bare_program):
    assert most_threads(bare_program, with_writer(PROCESSORS), given=searched(64)) == with_writer(PROCESSORS)


def may_request(count: int) -> dict:
    """So many tasks that may request a token, behind them one that always does, and a claim of which the token is given as
    quiet."""
    body = [{"if": "switch", "then": [{"cancel": "stop"}]}]
    tasks = [{"name": f"May{number}", "kind": "root", "body": body} for number in range(count)]
    tasks += [{"name": "Main", "kind": "root", "body": [{"cancel": "stop"}]}, {"name": "Probe", "kind": "root", "body": []}]
    claim = {"given": [{"quiet": "stop"}], "runs": "Probe"}
    return {"version": 3, "inputs": ["switch"], "tokens": ["stop"], "tasks": tasks, "claims": [claim]}


@pytest.mark.parametrize("count, verdict", [(0, "empty"), (MOST_TRIED - 1, "empty"), (MOST_TRIED, "holds")])
def test_as_many_tasks_are_tried_as_the_page_says(program, count: int, verdict: str):
    """No complete run keeps what is given, which is missed where the task that shows it comes behind as many others."""
    (told,) = said(program, may_request(count), "--runs", "0")
    assert told["verdict"] == verdict
