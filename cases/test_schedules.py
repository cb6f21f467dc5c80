"""Runs by threads whose order a number decides: schedule.c lets one thread run at a time and draws, by that number, after how
many instructions another goes on, and which.

The number of a test draws one of 50 graphs, how its run starts, and the order of its threads. What is run is complete, and a
run by the audit. The same number gives the same report again, so an order in which something goes wrong can be played once
more: SEED is the number, and the graph the one of its remainder. Other numbers give other journals of the same graph.

In the gate 200 orders are played. For more, say how many times as many: `--times 50` plays 10,000.
"""
import json
import random

import pytest

from chance import Wide
from harness import Answer, Program
from test_chance import Report

# how many orders are played, over how many graphs, of how many tasks, by how many workers at most
COUNT, GRAPHS, TASKS, WORKERS = 200, 50, (4, 12), 4
# each of so many is played twice
TWICE = 10
# tasks that may run in any order, how many orders of their threads are played, and how many journals come of them at least
APART, ORDERS, JOURNALS = 6, 20, 10


class Scheduled:
    """The program with threads whose order a number decides."""

    def __init__(self, program: Program, schedule: str):
        self.program, self.schedule = program, schedule

    def ran(self, document: dict, workers: int, seed: int) -> Answer:
        """What `run` answers."""
        environment = {"LD_PRELOAD": self.schedule, "SEED": str(seed)}
        return self.program("run", "--workers", str(workers), given=json.dumps(document), environment=environment)


@pytest.fixture(scope="module")
def scheduled(bare_program, library) -> Scheduled:
    return Scheduled(bare_program, library("schedule.c"))


def graph_of(number: int) -> tuple[Wide, dict, int]:
    """The graph of a number, how its run starts, and how many workers run it."""
    chance = random.Random(number % GRAPHS)
    drawn = Wide(chance, *TASKS)
    return drawn, drawn.start(), chance.randint(2, WORKERS)


def audited(program: Program, document: dict, report: Report) -> tuple[str, int]:
    """What `audit` answers to the journal of a report."""
    answer = program("audit", given=json.dumps({**document, "journal": report.journal}))
    return answer.stdout, answer.exit


@pytest.mark.drawn(COUNT)
def test_order(bare_program, scheduled, number: int):
    drawn, start, workers = graph_of(number)
    document = drawn.document(start=start)
    answer = scheduled.ran(document, workers, number)
    assert (answer.exit, answer.stderr) == (0, "")
    report = Report(answer.stdout)
    assert (report.first, report.count) == ("complete", report.journal.count("\n"))
    assert audited(bare_program, document, report) == ("run complete\n", 0)
    if number % TWICE == 0:
        assert scheduled.ran(document, workers, number) == answer


def test_other_numbers_give_other_orders(bare_program, scheduled):
    tasks = [{"name": f"T{number}", "kind": "root", "body": [{"work": f"S{number}"}, "return"]} for number in range(APART)]
    document = {"version": 1, "tasks": tasks}
    reports = [Report(scheduled.ran(document, WORKERS, seed).stdout) for seed in range(ORDERS)]
    assert {audited(bare_program, document, report) for report in reports} == {("run complete\n", 0)}
    assert len({report.journal for report in reports}) >= JOURNALS
