#!/usr/bin/env python3
"""Measures how long the program takes over documents of many sizes.

The words:
  check    documents of 16 MB: of long rows, of short rows, of tasks with long bodies, and the same with one tree of 729
           leaves and as many tasks as fit
  analyse  groups of 16 tasks with a claim each, lines of stages with one claim, with 0 to 6 splits
  audit    seven courses of 770 to 68,639 events, with 0, 1, 8 and 64 claims
  refute   16 to 992 tasks
  speed    runs of roots, a chain, fans, and jobs of 1 to 100 microseconds by 1, 2 and 4 workers, beside a bare pool of
           threads: the test program tests/sessions measures these, since the jobs of the command answer at once
It prints seconds of wall and of processor, the least of several calls. Nothing fails where a time is long. test_measure.py
does each measurement over small documents.
"""
import argparse
import dataclasses
import os
import pathlib
import subprocess
import sys
import tempfile
import time

from documents import (
    LENGTHS,
    MOST_CLAIMS,
    MOST_SITES,
    MOST_SPLITS,
    MOST_STATEMENTS,
    MOST_TASKS,
    WIDEST,
    Groups,
    Size,
    Stages,
    chain_antecedent,
    courses,
    fan_antecedent,
    filled,
    for_threads,
    grouped,
    sized,
    staged,
    text_of,
    with_claims,
)
from harness import PROGRAM, RUNS, built

# how often each call is made
TIMES = 3
WORKERS = (1, 2, 4)
FAN = 32
# the most splits on a path that are searched for in groups
GROUP_SPLITS = 2


@dataclasses.dataclass(frozen=True)
class Measured:
    """What is measured: its name, the words of the command line, and the document."""

    name: str
    words: list[str]
    document: dict


def checks():
    sizes = {
        "long rows": Size(MOST_TASKS, statements=4, line=24, claims=52),
        "short rows": Size(MOST_TASKS, statements=4, claims=38, splits=3),
        "long bodies": Size(MOST_TASKS, statements=MOST_STATEMENTS, claims=35, splits=3),
    }
    for name, size in sizes.items():
        yield Measured(name, ["check"], sized(size))
    for name, size in sizes.items():
        leaves = dataclasses.replace(size, claims=1, splits=0, ends=MOST_SPLITS)
        yield Measured(f"{name}, 729 leaves", ["check"], filled(leaves))


def analyse(depth):
    return ["analyse", "--depth", str(depth)]


def searches():
    for count in (8, 16, 32, 64):
        for joined in (False, True):
            for splits in range(4):
                name = f"{count} groups, {'joined' if joined else 'apart'}, splits {splits}"
                yield Measured(name, analyse(min(splits, GROUP_SPLITS)), grouped(Groups(count, joined, splits)))
    for count in (20, 300, 1_000):
        for splits in (0, 2, 4, MOST_SPLITS):
            for holds in (True, False):
                name = f"{count} stages, splits {splits}, a {'true' if holds else 'false'} claim"
                yield Measured(name, analyse(splits), staged(Stages(count, splits, holds)))


def audits():
    for length in LENGTHS:
        for name, document in courses(WIDEST, length):
            for claims in (0, 1, 8, MOST_CLAIMS):
                events = document["journal"].count("\n")
                yield Measured(f"{name}, {events} events, {claims} claims", ["audit"], with_claims(document, claims))


def refute(runs):
    return ["refute", "--claim", "1", "--runs", str(runs)]


def refutations():
    for count, runs in ((1, 200_000), (12, 2_000), (62, 50)):
        yield Measured(f"{count} groups, {runs} runs", refute(runs), grouped(Groups(count, joined=True, splits=0)))


def speed(workers, microseconds):
    return ["speed", str(workers), str(microseconds)]


def speeds():
    loads = {
        "empty roots": for_threads(MOST_TASKS),
        "a chain": for_threads(MOST_TASKS, chain_antecedent),
        f"fans of {FAN}": for_threads(MOST_TASKS, fan_antecedent(FAN)),
    }
    for name, document in loads.items():
        for workers in WORKERS:
            yield Measured(f"{name}, workers {workers}", speed(workers, 0), document)
    jobs = for_threads(MOST_SITES, has_jobs=True)
    for spins in (1, 10, 100):
        for workers in WORKERS:
            yield Measured(f"jobs of {spins} microseconds, workers {workers}", speed(workers, spins), jobs)


WORDS = {"check": checks, "analyse": searches, "audit": audits, "refute": refutations, "speed": speeds}


def called(program, words, text):
    """What the program writes, and the seconds of wall and of processor that it takes."""
    with tempfile.TemporaryFile() as given, tempfile.TemporaryFile() as out:
        given.write(text.encode())
        given.seek(0)
        started = time.perf_counter()
        with subprocess.Popen([program, *words], stdin=given, stdout=out, stderr=subprocess.DEVNULL) as ran:
            _, _, used = os.wait4(ran.pid, 0)
            ran.returncode = 0
        wall = time.perf_counter() - started
        out.seek(0)
        return out.read().decode(), wall, used.ru_utime + used.ru_stime


def told(program, measured):
    """How long the least of several calls takes."""
    text = text_of(measured.document)
    times = [called(program, measured.words, text)[1:] for _ in range(TIMES)]
    return f"{min(wall for wall, _ in times):.3f} s, of processor {min(used for _, used in times):.3f} s"


def measure(word, given):
    for measured in WORDS[word]():
        if word == "speed":
            said = ", ".join(called(given.runs, measured.words, text_of(measured.document))[0].splitlines())
        else:
            said = told(given.program, measured)
        print(f"{word}, {measured.name}: {said}", flush=True)


def main() -> int:
    parser = argparse.ArgumentParser(description=__doc__, formatter_class=argparse.RawDescriptionHelpFormatter)
    parser.add_argument("--program", type=pathlib.Path, default=built(PROGRAM), help="the program (%(default)s)")
    parser.add_argument("--runs", type=pathlib.Path, default=built(RUNS), help="the test program of runs (%(default)s)")
    parser.add_argument("words", nargs="+", choices=WORDS, metavar="WORD")
    given = parser.parse_args()
    for word in given.words:
        measure(word, given)
    return 0


if __name__ == "__main__":
    sys.exit(main())
