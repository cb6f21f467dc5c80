#!/usr/bin/env python3
"""Counts how many claims of generated graphs are settled: by a certificate, by a run in which they fail, or by neither.

There are 200 graphs of 4 to 12 tasks, of all kinds, with 4 claims each, always the same ones: of the five kinds that each
version has. With `--shape pipelines` there are 1,000 pipelines, shaped as those that teams run, and claims of all six kinds,
which need version 3. This measures and judges nothing, but that no claim is both. The last line is what was counted.
"""
import argparse
import json
import pathlib
import random
import sys
import time

from graphs import Drawn
from harness import TOP, Program
from pipelines import Pipeline

CLAIMS, SEED, VERSION = 4, 26, 3
# how each shape is drawn, and how many graphs of it
SHAPES = {"graphs": (Drawn, 200), "pipelines": (Pipeline, 1_000)}
DEPTH = "3"
# seconds for an answer
LIMIT = 600


def documents(shape: str, count: int, seed: int, version: int):
    """A name and a document for each claim of so many graphs of this shape, in this version."""
    chance, (kind, _) = random.Random(seed), SHAPES[shape]
    for number in range(count):
        drawn = kind(chance)
        for letter in "abcd"[:CLAIMS]:
            yield f"{number}{letter}", {**drawn.document(drawn.claim()), "version": version}


def called(program: Program, *words: str, text: str):
    """What the program writes, how it ends and how long that took."""
    started = time.monotonic()
    answer = program(*words, given=text, limit=LIMIT)
    return answer.stdout, answer.exit, time.monotonic() - started


def settled(program: Program, text: str):
    """How the claim of the document is settled, and how long that took."""
    found, ends, certify = called(program, "analyse", "--depth", DEPTH, text=text)
    if ends not in (0, 1):
        raise ValueError(f"{found!r} of {text}")
    runs = ["--runs", "2000"] if ends == 0 else []
    _, refutes, refute = called(program, "refute", "--claim", "1", *runs, text=text)
    if ends == 0 and refutes == 1:
        raise ValueError(f"both a certificate and a run: {text}")
    return "certified" if ends == 0 else "refuted" if refutes == 1 else "neither", certify, refute


def main() -> int:
    parser = argparse.ArgumentParser(description=__doc__, formatter_class=argparse.RawDescriptionHelpFormatter)
    parser.add_argument("--program", type=pathlib.Path, default=TOP / "taskgraph", help="the script taskgraph, if none is named")
    parser.add_argument("--shape", choices=SHAPES, default="graphs", help="what is drawn (%(default)s)")
    parser.add_argument("--graphs", type=int, help="how many graphs (200, or 1,000 pipelines)")
    parser.add_argument("--seed", type=int, default=SEED, help="by which number they are drawn (%(default)s)")
    parser.add_argument("--version", type=int, default=VERSION, help="the version of the documents (%(default)s)")
    parser.add_argument("--keep", type=pathlib.Path, metavar="FOLDER", help="write the documents that are settled by neither")
    given = parser.parse_args()
    program = Program(given.program)
    counts = dict.fromkeys(("certified", "refuted", "neither"), 0)
    times: dict[str, list[float]] = {name: [] for name in counts}
    certify = []
    count = given.graphs or SHAPES[given.shape][1]
    for name, document in documents(given.shape, count, given.seed, given.version):
        text = json.dumps(document)
        how, first, second = settled(program, text)
        counts[how] += 1
        certify.append(first)
        times[how].append(second)
        if how == "neither" and given.keep:
            given.keep.mkdir(exist_ok=True)
            (given.keep / f"{name}.json").write_text(text + "\n", encoding="utf-8")
    print(f"analyse: {sum(certify):.1f} s in all, {max(certify):.2f} s at most")
    for how, each in times.items():
        print(f"refute, of what is {how}: {sum(each):.1f} s in all, {max(each, default=0):.2f} s at most")
    print(", ".join(f"{count} {how}" for how, count in counts.items()))
    return 0


if __name__ == "__main__":
    sys.exit(main())
