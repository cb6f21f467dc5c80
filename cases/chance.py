#!/usr/bin/env python3
"""Graphs with starts that are drawn by chance. As a script it draws those that tests/sessions plays on both machines."""
import argparse
import json
import random
import sys

from graphs import Drawn
from harness import TOP

PLAYED = TOP / "tests/sessions/data/graphs/by_chance"
# of the graphs that both machines play
PLAYED_COUNT, PLAYED_SEED, PLAYED_TASKS = 120, 7, (4, 10)
LINK = "Both"


class Wide(Drawn):
    """A graph in which a token may be linked to the others, and a task may run continuations asynchronously."""

    def some_tokens(self):
        tokens = super().some_tokens()
        return [*tokens, LINK] if tokens else tokens

    def options(self, task):
        options = super().options(task)
        return [*options, "RunContinuationsAsynchronously"] if self.chance.random() < 0.1 else options

    def document(self, *claims, **more):
        others = [token for token in self.tokens if token != LINK]
        tokens = [*others, {"name": LINK, "linked": others}] if others else []
        return {**super().document(*claims, **more), "version": 2, "tokens": tokens}

    def some_inputs(self):
        """A value for each input."""
        return {name: self.chance.random() < 0.5 for name in self.inputs}

    def start(self):
        """How a run starts: with these inputs, requests and failing jobs."""
        request = [token for token in self.tokens if self.chance.random() < 0.3]
        sites = [
            statement["work"]
            for task in self.tasks
            for statement in statements(task.get("body", []))
            if statement.get("may_fail")
        ]
        fail = [site for site in sites if self.chance.random() < 0.5]
        return {"inputs": self.some_inputs(), "request": request, "fail": fail}


def statements(body):
    """The statements of a body that are objects, those in branches too."""
    for statement in body:
        if isinstance(statement, dict):
            yield statement
            yield from statements(statement.get("then", []))
            yield from statements(statement.get("else", []))


def played(count: int = PLAYED_COUNT, seed: int = PLAYED_SEED) -> str:
    """The documents that are played on both machines, a line each."""
    chance = random.Random(seed)
    lines = []
    for _ in range(count):
        drawn = Wide(chance, *PLAYED_TASKS)
        lines.append(json.dumps(drawn.document(start={"inputs": drawn.some_inputs()}), separators=(",", ":")) + "\n")
    return "".join(lines)


def main() -> int:
    parser = argparse.ArgumentParser(description=__doc__)
    parser.add_argument("--count", type=int, default=PLAYED_COUNT, help="how many (%(default)s)")
    parser.add_argument("--seed", type=int, default=PLAYED_SEED, help="by which numbers are drawn (%(default)s)")
    parser.add_argument("--write", action="store_true", help=f"write them to {PLAYED.relative_to(TOP)}, rather than print them")
    given = parser.parse_args()
    text = played(given.count, given.seed)
    if given.write:
        PLAYED.write_text(text, encoding="utf-8")
    else:
        print(text, end="")
    return 0


if __name__ == "__main__":
    sys.exit(main())
