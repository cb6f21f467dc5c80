"""Documents of version 4 that are drawn by chance: graphs of all kinds of task, into whose bodies waits, tries and answers are
put one after another, each where the document can still be read."""
import copy
import random
from collections.abc import Iterator

from chance import Wide
from refusals import fault

TASKS = (2, 5)
# how often something is put into a body
TRIED = 18
# where a handler or a finally stands
PARTS = (
    ["catch"],
    ["catch_canceled"],
    ["finally"],
    ["catch_canceled", "catch"],
    ["catch", "finally"],
    ["catch_canceled", "finally"],
)


class Waiting(Wide):
    """A small graph whose bodies wait, throw and catch."""

    def __init__(self, seed: int):
        super().__init__(random.Random(seed), *TASKS)
        for _ in range(TRIED):
            tasks = copy.deepcopy(self.tasks)
            self.change(self.chance.choice([task for task in tasks if "body" in task]))
            self.tasks, before = tasks, self.tasks
            if fault(self.read()):
                self.tasks = before

    def read(self) -> dict:
        return {**self.document(), "version": 4}

    def change(self, task: dict) -> None:
        """Puts something into a task."""
        chance, body = self.chance, self.chance.choice([*lists(task["body"])])
        place, drawn = chance.randint(0, len(body)), self.chance.random()
        if drawn < 0.15:
            task["async"] = True
        elif drawn < 0.55:
            task["async"] = True
            body.insert(place, self.waiting())
        elif drawn < 0.65:
            body.insert(place, {"wait": self.names(1)})
        elif drawn < 0.85:
            end = chance.randint(place, len(body))
            body[place:end] = [self.protected(body[place:end])]
        elif drawn < 0.95:
            self.sites += 1
            body.insert(place, {"work": f"S{self.sites}", "may_fail": chance.random() < 0.5, "may_cancel": True})
        else:
            body.insert(place, chance.choice(["rethrow", "return", {"throw": "wrong"}]))

    def names(self, most: int) -> list[str]:
        every = [task["name"] for task in self.tasks]
        return self.chance.sample(every, min(len(every), self.chance.randint(1, most)))

    def waiting(self) -> dict:
        names = self.names(2)
        if self.chance.random() < 0.5:
            return {"await": names}
        return {"await_any": names, **({"won": names[0], "then": ["return"]} if self.chance.random() < 0.5 else {})}

    def protected(self, body: list) -> dict:
        choices: list = ["rethrow", "return", {"throw": "other"}, {"await": self.names(1)}]
        parts = self.chance.choice(PARTS)
        return {"try": body, **{part: self.chance.sample(choices, self.chance.choice((0, 1))) for part in parts}}


def lists(body: list) -> Iterator[list]:
    """A list of statements, and those in it."""
    yield body
    for statement in body:
        if isinstance(statement, dict):
            for part in ("then", "else", "try", "catch_canceled", "catch", "finally"):
                yield from lists(statement[part]) if part in statement else ()
