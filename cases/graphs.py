"""Graphs of all kinds of task that are drawn by chance, and claims about them."""

FINALS = ["RanToCompletion", "Canceled", "Faulted"]
ENDS = ["OnlyOnRanToCompletion", "OnlyOnFaulted", "OnlyOnCanceled", "NotOnRanToCompletion", "NotOnFaulted", "NotOnCanceled"]


class Drawn:
    """A graph that is drawn task by task, with 4 to 12 tasks where nothing else is said."""

    def __init__(self, chance, least=4, most=12):
        self.chance = chance
        self.inputs = [f"I{number}" for number in range(chance.randrange(3))]
        self.tokens = self.some_tokens()
        self.tasks, self.sites = [], 0
        for number in range(chance.randint(least, most)):
            self.tasks.append(self.task(f"T{number}"))

    def some_tokens(self):
        """The names of the tokens."""
        return [f"K{number}" for number in range(self.chance.randrange(3))]

    def having(self, *kinds):
        """The tasks of these kinds."""
        return [task for task in self.tasks if task["kind"] in kinds]

    def task(self, name):
        """One more task; a child gets its place in an earlier body."""
        chance = self.chance
        before = [task["name"] for task in self.having("root", "then", "all", "any")]
        bodies = self.having("root", "then", "child")
        kind = chance.choice(["root", "then", "then", "then", "child", "child", "all", "any"]) if before else "root"
        if kind in ("all", "any"):
            return {"name": name, "kind": kind, "of": chance.sample(before, min(len(before), chance.randint(1, 3)))}
        task = {"name": name, "kind": kind}
        if kind == "then":
            task["after"] = chance.choice(before)
        if kind == "child":
            body = chance.choice(bodies)["body"]
            body.insert(chance.randint(0, len(body)), {"start": name})
        task["body"] = [self.statement(kind) for _ in range(chance.randrange(3))]
        if self.tokens and chance.random() < 0.4:
            task["token"] = chance.choice(self.tokens)
        options = self.options(task)
        return {**task, "options": options} if options else task

    def options(self, task):
        """Some option words that the task may have."""
        chance, options = self.chance, []
        if task["kind"] == "then":
            if chance.random() < 0.6:
                options.append(chance.choice(ENDS))
            if chance.random() < 0.2:
                options.append("ExecuteSynchronously")
            if "token" in task and chance.random() < 0.4:
                options.append("LazyCancellation")
        if task["kind"] == "child" and chance.random() < 0.7:
            options.append("AttachedToParent")
        if chance.random() < 0.1:
            options.append("DenyChildAttach")
        return options

    def statement(self, kind, nested=False):
        """One statement of a body."""
        chance = self.chance
        drawn = chance.random()
        if drawn < 0.35:
            self.sites += 1
            return {"work": f"S{self.sites}", "may_fail": chance.random() < 0.7}
        if drawn < 0.5:
            return {"throw": "wrong"}
        if drawn < 0.65 and self.tokens:
            return {chance.choice(["check", "cancel"]): chance.choice(self.tokens)}
        if drawn < 0.8 and self.inputs and not nested:
            branches = {"then": [self.statement(kind, True)], "else": [self.statement(kind, True)]}
            return {"if": chance.choice(self.inputs), **branches}
        if kind == "then":
            if drawn < 0.9 and not nested:
                return {"when": chance.choice(FINALS), "then": [self.statement(kind, True)]}
            return "observe"
        return "return"

    def claim(self):
        """A claim about some of the tasks."""
        chance = self.chance
        every = [task["name"] for task in self.tasks]
        bodies = [task["name"] for task in self.having("root", "then", "child")]
        claim = chance.choice(
            [
                lambda: {"final": chance.choice(every), "in": chance.sample(FINALS, chance.randint(1, 2))},
                lambda: {"after": [chance.choice(every), chance.choice(bodies)]},
                lambda: {"observed": chance.choice(bodies)},
                lambda: {"never": chance.choice(bodies)},
                lambda: {"excludes": [chance.choice(bodies), chance.choice(bodies)]},
            ]
        )()
        given = []
        if self.inputs and chance.random() < 0.2:
            given.append({"input": chance.choice(self.inputs), "is": chance.random() < 0.5})
        if self.tokens and chance.random() < 0.3:
            given.append({"quiet": chance.choice(self.tokens)})
        return {"given": given, **claim} if given else claim

    def document(self, *claims, **more):
        """The graph with these claims, and other parts of a document."""
        graph = {"version": 1, "inputs": self.inputs, "tokens": self.tokens, "tasks": self.tasks}
        return {**graph, "claims": [*claims], **more}
