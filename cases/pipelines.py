"""Pipelines that are drawn by chance, shaped as those that teams run, and claims as a team makes them of its own.

Stages follow one another: a step, steps side by side, a step with children, a race against a delay, a step that an input turns
off, a second try. Then come what handles their ends, and a cleanup behind all of it.
"""
from graphs import FINALS, Drawn

RAN, CANCELED, FAULTED = FINALS
INPUTS = ("dry_run", "full")
STOP, TIMEOUT, EITHER = "stop", "timeout", "either"
ONLY_ON = {final: f"OnlyOn{final}" for final in FINALS}
# a handler's word, with the ends that it handles
HANDLED = {**{word: [final] for final, word in ONLY_ON.items()}, "NotOnRanToCompletion": [CANCELED, FAULTED]}


class Pipeline(Drawn):
    """A pipeline of so many stages, with what handles their ends."""

    def __init__(self, chance, least=1, most=4):
        self.chance, self.tasks, self.sites = chance, [], 0
        self.inputs = chance.sample(INPUTS, chance.choice((0, 0, 1, 1, 2)))
        self.tokens = self.some_tokens()
        self.names = [token["name"] if isinstance(token, dict) else token for token in self.tokens]
        # the token that most steps have, the steps in their order, the handlers with what they handle, the cleanup
        self.own = chance.choice(self.names) if self.names and chance.random() < 0.8 else None
        self.steps, self.handlers, self.cleanup = [], [], None
        last = None
        for number in range(1, chance.randint(least, most) + 1):
            last = self.stage(f"S{number}", last)
        for number in range(1, chance.randint(1, 3) + 1):
            self.handler(f"H{number}")
        self.ending(last)

    def some_tokens(self):
        both = {"name": EITHER, "linked": [STOP, TIMEOUT]}
        return self.chance.choice(([], [STOP], [STOP], [STOP, TIMEOUT], [STOP, TIMEOUT, both]))

    # ---- tasks

    def task(self, name, kind="then", **members):
        """One more task, which is named."""
        self.tasks.append({"name": name, "kind": kind, **{word: it for word, it in members.items() if it}})
        return name

    def job(self, name, risk=0.8):
        """A job, which may fail or not."""
        return {"work": name.lower(), "may_fail": self.chance.random() < risk}

    def checks(self):
        """A check of a token, or nothing."""
        return [{"check": self.chance.choice(self.names)}] if self.names and self.chance.random() < 0.25 else []

    def step(self, name, last, body=None):
        """A step that follows a success, or the first one; most steps have the token of the pipeline."""
        chance, options = self.chance, []
        body = [*self.checks(), self.job(name)] if body is None else body
        token = self.own if chance.random() < 0.8 else None
        if last and chance.random() < 0.85:
            options.append(ONLY_ON[RAN])
        if last and token and chance.random() < 0.2:
            options.append("LazyCancellation")
        self.steps.append(name)
        return self.task(name, "then" if last else "root", after=last, body=body, token=token, options=options)

    def stage(self, name, last):
        """One more stage behind the last one; says which task ends it."""
        kinds = [self.step, self.step, self.step, self.fan, self.fan, self.family, self.family, self.race, self.retry]
        return self.chance.choice([*kinds, self.optional] if self.inputs else kinds)(name, last)

    def fan(self, name, last):
        """Steps side by side, joined by a WhenAll."""
        each = [self.step(f"{name}{letter}", last) for letter in "abc"[: self.chance.randint(2, 3)]]
        return self.task(f"{name}All", "all", of=each)

    def family(self, name, last):
        """A step that starts children, most of them attached, between other statements."""
        chance = self.chance
        children = [f"{name}{letter}" for letter in "xy"[: chance.randint(1, 2)]]
        body = [*self.checks(), *({"start": each_child} for each_child in children), *self.checks()]
        body.insert(chance.randint(0, len(body)), self.job(name, 0.5))
        if self.inputs and chance.random() < 0.3:
            body = [{"if": chance.choice(self.inputs), "then": ["return"]}, *body]
        self.step(name, last, body)
        for child in children:
            token = self.own if chance.random() < 0.4 else None
            options = ["AttachedToParent"] if chance.random() < 0.8 else []
            self.task(child, "child", body=[*self.checks(), self.job(child)], token=token, options=options)
            self.steps.append(child)
        return name

    def race(self, name, last):
        """A step against a delay, which may request the timeout; what follows may look at the winner."""
        chance = self.chance
        slow, delay = self.step(name, last), f"{name}Delay"
        requests = [{"cancel": TIMEOUT}] if TIMEOUT in self.names and chance.random() < 0.7 else []
        self.task(delay, "then" if last else "root", after=last, body=[self.job(delay, 0.2), *requests])
        first = self.task(f"{name}First", "any", of=chance.sample((slow, delay), 2))
        if chance.random() < 0.5:
            return first
        looks = [{"when": FAULTED, "then": ["observe", {"throw": "lost"}]}]
        self.steps.append(f"{name}Won")
        return self.task(f"{name}Won", after=first, body=looks)

    def retry(self, name, last):
        """A step, and one that does its job again if it faulted."""
        self.step(name, last)
        again = [{"when": FAULTED, "then": ["observe", self.job(f"{name}Again")]}]
        self.steps.append(f"{name}Again")
        return self.task(f"{name}Again", after=name, body=again)

    def optional(self, name, last):
        """A step that does its job, or starts it as a child, only if an input is false, or true."""
        chance = self.chance
        does = [{"start": f"{name}x"}] if chance.random() < 0.5 else [self.job(name)]
        word = chance.choice(("then", "else"))
        body = [{"if": chance.choice(self.inputs), "then": [], **{word: does}}]
        self.step(name, last, body)
        if "start" in does[0]:
            self.task(f"{name}x", "child", body=[self.job(f"{name}x")], options=["AttachedToParent"])
            self.steps.append(f"{name}x")
        return name

    def handler(self, name):
        """What follows an end of a step or of a join that isn't always so; it may stop the pipeline."""
        chance = self.chance
        subject = chance.choice([task["name"] for task in self.having("root", "then", "all")])
        word = chance.choice((ONLY_ON[FAULTED], ONLY_ON[FAULTED], *HANDLED))
        reads = ["observe"] if FAULTED in HANDLED[word] and chance.random() < 0.8 else []
        stops = [{"cancel": STOP}] if STOP in self.names and chance.random() < 0.25 else []
        self.task(name, after=subject, body=[*reads, *stops, self.job(name, 0.2)], options=[word])
        self.handlers.append((name, subject, word))

    def ending(self, last):
        """A cleanup behind the last stage and the handlers, or behind everything; now and then one that requests a token."""
        chance = self.chance
        if TIMEOUT in self.names and chance.random() < 0.3:
            self.task("Watch", "root", body=[self.job("Watch"), {"cancel": TIMEOUT}])
        every = [task["name"] for task in self.having("root", "then", "all", "any")]
        some = dict.fromkeys([last, *(name for name, _, _ in self.handlers)])
        done = self.task("Done", "all", of=every if chance.random() < 0.6 else [*some])
        reads = ["observe"] if chance.random() < 0.8 else []
        token = self.own if chance.random() < 0.1 else None
        self.cleanup = self.task("Cleanup", after=done, body=[*reads, self.job("Cleanup", 0.1)], token=token)

    # ---- claims

    def claim(self):
        """A claim as a team makes it of its own pipeline, now and then with more given."""
        kinds = (self.of_handler, self.of_cleanup, self.never_both, self.of_exception, self.of_end, self.of_order, self.of_input)
        said = self.chance.choice(kinds)()
        given = said.pop("given", []) or self.more_given()
        return {"given": given, **said} if given else said

    def more_given(self):
        """A token that is quiet, the value of an input, or that nothing fails or nobody asks; mostly nothing."""
        chance = self.chance
        if chance.random() < 0.75:
            return []
        kinds = [{"quiet": name} for name in self.names] + [
            {"input": each_input, "is": chance.random() < 0.5} for each_input in self.inputs
        ]
        return [chance.choice([*kinds, "no_failure", "no_request"])]

    def of_handler(self):
        """It runs if what it handles ended so; it never does if that ended otherwise, or if nothing fails and nobody asks."""
        chance = self.chance
        name, subject, word = chance.choice(self.handlers)
        others = [final for final in FINALS if final not in HANDLED[word]]
        return chance.choice(
            [
                lambda: {"given": [{"ended": subject, "in": HANDLED[word]}], "runs": name},
                lambda: {"given": [{"ended": subject, "in": others}], "never": name},
                lambda: {"given": ["no_failure", "no_request"], chance.choice(("never", "runs")): name},
                lambda: {"after": [subject, name]},
            ]
        )()

    def of_cleanup(self):
        """It comes after all else, always runs, and always runs to completion."""
        chance, every = self.chance, [task["name"] for task in self.tasks if task["name"] != self.cleanup]
        return chance.choice(
            [
                lambda: {"after": [chance.choice(every), self.cleanup]},
                lambda: {"runs": self.cleanup},
                lambda: {"final": self.cleanup, "in": [RAN]},
            ]
        )()

    def never_both(self):
        """A handler and another one, or a step."""
        chance = self.chance
        name = chance.choice(self.handlers)[0]
        others = [handler for handler in (*(it for it, _, _ in self.handlers), *self.steps) if handler != name]
        return {"excludes": [name, chance.choice(others)]} if others else {"never": name}

    def of_exception(self):
        return {"observed": self.chance.choice(self.steps)}

    def of_end(self):
        """How a task ends, or that it runs, if nothing fails and nobody asks, or whatever happens."""
        chance = self.chance
        every = [task["name"] for task in self.tasks]
        calm = ["no_failure", "no_request"] if chance.random() < 0.6 else []
        said = {"runs": chance.choice(self.steps)} if chance.random() < 0.4 else {}
        ends = [RAN] if calm else chance.choice(([RAN, CANCELED], [RAN, FAULTED], [RAN]))
        return {"given": calm, **(said or {"final": chance.choice(every), "in": ends})}

    def of_order(self):
        """A step comes after another one, or only if that one succeeded."""
        chance = self.chance
        if len(self.steps) == 1:
            return self.of_exception()
        one, other = (self.steps[each_one] for each_one in sorted(chance.sample(range(len(self.steps)), 2)))
        if chance.random() < 0.3:
            return {"given": [{"ended": one, "in": [CANCELED, FAULTED]}], "never": other}
        return {"after": [one, other]}

    def of_input(self):
        """A step never runs where an input has a value, or always does."""
        chance = self.chance
        if not self.inputs:
            return self.of_order()
        given = [{"input": chance.choice(self.inputs), "is": chance.random() < 0.5}]
        if chance.random() < 0.5:
            return {"given": given, "never": chance.choice(self.steps)}
        return {"given": [*given, "no_failure", "no_request"], "runs": chance.choice(self.steps)}
