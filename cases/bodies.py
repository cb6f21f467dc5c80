"""Bodies that wait, as a document of version 4 says them: how statements are spelled, how much a body may hold, where a word may
stand, and which tasks a body may wait for.

The last is definite assignment in C#, if the variable of a task is assigned where it is started.
"""
from collections.abc import Callable, Iterator

from small import FINALS, Graph, lists_of, statements_of

STATEMENTS, LEVELS, FINALLYS = 64, 8, 3
# where a return, or a rethrow, may not stand
IN_FINALLY, NO_CATCH = "finally", "no catch"
WAITS = ("await", "wait", "await_any")
LEAVING = ("return", "throw", "rethrow")

Form = dict[str, Callable[[object], bool]]


# ---- how statements are spelled


def fits(said: object, form: Form) -> bool:
    """An object has these members and no others; one with a question mark may be left out."""
    if not isinstance(said, dict):
        return False
    checks = {word.rstrip("?"): check for word, check in form.items()}
    needed = {word for word in form if not word.endswith("?")}
    return needed <= said.keys() <= checks.keys() and all(checks[word](value) for word, value in said.items())


def is_text(said: object) -> bool:
    return isinstance(said, str)


def is_bool(said: object) -> bool:
    return isinstance(said, bool)


def is_final(said: object) -> bool:
    return said in FINALS


def are_texts(said: object) -> bool:
    return isinstance(said, list) and all(map(is_text, said))


def are_different(said: object) -> bool:
    """One or more names, none twice."""
    return isinstance(said, list) and are_texts(said) and 0 < len(said) == len(set(said))


def is_body(said: object) -> bool:
    return isinstance(said, list) and all(map(is_statement, said))


# the statements of versions 1 to 3 that are objects, by their words
OLD_FORMS: dict[str, Form] = {
    **{word: {word: is_text} for word in ("throw", "check", "cancel", "start")},
    "work": {"work": is_text, "may_fail?": is_bool},
    "if": {"if": is_text, "then": is_body, "else?": is_body},
    "when": {"when": is_final, "then": is_body, "else?": is_body},
}
FORMS: dict[str, Form] = {
    **OLD_FORMS,
    "work": {"work": is_text, "may_fail?": is_bool, "may_cancel?": is_bool},
    "await": {"await": lambda said: is_text(said) or are_different(said)},
    "wait": {"wait": lambda said: is_text(said) or are_different(said)},
    "await_any": {"await_any": are_different, "won?": is_text, "then?": is_body, "else?": is_body},
    "try": {"try": is_body, "catch_canceled?": is_body, "catch?": is_body, "finally?": is_body},
}


def is_statement(said: object) -> bool:
    if not isinstance(said, dict):
        return said in ("return", "observe", "rethrow")
    word = next((word for word in FORMS if word in said), None)
    if word is None or not fits(said, FORMS[word]):
        return False
    if word == "await_any":
        return "won" in said or said.keys() == {"await_any"}
    return word != "try" or len(said) > 1


def is_old(said: object) -> bool:
    """A statement that versions 1 to 3 have too, with all that is in it."""
    if not isinstance(said, dict):
        return said != "rethrow"
    word = next(word for word in FORMS if word in said)
    inner = [each for part in ("then", "else") for each in said.get(part, [])]
    return word in OLD_FORMS and fits(said, OLD_FORMS[word]) and all(map(is_old, inner))


# ---- how much a body may hold


def levels(body: tuple) -> int:
    """How deep the lists of a body lie in one another; a body without lists has one level."""
    return 1 + max((levels(part) for statement in body for part in lists_of(statement)), default=0)


def finallys(body: tuple) -> int:
    """How many lists of a finally lie in one another."""
    found = 0
    for statement in body:
        own = statement[4] if statement[0] == "try" else None
        for part in lists_of(statement):
            found = max(found, finallys(part) + (part is own))
    return found


def is_too_much(body: tuple) -> bool:
    return len([*statements_of(body)]) > STATEMENTS or levels(body) > LEVELS or finallys(body) > FINALLYS


# ---- where a word may stand


def misplaced(body: tuple, around: frozenset[str] = frozenset([NO_CATCH])) -> Iterator[tuple]:
    """The statements that may not stand where they do: a return in a finally, a rethrow that no list of a catch is around, or a
    finally within that list, and a winner who isn't one of those that are waited for."""
    for statement in body:
        word = statement[0]
        is_wrong = {"return": IN_FINALLY in around, "rethrow": NO_CATCH in around}.get(word, False)
        if is_wrong or word == "await_any" and statement[2] not in (None, *statement[1]):
            yield statement
        if word == "try":
            _, first, *handlers, last = statement
            yield from misplaced(first, around)
            for handler in handlers:
                yield from misplaced(handler or (), around - {NO_CATCH})
            yield from misplaced(last or (), around | {IN_FINALLY, NO_CATCH})
        else:
            for part in lists_of(statement):
                yield from misplaced(part, around)


# ---- which tasks a body may wait for


class Started:
    """Which children each body has surely started at each of its places, and whether it waits for no others."""

    def __init__(self, graph: Graph):
        self.graph = graph
        # what a parent had surely started where it started a child
        self.before: dict[int, frozenset[int]] = {}
        # the tasks whose bodies wait for a task that may not stand there
        self.wrong: set[int] = set()
        for place, task in enumerate(graph.tasks):
            self.behind(place, task.body, frozenset())

    def behind(self, place: int, body: tuple, surely: frozenset[int]) -> frozenset[int]:
        """What is surely started behind a list of statements of a task, if this is so before it."""
        for statement in body:
            surely = self.behind_one(place, statement, surely)
        return surely

    def behind_one(self, place: int, statement: tuple, surely: frozenset[int]) -> frozenset[int]:
        word = statement[0]
        if word in WAITS and not all(self.may_wait(place, self.graph.places[name], surely) for name in statement[1]):
            self.wrong.add(place)
        if word == "start":
            child = self.graph.places[statement[1]]
            self.before[child] = surely
            return surely | {child}
        if word in LEAVING:
            return self.behind_leaving(place, surely)
        if word == "try":
            return self.behind_try(place, statement, surely)
        ends = [self.behind(place, part, surely) for part in lists_of(statement)]
        return self.met(statement, ends) if ends else surely

    def behind_leaving(self, place: int, surely: frozenset[int]) -> frozenset[int]:
        """No run comes behind it, so that all is so there."""
        return frozenset(self.graph.started_by(place))

    def met(self, statement: tuple, ends: list[frozenset[int]]) -> frozenset[int]:
        """What is surely started where lists meet that end so."""
        return frozenset.intersection(*ends)

    def behind_try(self, place: int, statement: tuple, surely: frozenset[int]) -> frozenset[int]:
        _, first, *handlers, last = statement
        end = self.behind(place, first, surely)
        begin = self.handler_begin(surely, end)
        ends = [self.behind(place, handler, begin) for handler in handlers if handler is not None]
        return self.met_behind_try(end, ends) | self.behind(place, last or (), self.finally_begin(surely, end))

    def met_behind_try(self, end: frozenset[int], ends: list[frozenset[int]]) -> frozenset[int]:
        return end.intersection(*ends)

    def handler_begin(self, surely: frozenset[int], end: frozenset[int]) -> frozenset[int]:
        """What a handler begins with: what was so before the try, whatever is at the end of its list."""
        return surely

    def finally_begin(self, surely: frozenset[int], end: frozenset[int]) -> frozenset[int]:
        return surely

    def may_wait(self, place: int, other: int, surely: frozenset[int]) -> bool:
        """A task may wait for another one at a place where these children are surely started."""
        if other not in self.graph.parents:
            return self.is_earlier(other, place)
        return other in surely or any(self.had_started(each, other) for each in self.line(place))

    def is_earlier(self, other: int, place: int) -> bool:
        """One that is no child is declared before the head of the family."""
        return other < self.line(place)[-1]

    def had_started(self, place: int, other: int) -> bool:
        """The parent of a task had surely started another one where it started the task."""
        return other in self.before.get(place, ())

    def line(self, place: int) -> list[int]:
        """The task, its parent, the parent of that, and so on to the head of the family."""
        found = [place]
        while found[-1] in self.graph.parents:
            found.append(self.graph.parents[found[-1]])
        return found
