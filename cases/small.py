"""A graph of a document as the models of runs and of certificates read it: tasks by their places, bodies as tuples."""
import dataclasses

RAN, CANCELED, FAULTED = FINALS = ("RanToCompletion", "Canceled", "Faulted")
# the ends of its antecedent after which a continuation with the word doesn't begin
EXCLUDED = {
    "NotOnRanToCompletion": {RAN},
    "NotOnCanceled": {CANCELED},
    "NotOnFaulted": {FAULTED},
    "OnlyOnRanToCompletion": {CANCELED, FAULTED},
    "OnlyOnCanceled": {RAN, FAULTED},
    "OnlyOnFaulted": {RAN, CANCELED},
}
WITH_BODY = ("root", "child", "then")
# the lists of a try behind its first one, in their order
HANDLERS = ("catch_canceled", "catch", "finally")


def statement_of(said) -> tuple:
    """A statement of a document as a tuple: its word, and what belongs to it."""
    if isinstance(said, str):
        return (said,)
    if "work" in said:
        return ("work", said["work"], said.get("may_fail", False), said.get("may_cancel", False))
    for word in ("if", "when"):
        if word in said:
            return (word, said[word], body_of(said["then"]), body_of(said.get("else", [])))
    if "await_any" in said:
        branches = (body_of(said.get(part, [])) if "won" in said else None for part in ("then", "else"))
        return ("await_any", tuple(said["await_any"]), said.get("won"), *branches)
    if "try" in said:
        return ("try", body_of(said["try"]), *(body_of(said[part]) if part in said else None for part in HANDLERS))
    ((word, name),) = said.items()
    if word in ("await", "wait"):
        return (word, (name,) if isinstance(name, str) else tuple(name))
    return (word, name)


def body_of(statements) -> tuple:
    return tuple(map(statement_of, statements))


def lists_of(statement: tuple) -> tuple:
    """The lists that a statement has, in the order of the text."""
    first = {"if": 2, "when": 2, "await_any": 3, "try": 1}.get(statement[0])
    return () if first is None else tuple(part for part in statement[first:] if part is not None)


def statements_of(body):
    """The statements of a body in the order of its text, those in lists behind the one that has them."""
    for statement in body:
        yield statement
        for part in lists_of(statement):
            yield from statements_of(part)


@dataclasses.dataclass(frozen=True)
class Task:
    """A task. What it continues and waits for are places of tasks."""

    name: str
    kind: str
    after: int | None
    of: tuple[int, ...]
    token: str | None
    options: frozenset[str]
    body: tuple
    is_async: bool = False

    @property
    def excluded(self) -> set[str]:
        """The ends of its antecedent after which it doesn't begin."""
        return set().union(*(EXCLUDED.get(word, ()) for word in self.options))

    @property
    def antecedent(self) -> int:
        """The task that a continuation continues."""
        assert self.after is not None
        return self.after

    @property
    def is_lazy(self) -> bool:
        return "LazyCancellation" in self.options

    def may_follow(self, final: str) -> bool:
        """It may begin after this end of its antecedent."""
        return final not in self.excluded


class Graph:
    """The graph of a document that can be read."""

    def __init__(self, document: dict):
        said = document["tasks"]
        self.inputs = tuple(document.get("inputs", []))
        self.places = {task["name"]: place for place, task in enumerate(said)}
        self.tasks = tuple(map(self.task_of, said))
        self.parents = {child: place for place in range(len(self.tasks)) for child in self.started_by(place)}
        self.attached = tuple(self.attached_to(place) for place in range(len(self.tasks)))
        links = [token if isinstance(token, dict) else {"name": token, "linked": []} for token in document.get("tokens", [])]
        self.sources = {link["name"]: tuple(link["linked"]) for link in links}
        self.sites = {statement[1] for task in self.tasks for statement in statements_of(task.body) if statement[0] == "work"}

    def task_of(self, said: dict) -> Task:
        after = self.places[said["after"]] if "after" in said else None
        of, options = (self.places[name] for name in said.get("of", [])), frozenset(said.get("options", []))
        body, is_async = body_of(said.get("body", [])), said.get("async", False)
        return Task(said["name"], said["kind"], after, tuple(of), said.get("token"), options, body, is_async)

    def started_by(self, place: int) -> list[int]:
        """The children that the body of a task starts, in the order of its text."""
        return [self.places[statement[1]] for statement in statements_of(self.tasks[place].body) if statement[0] == "start"]

    def attached_to(self, place: int) -> tuple[int, ...]:
        """The attached children of a task, in the same order."""
        parent = self.tasks[place]
        may_attach = "DenyChildAttach" not in parent.options and not parent.is_async

        def is_attached(child):
            return may_attach and "AttachedToParent" in self.tasks[child].options and not self.tasks[child].is_async

        return tuple(filter(is_attached, self.started_by(place)))

    def below(self, place: int) -> set[int]:
        """The attached children of a task, theirs, and so on."""
        return {item for child in self.attached[place] for item in {child, *self.below(child)}}

    def with_sources(self, token: str) -> set[str]:
        """The token, those that it is linked to, and so on."""
        return {token}.union(*(self.with_sources(source) for source in self.sources[token]))

    def requested_with(self, tokens) -> frozenset[str]:
        """The tokens that are requested where these were requested themselves."""
        return frozenset(token for token in self.sources if self.with_sources(token) & set(tokens))

    def having(self, *kinds: str) -> list[int]:
        """The places of the tasks of these kinds."""
        return [place for place, task in enumerate(self.tasks) if task.kind in kinds]
