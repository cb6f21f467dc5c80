"""How the tasks of a document stand after its journal, worked out by the rules of docs/PROFILE.md alone.

The journal is taken to be a run. Nothing here asks whether it is one.
"""


class Run:
    """A run of a document, event by event."""

    def __init__(self, document: dict):
        self.tasks = {task["name"]: task for task in document["tasks"]}
        self.linked = {
            token["name"]: token["linked"]
            for token in document.get("tokens", [])
            if isinstance(token, dict) and "linked" in token
        }
        self.inputs = document.get("start", {}).get("inputs", {})
        self.parents = {child: name for name, task in self.tasks.items() for child in started(task.get("body", []))}
        self.requested: set[str] = set()
        # children that were started, continuations that were released, tasks whose body was left
        self.started: set[str] = set()
        self.released: set[str] = set()
        self.left: set[str] = set()
        # what is left to do of each body that was begun, and how a body is over that didn't return
        self.rest: dict[str, list] = {}
        self.outcome: dict[str, str] = {}
        # how each task has ended, and the place of the event by which it did
        self.ends = {name: "RanToCompletion" for name, task in self.tasks.items() if task["kind"] == "all" and not task["of"]}
        self.places = dict.fromkeys(self.ends, 0)
        for place, line in enumerate(document.get("journal", "").splitlines(), 1):
            self.pass_event(place, *line.split(" ")[1:])

    def pass_event(self, place: int, verb: str, name: str, answer: str = ""):
        task = self.tasks.get(name, {})
        match verb:
            case "request":
                self.requested.add(name)
            case "release":
                self.released.add(name)
            case "begin":
                self.rest[name] = list(task["body"])
            case "step":
                self.pass_statement(task, self.rest[name].pop(0))
            case "worked":
                self.rest[name].pop(0)
                if answer == "failed":
                    self.end_body(name, "Faulted")
            case "leave":
                self.left.add(name)
                if all(child in self.ends for child in self.children(task)):
                    self.end(place, name, self.end_of_body(task))
            case "close":
                self.end(place, name, self.end_of_body(task))
            case "drop":
                self.end(place, name, "Canceled")
            case "settle":
                self.end(place, name, self.end_of_wait(task))

    def pass_statement(self, task: dict, statement):
        name = task["name"]
        match statement:
            case "return":
                self.rest[name] = []
            case {"throw": _}:
                self.end_body(name, "Faulted")
            case {"check": token} if self.is_requested(token):
                self.end_body(name, "Canceled" if task.get("token") == token else "Faulted")
            case {"cancel": token}:
                self.requested.add(token)
            case {"start": child}:
                self.started.add(child)
            case {"if": asked}:
                self.rest[name][:0] = statement.get("then" if self.inputs[asked] else "else", [])
            case {"when": end}:
                self.rest[name][:0] = statement.get("then" if self.ends[self.subject(task)] == end else "else", [])

    def end_body(self, name: str, outcome: str):
        self.rest[name], self.outcome[name] = [], outcome

    def end(self, place: int, name: str, end: str):
        self.ends[name], self.places[name] = end, place

    def is_requested(self, token: str) -> bool:
        return token in self.requested or any(map(self.is_requested, self.linked.get(token, [])))

    def subject(self, task: dict) -> str:
        """The antecedent, or the winner where that is a WhenAny task."""
        before = self.tasks[task["after"]]
        if before["kind"] != "any":
            return before["name"]
        return min((argument for argument in before["of"] if argument in self.ends), key=self.places.__getitem__)

    def children(self, task: dict) -> list[str]:
        """The attached children that were started."""
        if "DenyChildAttach" in task.get("options", []):
            return []
        own = [name for name in self.started if self.parents[name] == task["name"]]
        return [name for name in own if "AttachedToParent" in self.tasks[name].get("options", [])]

    def end_of_body(self, task: dict) -> str:
        if any(self.ends[child] == "Faulted" for child in self.children(task)):
            return "Faulted"
        return self.outcome.get(task["name"], "RanToCompletion")

    def end_of_wait(self, task: dict) -> str:
        ends = [self.ends[argument] for argument in task["of"]] if task["kind"] == "all" else []
        return next((word for word in ("Faulted", "Canceled") if word in ends), "RanToCompletion")

    def status(self, name: str) -> str:
        """The task's status, as the API documentation calls it."""
        kind = self.tasks[name]["kind"]
        if name in self.ends:
            return self.ends[name]
        if name in self.rest:
            return "WaitingForChildrenToComplete" if name in self.left else "Running"
        if kind == "root" or name in self.started | self.released:
            return "WaitingToRun"
        return "Created" if kind == "child" else "WaitingForActivation"


def started(body: list):
    """The children that a body starts."""
    for statement in body:
        if isinstance(statement, dict):
            if "start" in statement:
                yield statement["start"]
            yield from started(statement.get("then", []))
            yield from started(statement.get("else", []))


def statuses(document: dict) -> dict[str, str]:
    """The status of each task after the document's journal."""
    run = Run(document)
    return {name: run.status(name) for name in run.tasks}
