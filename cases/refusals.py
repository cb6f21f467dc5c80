"""The first fault of a document of version 3 or 4, as the program names it, by the rules of documents alone.

The whole document is looked through for one kind of fault before the next. What the bytes and the journal are is left out.
"""
import re
from collections.abc import Callable, Iterator

from bodies import Form, Started, are_texts, fits, is_body, is_bool, is_final, is_old, is_text, is_too_much, misplaced
from small import EXCLUDED, FINALS, WITH_BODY, Graph, body_of, statements_of
from trees import tree_fault

NAME = re.compile(r"[A-Za-z_][A-Za-z0-9_]{0,31}")
CREATION = "None PreferFairness LongRunning AttachedToParent DenyChildAttach HideScheduler RunContinuationsAsynchronously".split()
CONTINUATION = [*EXCLUDED, "LazyCancellation", "ExecuteSynchronously"]
TASKS, TOKENS, SITES, ARGUMENTS, CLAIMS, NAME_BYTES = 1024, 32, 256, 256, 1024, 100
INPUTS = {3: 16, 4: 64}
# what a claim is given, by the word, and what is named by it; the last two are of version 4
GIVEN = {"input": "inputs", "quiet": "tokens", "ended": "tasks", "succeeds": "sites", "begins": "tasks", "never": "tasks"}
NEW_GIVEN = ("begins", "never")
ALL_GIVEN = ("no_failure", "no_request")
# tasks of which a claim says what can be said only of one with a body
BODIES = ("observed", "never", "excludes", "runs")

Check = Callable[[object], bool]


# ---- shapes


def is_any(said: object) -> bool:
    return True


def is_list(said: object) -> bool:
    return isinstance(said, list)


def are_tokens(said: object) -> bool:
    return isinstance(said, list) and all(is_text(token) or fits(token, {"name": is_text, "linked": are_texts}) for token in said)


def are_ends(said: object) -> bool:
    return isinstance(said, dict) and all(map(is_final, said.values()))


def are_options(said: object) -> bool:
    return isinstance(said, list) and all(word in (*CREATION, *CONTINUATION) for word in said)


def are_finals(said: object) -> bool:
    return isinstance(said, list) and bool(said) and all(map(is_final, said))


def are_two(said: object) -> bool:
    return isinstance(said, list) and are_texts(said) and len(said) == 2


def is_name(said: object) -> bool:
    """The name of a claim."""
    if not isinstance(said, str):
        return False
    return 1 <= len(said.encode(errors="surrogatepass")) <= NAME_BYTES and not any(
        ord(letter) < 32 or 127 <= ord(letter) < 160 for letter in said
    )


def are_inputs(said: object) -> bool:
    return isinstance(said, dict) and all(map(is_bool, said.values()))


def are_given(said: object) -> bool:
    return isinstance(said, list) and all(map(is_given, said))


def is_given(said: object) -> bool:
    return said in ALL_GIVEN or any(fits(said, form) for form in GIVENS)


WITH_TASK: Form = {"name": is_text, "kind": is_text, "note?": is_text}
WITH_SCRIPT: Form = {**WITH_TASK, "body": is_body, "token?": is_text, "options?": are_options, "async?": is_bool}
KINDS: dict[str, Form] = {
    "root": WITH_SCRIPT,
    "child": WITH_SCRIPT,
    "then": {**WITH_SCRIPT, "after": is_text},
    "all": {**WITH_TASK, "of": are_texts},
    "any": {**WITH_TASK, "of": are_texts},
}
GIVENS: list[Form] = [{word: is_text} for word in ("quiet", "succeeds", "begins", "never")]
GIVENS += [{"input": is_text, "is": is_bool}, {"ended": is_text, "in": are_finals}]
WITH_CLAIM: Form = {"given?": are_given, "name?": is_name, "note?": is_text}
CLAIM_FORMS: list[Form] = [{**WITH_CLAIM, word: are_two} for word in ("after", "excludes")]
CLAIM_FORMS += [{**WITH_CLAIM, word: is_text} for word in ("observed", "never", "runs")]
CLAIM_FORMS += [{**WITH_CLAIM, "final": is_text, "in": are_finals}]
START: Form = {"inputs?": are_inputs, "request?": are_texts, "fail?": are_texts, "cancel?": are_texts}
TOP: Form = {
    **{"version": is_any, "inputs?": are_texts, "tokens?": are_tokens, "tasks": is_list, "claims?": is_list, "start?": is_any},
    **{
        "certificate?": is_list,
        "journal?": is_text,
        "note?": is_text,
        "ended?": are_ends,
        "times?": is_list,
        "$schema?": is_text,
    },
}


class Reading:
    """A document that is read, by rules with this of what is surely started."""

    def __init__(self, document: dict, started: type[Started] = Started):
        self.document, self.started = document, started
        self.version: int = document.get("version", 0)
        self.claims: list[dict] = document.get("claims", [])

    # ---- what the tasks say

    def fault(self) -> str | None:
        """The first fault, or None."""
        return self.shape() or self.graph_fault() or self.claim_fault() or self.certificate_fault() or self.start_fault()

    def shape(self) -> str | None:
        if self.version not in INPUTS or not fits(self.document, TOP) or not self.has_times():
            return "shape top"
        for number, task in enumerate(self.document["tasks"], 1):
            if not self.is_task(task):
                return f"shape task {number}"
        for number, claim in enumerate(self.claims, 1):
            if not self.is_claim(claim):
                return f"shape claim {number}"
        start = self.document.get("start", {})
        return None if fits(start, START) and (self.version == 4 or "cancel" not in start) else "shape start"

    def has_times(self) -> bool:
        """Where there are times, there is one for each line break of the journal, and none is smaller than the one before."""
        times, lines = self.document.get("times"), self.document.get("journal", "").count("\n")
        return (
            times is None
            or len(times) == lines
            and all(type(time) is int and time >= 0 for time in times)
            and times == sorted(times)
        )

    def is_task(self, said: object) -> bool:
        if not isinstance(said, dict) or not fits(said, KINDS.get(str(said.get("kind")), {})):
            return False
        return self.version == 4 or "async" not in said and all(map(is_old, said.get("body", [])))

    def is_claim(self, said: object) -> bool:
        if not isinstance(said, dict) or not any(fits(said, form) for form in CLAIM_FORMS):
            return False
        is_new = any(word in given for given in said.get("given", []) for word in NEW_GIVEN if isinstance(given, dict))
        return self.version == 4 or not is_new

    # ---- the graph

    def graph_fault(self) -> str | None:
        """The first kind of fault of the graph that there is, at the first task that has it."""
        self.names = {word: [*map(name_of, self.document.get(word, []))] for word in ("inputs", "tokens", "tasks")}
        self.tasks = list(enumerate(self.document["tasks"], 1))
        self.bodies = {number: body_of(task.get("body", [])) for number, task in self.tasks}
        for word, find in FAULTS:
            found = list(find(self))
            if found:
                return f"graph {word} task {min(found)}"
        number = next(filter(self.option_fault, dict(self.tasks)), None)
        if number:
            return f"graph {self.option_fault(number)} task {number}"
        for word, find in LATE_FAULTS:
            found = list(find(self))
            if found:
                return f"graph {word} task {min(found)}"
        return None

    def statements(self, *words: str) -> Iterator[tuple[int, tuple]]:
        """The statements with these words, each with the number of its task."""
        for number, body in self.bodies.items():
            yield from ((number, statement) for statement in statements_of(body) if statement[0] in words)

    def too_many(self) -> Iterator[int]:
        counts = len(self.names["inputs"]) > INPUTS[self.version], len(self.names["tokens"]) > TOKENS
        if any(counts) or any(len(links_of(token)) > TOKENS for token in self.document.get("tokens", [])):
            yield 0
        if len(self.tasks) > TASKS:
            yield TASKS + 1
        yield from (number for number, _ in list(self.statements("work"))[SITES:])
        yield from (number for number, body in self.bodies.items() if is_too_much(body))
        yield from (number for number, task in self.tasks if len(task.get("of", [])) > ARGUMENTS)

    def bad_names(self) -> Iterator[int]:
        yield from (0 for word in ("inputs", "tokens") for name in self.names[word] if not NAME.fullmatch(name))
        yield from (number for number, task in self.tasks if not NAME.fullmatch(task["name"]))
        yield from (number for number, said in self.statements("work", "throw") if not NAME.fullmatch(said[1]))

    def names_twice(self) -> Iterator[int]:
        yield from (0 for word in ("inputs", "tokens") if len(set(self.names[word])) < len(self.names[word]))
        yield from twice((number, task["name"]) for number, task in self.tasks)

    def unknown(self) -> Iterator[int]:
        yield from (
            0 for token in self.document.get("tokens", []) for name in links_of(token) if name not in self.names["tokens"]
        )
        for number, task in self.tasks:
            named = [("tasks", name) for name in [*task.get("of", []), *(task[word] for word in ["after"] if word in task)]]
            named += [("tokens", task["token"])] if "token" in task else []
            named += [each for said in statements_of(self.bodies[number]) for each in named_by(said)]
            yield from (number for word, name in named if name not in self.names[word])

    def waited(self) -> Iterator[tuple[int, int]]:
        """Each task with one that it follows or waits for, by their numbers."""
        for number, task in self.tasks:
            others = [*task.get("of", []), *([task["after"]] if "after" in task else [])]
            yield from ((number, self.names["tasks"].index(name) + 1) for name in others)

    def not_earlier(self) -> Iterator[int]:
        yield from (number for number, other in self.waited() if other >= number)

    def of_child(self) -> Iterator[int]:
        yield from (number for number, other in self.waited() if dict(self.tasks)[other]["kind"] == "child")

    def empty_any(self) -> Iterator[int]:
        yield from (number for number, task in self.tasks if task["kind"] == "any" and not task["of"])

    def child_places(self) -> Iterator[int]:
        kinds, starts = {task["name"]: task["kind"] for _, task in self.tasks}, list(self.statements("start"))
        yield from (number for number, said in starts if kinds[said[1]] != "child")
        for number, task in self.tasks:
            by = [parent for parent, said in starts if said[1] == task["name"]]
            if task["kind"] == "child" and (len(by) != 1 or by[0] >= number):
                yield number

    def sites_twice(self) -> Iterator[int]:
        yield from twice((number, said[1]) for number, said in self.statements("work"))

    def option_fault(self, number: int) -> str | None:
        task = dict(self.tasks)[number]
        words = set(task.get("options", []))
        if set().union(*(EXCLUDED.get(word, set()) for word in words)) == set(FINALS):
            return "ExcludesAll"
        if {"LongRunning", "ExecuteSynchronously"} <= words:
            return "LongAndSync"
        return "WrongKind" if task["kind"] != "then" and words & set(CONTINUATION) else None

    def observing_nothing(self) -> Iterator[int]:
        kinds = {number: task["kind"] for number, task in self.tasks}
        yield from (number for number, _ in self.statements("when", "observe") if kinds[number] != "then")

    def link_places(self) -> Iterator[int]:
        for place, token in enumerate(self.document.get("tokens", [])):
            links = [self.names["tokens"].index(name) for name in links_of(token)]
            if isinstance(token, dict) and (not links or max(links) >= place):
                yield 0

    def not_async(self) -> Iterator[int]:
        are_async = {number for number, task in self.tasks if task.get("async")}
        yield from (number for number, _ in self.statements("await", "await_any") if number not in are_async)

    def bad_places(self) -> Iterator[int]:
        yield from (number for number, body in self.bodies.items() if [*misplaced(body)])

    def not_started(self) -> Iterator[int]:
        yield from (place + 1 for place in self.started(Graph(self.document)).wrong)

    # ---- claims, their trees, and the start

    def claim_fault(self) -> str | None:
        self.names["sites"] = [said[1] for _, said in self.statements("work")]
        names: set[str] = set()
        if len(self.claims) > CLAIMS:
            return f"claim {CLAIMS + 1} TooMany"
        for number, claim in enumerate(self.claims, 1):
            why = self.why_not(claim) or ("NameTwice" if claim.get("name") in names else None)
            if why:
                return f"claim {number} {why}"
            names |= {claim["name"]} if "name" in claim else set()
        return None

    def why_not(self, claim: dict) -> str | None:
        words = [word for word in ("final", "after", *BODIES) if word in claim]
        said = [name for word in words for name in ([claim[word]] if isinstance(claim[word], str) else claim[word])]
        given = [*map(given_of, claim.get("given", []))]
        if not all(name in self.names["tasks"] for name in said) or not all(self.is_known(*each) for each in given):
            return "Unknown"
        of_body = {"after": said[1:], "final": []}.get(words[0], said)
        of_body += [name for word, name in given if word in NEW_GIVEN]
        kinds = {task["name"]: task["kind"] for _, task in self.tasks}
        if not all(kinds[name] in WITH_BODY for name in of_body):
            return "NoBody"
        kept = [("begins" if word == "never" else word, name) for word, name in given]
        return "GivenTwice" if len(set(kept)) < len(kept) else None

    def is_known(self, word: str, name: str) -> bool:
        return word in ALL_GIVEN or name in self.names[GIVEN[word]]

    def certificate_fault(self) -> str | None:
        bodies = [task["name"] for _, task in self.tasks if task["kind"] in WITH_BODY]
        for number, tree in enumerate(self.document.get("certificate", []), 1):
            why = tree_fault(tree, self.names, bodies, self.version)
            if why:
                return f"certificate {number} {why}"
        return None

    def start_fault(self) -> str | None:
        """Missing is left out: of the commands some ask for the values of inputs."""
        start = self.document.get("start", {})
        jobs = {said[1]: said for _, said in self.statements("work")}
        fail, cancel = start.get("fail", []), start.get("cancel", [])
        known = [name in self.names["inputs"] for name in start.get("inputs", {})]
        known += [name in self.names["tokens"] for name in start.get("request", [])]
        known += [name in jobs for name in (*fail, *cancel)]
        known += [name in self.names["tasks"] for name in self.document.get("ended", {})]
        if not all(known):
            return "start Unknown"
        if not all(jobs[name][2] for name in fail):
            return "start FailNot"
        return None if all(jobs[name][3] and name not in fail for name in cancel) else "start CancelNot"


FAULTS: list[tuple[str, Callable[[Reading], Iterator[int]]]] = [
    ("TooMany", Reading.too_many),
    ("BadName", Reading.bad_names),
    ("NameTwice", Reading.names_twice),
    ("Unknown", Reading.unknown),
    ("NotEarlier", Reading.not_earlier),
    ("OfChild", Reading.of_child),
    ("EmptyAny", Reading.empty_any),
    ("ChildPlace", Reading.child_places),
    ("SiteTwice", Reading.sites_twice),
]
# those behind the faults of options
LATE_FAULTS: list[tuple[str, Callable[[Reading], Iterator[int]]]] = [
    ("ObserveNothing", Reading.observing_nothing),
    ("LinkPlace", Reading.link_places),
    ("NotAsync", Reading.not_async),
    ("BadPlace", Reading.bad_places),
    ("NotStarted", Reading.not_started),
]


def name_of(said) -> str:
    """The name of an input, a token or a task."""
    return said if isinstance(said, str) else said["name"]


def links_of(token) -> list[str]:
    return token["linked"] if isinstance(token, dict) else []


def named_by(statement: tuple) -> Iterator[tuple[str, str]]:
    """The tokens, inputs and tasks that a statement names by itself."""
    word = statement[0]
    if word in ("check", "cancel"):
        yield "tokens", statement[1]
    if word == "if":
        yield "inputs", statement[1]
    if word == "start":
        yield "tasks", statement[1]
    if word in ("await", "wait", "await_any"):
        yield from (("tasks", name) for name in statement[1])
    if word == "await_any" and statement[2] is not None:
        yield "tasks", statement[2]


def twice(numbered) -> Iterator[int]:
    """The numbers of those whose names have stood before."""
    known: set[str] = set()
    for number, name in numbered:
        if name in known:
            yield number
        known.add(name)


def given_of(said) -> tuple[str, str]:
    """What is given, by its word and what is named."""
    if isinstance(said, str):
        return said, ""
    word = next(word for word in GIVEN if word in said)
    return word, said[word]


def fault(document: dict) -> str | None:
    """The first fault of a document, or None if it can be read."""
    return Reading(document).fault()
