"""All runs of a small graph, by the rules of docs/PROFILE.md alone, and the claims that hold in each of them.

Who does what is left out: a worker may have any number of bodies open, so for each order of acts there are workers.
"""
import itertools
from collections.abc import Iterator
from typing import NamedTuple

from small import CANCELED, FAULTED, FINALS, RAN, WITH_BODY, Graph

# how far a task has come; the rest of TaskStatus lies between the last two
WAITING, CREATED, READY, RUNNING, CLOSING, ENDED = "waiting", "created", "ready", "running", "closing", "ended"
OPENING = {"root": READY, "child": CREATED}
# how a body was over; nothing, if it isn't. The last one, in bodies that wait, threw a cancellation that it didn't acknowledge
RETURNED, THREW, ACKNOWLEDGED, LET_OUT = "returned", "threw", "acknowledged", "let out"
THROWN = (THREW, LET_OUT)


class TooManyStates(Exception):
    """The graph has more states than are gone through."""


class Act(NamedTuple):
    """What happens, by its word in a journal; the task or token that it is of; how a job answered, or which task won."""

    word: str
    what: int | str
    more: int | str | None = None


class Task(NamedTuple):
    """A task so far: what is left of its body and how that was over, whether it has begun, how it ended and whose exceptions
    it carries, and of a WhenAny task the winner."""

    phase: str
    left: tuple
    over: str | None = None
    has_begun: bool = False
    final: str | None = None
    carried: tuple[int, ...] = ()
    winner: int | None = None


class State(NamedTuple):
    """A run so far, as far as it matters for what follows and for claims: the tasks, the tokens that were requested
    themselves, the tasks whose exceptions were observed, and the sites whose jobs answered otherwise than done."""

    tasks: tuple[Task, ...]
    asked: frozenset[str] = frozenset()
    seen: frozenset[int] = frozenset()
    failed: frozenset[str] = frozenset()

    def with_task(self, place: int, **changed):
        tasks = list(self.tasks)
        tasks[place] = tasks[place]._replace(**changed)
        return self._replace(tasks=tuple(tasks))


class Facts(NamedTuple):
    """What claims and what is given speak of."""

    finals: tuple[str | None, ...]
    begun: frozenset[int]
    # the tasks with a body that are settled and have never begun
    missed: frozenset[int]
    requested: frozenset[str]
    # the sites whose jobs answered otherwise than done
    failed: frozenset[str]
    # the tasks whose bodies threw an exception, and those of them whose exception wasn't observed
    threw: frozenset[int]
    unread: frozenset[int]
    is_complete: bool


class Begin(NamedTuple):
    """A task begins: what is so then, and which tasks were settled before."""

    task: int
    facts: Facts
    settled: frozenset[int]


class Machine:
    """What may happen in a graph with these values of its inputs."""

    def __init__(self, graph: Graph, inputs: dict[str, bool]):
        self.graph, self.inputs = graph, inputs

    def opening(self) -> State:
        """Before the first event. WhenAll of nothing has ended."""
        tasks = []
        for task in self.graph.tasks:
            is_over = task.kind == "all" and not task.of
            tasks.append(Task(ENDED if is_over else OPENING.get(task.kind, WAITING), task.body, final=RAN if is_over else None))
        state = State(tuple(tasks))
        for place in self.graph.having("any"):
            ended = (argument for argument in self.graph.tasks[place].of if state.tasks[argument].final)
            state = state.with_task(place, winner=next(ended, None))
        return state

    # ---- what may happen next

    def following(self, state: State) -> Iterator[tuple[Act, State]]:
        """Each event that is allowed, with the state after it."""
        requested = self.requested(state)
        for token in self.graph.sources:
            if token not in requested:
                yield Act("request", token), state._replace(asked=state.asked | {token})
        for place, task in enumerate(state.tasks):
            if task.phase == RUNNING:
                yield from self.in_body(state, place, requested)
            elif task.phase != ENDED:
                yield from self.outside_body(state, place, requested)

    def requested(self, state: State) -> frozenset[str]:
        return self.graph.requested_with(state.asked)

    def outside_body(self, state: State, place: int, requested):
        """A task that isn't running and hasn't ended is released, begun, dropped, closed or settled."""
        task, now = self.graph.tasks[place], state.tasks[place]
        is_stopped = task.token in requested
        if now.phase == READY and is_stopped:
            yield Act("drop", place), self.ended(state, place, CANCELED)
        elif now.phase == READY:
            yield Act("begin", place), self.begun(state, place)
        elif now.phase == CLOSING and self.is_alone(state, place):
            yield Act("close", place), self.body_ended(state, place)
        elif now.phase == WAITING and task.kind == "then":
            yield from self.continuation(state, place, is_stopped)
        elif now.phase == WAITING:
            yield from self.settled(state, place)

    def continuation(self, state: State, place: int, is_stopped: bool):
        """A continuation that waits for its activation is released or dropped."""
        task = self.graph.tasks[place]
        final = state.tasks[task.antecedent].final
        if final and task.may_follow(final) and not is_stopped:
            yield Act("release", place), state.with_task(place, phase=READY)
        may_stop = is_stopped and (not task.is_lazy or final)
        if may_stop or final and not task.may_follow(final):
            yield Act("drop", place), self.ended(state, place, CANCELED)

    def settled(self, state: State, place: int):
        """A WhenAll or WhenAny task that waits ends where all, or one, of its tasks have."""
        task = self.graph.tasks[place]
        finals = [state.tasks[argument].final for argument in task.of]
        if task.kind == "any" and any(finals):
            yield Act("settle", place), self.ended(state, place, RAN)
        if task.kind == "all" and all(finals):
            worst = FAULTED if FAULTED in finals else CANCELED if CANCELED in finals else RAN
            yield Act("settle", place), self.ended(state, place, worst, self.gathered(state, (), task.of))

    def begun(self, state: State, place: int) -> State:
        """The task begins."""
        return state.with_task(place, phase=RUNNING, has_begun=True)

    def in_body(self, state: State, place: int, requested):
        """A running task passes its next statement, or its body is left."""
        now = state.tasks[place]
        if now.over or not now.left:
            left = state.with_task(place, phase=CLOSING, over=now.over or RETURNED)
            yield Act("leave", place), self.body_ended(left, place) if self.is_alone(left, place) else left
        elif now.left[0][0] == "work":
            yield from self.worked(state, place, now.left[0])
        else:
            yield Act("step", place), self.stepped(state, place, requested)

    def worked(self, state: State, place: int, job: tuple) -> Iterator[tuple[Act, State]]:
        """The job of the next statement answers."""
        left, missed = state.tasks[place].left[1:], state._replace(failed=state.failed | {job[1]})
        yield Act("worked", place, "done"), self.with_rest(state, place, left)
        if job[2]:
            yield Act("worked", place, "failed"), self.thrown(missed, place, THREW)

    def stepped(self, state: State, place: int, requested) -> State:
        """The next statement is passed, which is no job."""
        statement, *more = state.tasks[place].left
        word, left = statement[0], tuple(more)
        if word in ("return", "throw", "check"):
            way = self.way_of(statement, self.graph.tasks[place].token, requested)
            return self.thrown(state, place, way) if way else self.with_rest(state, place, left)
        if word in ("if", "when"):
            return self.with_rest(state, place, self.chosen(state, place, statement) + left)
        return self.acted(self.with_rest(state, place, left), place, statement)

    def with_rest(self, state: State, place: int, left: tuple) -> State:
        """The body goes on with these statements."""
        return state.with_task(place, left=left)

    def thrown(self, state: State, place: int, way: str) -> State:
        """What comes out of the next statement ends the body."""
        return state.with_task(place, left=(), over=way)

    def way_of(self, statement: tuple, own: str | None, requested) -> str | None:
        """What comes out of the body by this statement, or None where it goes on."""
        if statement[0] == "return":
            return RETURNED
        if statement[0] == "throw":
            return THREW
        if statement[1] not in requested:
            return None
        return ACKNOWLEDGED if statement[1] == own else THREW

    def chosen(self, state: State, place: int, statement: tuple) -> tuple:
        """The list of statements that a branch takes."""
        word, what, first, second = statement
        if word == "if":
            return first if self.inputs[what] else second
        subject = self.subject(state, place)
        return first if subject is not None and state.tasks[subject].final == what else second

    def acted(self, passed: State, place: int, statement: tuple) -> State:
        """A statement that requests, starts or observes was passed."""
        word = statement[0]
        if word == "cancel":
            return passed._replace(asked=passed.asked | {statement[1]})
        if word == "start":
            return passed.with_task(self.graph.places[statement[1]], phase=READY)
        subject = self.subject(passed, place)
        carried = () if subject is None else passed.tasks[subject].carried
        return passed._replace(seen=passed.seen.union(carried))

    # ---- how tasks end

    def subject(self, state: State, place: int) -> int | None:
        """Whose end and exceptions a continuation sees: its antecedent, or the winner where that is a WhenAny task."""
        after = self.graph.tasks[place].after
        if after is None or self.graph.tasks[after].kind != "any":
            return after
        return state.tasks[after].winner

    def is_alone(self, state: State, place: int) -> bool:
        """Each attached child that was started has ended."""
        return all(state.tasks[each_place].phase in (CREATED, ENDED) for each_place in self.graph.attached[place])

    def gathered(self, state: State, atoms: tuple[int, ...], tasks) -> tuple[int, ...]:
        """These exceptions, then what these tasks carry, each once."""
        carried = (atom for task in tasks for atom in state.tasks[task].carried)
        return tuple(dict.fromkeys((*atoms, *carried)))

    def body_ended(self, state: State, place: int) -> State:
        """The body is over and the task's attached children have ended."""
        over = state.tasks[place].over
        atoms = self.gathered(state, (place,) if over in THROWN else (), self.graph.attached[place])
        final = FAULTED if atoms else CANCELED if over == ACKNOWLEDGED else RAN
        return self.ended(state, place, final, atoms)

    def ended(self, state: State, place: int, final: str, carried: tuple[int, ...] = ()) -> State:
        """The task ends, and wins the WhenAny tasks none of whose tasks has ended before."""
        after = state.with_task(place, phase=ENDED, final=final, carried=carried)
        for other in self.graph.having("any"):
            if place in self.graph.tasks[other].of and after.tasks[other].winner is None:
                after = after.with_task(other, winner=place)
        return after

    # ---- what is so

    def is_settled(self, state: State, place: int) -> bool:
        """It has ended, or is a child that isn't started and whose parent is settled."""
        phase = state.tasks[place].phase
        return phase == ENDED or phase == CREATED and self.is_settled(state, self.graph.parents[place])

    def facts_of(self, state: State) -> Facts:
        threw = frozenset(place for place, it in enumerate(state.tasks) if it.over in THROWN)
        idle = [place for place in self.graph.having(*WITH_BODY) if not state.tasks[place].has_begun]
        return Facts(
            tuple(task.final for task in state.tasks),
            frozenset(place for place, it in enumerate(state.tasks) if it.has_begun),
            frozenset(place for place in idle if self.is_settled(state, place)),
            self.requested(state),
            state.failed,
            threw,
            threw - state.seen,
            all(task.phase in (ENDED, CREATED) for task in state.tasks),
        )


class Runs(Machine):
    """All runs of a graph with these values of its inputs."""

    def __init__(self, graph: Graph, inputs: dict[str, bool], most: int):
        super().__init__(graph, inputs)
        self.facts: set[Facts] = set()
        self.begins: set[Begin] = set()
        self.count = self.explore(most)

    def explore(self, most: int) -> int:
        """Goes through all states, and says how many there are."""
        first = self.opening()
        known, left = {first}, [first]
        while left:
            state = left.pop()
            self.facts.add(self.facts_of(state))
            for _, following in self.following(state):
                if following not in known:
                    known.add(following)
                    left.append(following)
            if len(known) > most:
                raise TooManyStates
        return len(known)

    def begun(self, state: State, place: int) -> State:
        """The task begins, which is noted."""
        after = super().begun(state, place)
        settled = frozenset(number for number in range(len(state.tasks)) if self.is_settled(state, number))
        self.begins.add(Begin(place, self.facts_of(after), settled))
        return after


def is_given(graph: Graph, facts: Facts, given) -> bool:
    """What is given, but for inputs, is true of a run so far."""
    if given == "no_failure":
        return not facts.failed
    if given == "no_request":
        return not facts.requested
    if "quiet" in given:
        return given["quiet"] not in facts.requested
    if "succeeds" in given:
        return given["succeeds"] not in facts.failed
    if "ended" in given:
        return facts.finals[graph.places[given["ended"]]] in (None, *given["in"])
    if "begins" in given:
        return graph.places[given["begins"]] not in facts.missed
    if "never" in given:
        return graph.places[given["never"]] not in facts.begun
    return True


def is_so(graph: Graph, facts: Facts, claim: dict) -> bool:
    """What a claim other than `after` says is true of a run so far."""
    place = graph.places
    if "final" in claim:
        return facts.finals[place[claim["final"]]] in (None, *claim["in"])
    if "observed" in claim:
        return not facts.is_complete or place[claim["observed"]] not in facts.unread
    if "never" in claim:
        return place[claim["never"]] not in facts.begun
    if "runs" in claim:
        return not facts.is_complete or place[claim["runs"]] in facts.begun
    first, second = claim["excludes"]
    return not {place[first], place[second]} <= facts.begun


def left(task: str, ended: list[dict]) -> set[str]:
    """The ends of a task that what is given of ends leaves."""
    return set(FINALS).intersection(*(end["in"] for end in ended if end["ended"] == task))


class Truth:
    """Which claims hold in every run of a graph."""

    def __init__(self, document: dict, most: int = 30_000, kind: type[Runs] = Runs):
        self.graph = Graph(document)
        values = itertools.product((False, True), repeat=len(self.graph.inputs))
        self.all = [kind(self.graph, dict(zip(self.graph.inputs, each)), most) for each in values]

    def holds(self, claim: dict) -> bool:
        """The claim holds in every run that agrees with what it takes as given."""
        return all(self.holds_in(runs, claim) for runs in self.all if self.agrees(runs, claim))

    def agrees(self, runs: Runs, claim: dict) -> bool:
        """The inputs have the values that the claim takes as given."""
        values = [fact for fact in claim.get("given", []) if isinstance(fact, dict) and "input" in fact]
        return all(runs.inputs[value["input"]] == value["is"] for value in values)

    def kept(self, claim: dict) -> list[Facts]:
        """What is so at each moment of the runs at which what the claim takes as given is true."""
        given = claim.get("given", [])
        each = (facts for runs in self.all if self.agrees(runs, claim) for facts in runs.facts)
        return [facts for facts in each if all(is_given(self.graph, facts, one) for one in given)]

    def why_empty(self, claim: dict) -> set[str]:
        """Why a claim that holds says nothing: the words of `verify` for each reason that there is."""
        kept, place = self.kept(claim), self.graph.places
        complete = [facts for facts in kept if facts.is_complete]
        ended = [one for one in claim.get("given", []) if isinstance(one, dict) and "ended" in one]
        why = {
            "NeverBegins": any(not any(place[name] in facts.begun for facts in kept) for name in self.speaks_of_begin(claim)),
            "NamesAllEnds": {*FINALS} == {*claim.get("in", [])},
            "NamesGivenEnds": "final" in claim and left(claim["final"], ended) <= {*claim["in"]},
            "NeverThrows": "observed" in claim and not any(place[claim["observed"]] in facts.threw for facts in complete),
            "NeverEndsSo": any(not any(facts.finals[place[end["ended"]]] for facts in kept) for end in ended),
            "NeverEnds": "final" in claim and not any(facts.finals[place[claim["final"]]] for facts in kept),
            "NeverKept": not complete and not {"runs", "observed"}.isdisjoint(claim),
        }
        return {word for word, is_so in why.items() if is_so}

    def speaks_of_begin(self, claim: dict) -> list[str]:
        """The tasks of whose begin alone the claim speaks."""
        if "final" in claim:
            has_body = self.graph.tasks[self.graph.places[claim["final"]]].kind in WITH_BODY
            return [claim["final"]] if has_body and claim["in"] != [CANCELED] else []
        return [*claim.get("after", [])[1:], *claim.get("excludes", []), *([claim["observed"]] if "observed" in claim else [])]

    def holds_in(self, runs: Runs, claim: dict) -> bool:
        given = claim.get("given", [])

        def taken(facts):
            return all(is_given(self.graph, facts, fact) for fact in given)

        if "after" in claim:
            first, second = (self.graph.places[task] for task in claim["after"])
            return all(first in begin.settled for begin in runs.begins if begin.task == second and taken(begin.facts))
        return all(is_so(self.graph, facts, claim) for facts in runs.facts if taken(facts))
