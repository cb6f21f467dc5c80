"""All runs of a small graph of version 4, and what can be seen of each of them from outside its method.

The method is the graph's first task, and the calls that it makes are its children.
"""
import functools
import itertools
from collections.abc import Iterator

import every_run
import machine
from every_run import CREATED, ENDED, Act, State
from small import Graph

# what was seen in turn, and then whose exceptions nobody had read
Outcome = tuple[tuple[str, ...], tuple[str, ...]]


class Stuck(Exception):
    """A run that isn't complete can't go on."""


class Runs(machine.Machine, every_run.Runs):
    """All runs of a graph with these values of its inputs, and the states from which a run that isn't complete can't go on."""

    def __init__(self, graph: Graph, inputs: dict[str, bool], most: int):
        self.stuck: list[State] = []
        super().__init__(graph, inputs, most)

    def following(self, state: State) -> Iterator[tuple[Act, State]]:
        found = [*super().following(state)]
        if not found and not self.facts_of(state).is_complete:
            self.stuck.append(state)
        return iter(found)


class Outcomes:
    """What can be seen of the runs of a graph with these values of its inputs."""

    def __init__(self, machine: machine.Machine):
        self.machine, self.graph = machine, machine.graph
        self.ends = functools.cache(self.ends_of)

    def all(self) -> set[Outcome]:
        return set(self.ends(self.machine.opening()))

    def ends_of(self, state: State) -> frozenset[Outcome]:
        """What can be seen of a run from here on."""
        facts, found = self.machine.facts_of(state), set()
        for act, following in self.machine.following(state):
            seen = tuple(self.seen(act, state, following))
            found |= {(seen + more, unread) for more, unread in self.ends(following)}
        if not found and not facts.is_complete:
            raise Stuck(state)
        if facts.is_complete:
            unread = (self.graph.tasks[place].name for place in facts.unread if place in self.graph.parents)
            found.add(((), tuple(sorted(unread))))
        return frozenset(found)

    def seen(self, act: Act, before: State, after: State) -> Iterator[str]:
        """What an event shows: a request, a call, work of the method's own, and how a call or the method ends."""
        if act.word == "request":
            yield f"request {act.what}"
        if act.word == "worked" and act.what == 0:
            yield f"do {before.tasks[0].left[0][1]} {act.more}"
        for task, earlier, later in zip(self.graph.tasks, before.tasks, after.tasks):
            if earlier.phase == CREATED != later.phase:
                yield f"call {task.name}"
            if earlier.phase != ENDED == later.phase:
                yield f"end {task.name} {later.final}"


def each_inputs(graph: Graph) -> Iterator[dict[str, bool]]:
    """Each way in which the inputs of a graph may have values."""
    values = itertools.product((False, True), repeat=len(graph.inputs))
    return (dict(zip(graph.inputs, each)) for each in values)


def stuck(document: dict, most: int) -> list[State]:
    """The states of a document's runs from which none goes on, though it isn't complete."""
    graph = Graph(document)
    return [state for inputs in each_inputs(graph) for state in Runs(graph, inputs, most).stuck]


def outcomes(document: dict, kind: type[machine.Machine] = machine.Machine) -> set[Outcome]:
    """What can be seen of the runs of a document, whatever its inputs are, by a machine of this kind."""
    graph = Graph(document)
    return set().union(*(Outcomes(kind(graph, inputs)).all() for inputs in each_inputs(graph)))


def told(outcome: Outcome) -> str:
    """An outcome on a line."""
    seen, unread = outcome
    return ", ".join(seen) + (f"; unread {', '.join(unread)}" if unread else "")
