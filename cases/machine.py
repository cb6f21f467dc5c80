"""What may happen in a graph of version 4, whose bodies wait, throw and catch, by the rules of such documents alone.

What is left of a body is a list of statements and marks. A try at the front of it is unfolded, and a mark there is passed, at
once: neither is an event. What isn't about bodies is as every_run.py has it.
"""
from collections.abc import Iterable, Iterator
from typing import NamedTuple

import every_run
from every_run import ACKNOWLEDGED, LET_OUT, RETURNED, THREW, Act, State
from small import CANCELED, FAULTED

# what is under way outwards in a body that is neither a return nor an exception: of the task's own token, or of another or none
CANCELLATIONS = (ACKNOWLEDGED, LET_OUT)
WAITS = ("await", "wait", "await_any")


class Trying(NamedTuple):
    """Behind the list of a try: its handlers, and its finally. None is left out."""

    catch_canceled: tuple | None
    catch: tuple | None
    last: tuple | None


class Caught(NamedTuple):
    """Behind a handler: what was caught, and the finally."""

    way: str
    last: tuple | None


class Ending(NamedTuple):
    """Behind a finally: what goes on when it ends, or None if nothing was under way."""

    way: str | None


class Machine(every_run.Machine):
    """What may happen in a graph of version 4. Ten acts: the tenth is the resume of a body that waits."""

    # ---- what is under way outwards

    def unfolded(self, left: tuple) -> tuple[tuple, str | None]:
        """What is left, with a statement at the front, or nothing; and how the body is over, if it is."""
        while left:
            head, more = left[0], left[1:]
            if head[0] == "try":
                left = (*head[1], Trying(*head[2:]), *more)
            elif isinstance(head, (Trying, Caught)):
                last = self.last_of(head, None)
                left = more if last is None else (*last, Ending(None), *more)
            elif isinstance(head, Ending):
                way = self.behind_finally(head)
                if way:
                    return self.outwards(more, way)
                left = more
            else:
                break
        return left, None

    def outwards(self, left: tuple, way: str) -> tuple[tuple, str | None]:
        """The same where this is under way outwards, to the nearest handler or finally."""
        for place, mark in enumerate(left):
            more = left[place + 1 :]
            handler = self.handler(mark, way) if isinstance(mark, Trying) else None
            if handler is not None:
                return self.unfolded((*handler, *self.behind_handler(mark, way), *more))
            last = self.last_of(mark, way) if isinstance(mark, (Trying, Caught)) else None
            if last is not None:
                return self.unfolded((*last, Ending(way), *more))
            if isinstance(mark, Ending):
                way = self.replacing(mark.way, way)
        return (), way

    def last_of(self, mark: Trying | Caught, way: str | None) -> tuple | None:
        """The finally that this goes through, or a normal end; None if there is none."""
        return mark.last

    def behind_finally(self, mark: Ending) -> str | None:
        """What goes on where a finally ends."""
        return mark.way

    def replacing(self, before: str | None, way: str) -> str:
        """What goes on where this comes out of a finally, through which something was under way before."""
        return way

    def behind_handler(self, mark: Trying, way: str) -> tuple:
        """The marks behind a handler that caught this."""
        return (Caught(way, mark.last),)

    def handler(self, mark: Trying, way: str) -> tuple | None:
        """The list of a try that catches this, if there is one."""
        if way == RETURNED:
            return None
        return mark.catch_canceled if way in CANCELLATIONS and mark.catch_canceled is not None else mark.catch

    def over_by(self, place: int, way: str) -> str:
        """How the body of a task is over where nothing caught this."""
        return ACKNOWLEDGED if way == LET_OUT and self.graph.tasks[place].is_async else way

    def rethrown(self, left: tuple) -> str:
        """What the nearest catch around caught."""
        return next(mark.way for mark in left if isinstance(mark, Caught))

    # ---- the next statement of a body

    def begun(self, state: State, place: int) -> State:
        return self.with_rest(super().begun(state, place), place, state.tasks[place].left)

    def with_rest(self, state: State, place: int, left: tuple) -> State:
        return self.placed(state, place, *self.unfolded(left))

    def thrown(self, state: State, place: int, way: str) -> State:
        return self.placed(state, place, *self.outwards(state.tasks[place].left[1:], way))

    def placed(self, state: State, place: int, left: tuple, way: str | None) -> State:
        return state.with_task(place, left=left, over=self.over_by(place, way) if way else None)

    def in_body(self, state: State, place: int, requested) -> Iterator[tuple[Act, State]]:
        left = state.tasks[place].left
        if not left or left[0][0] not in WAITS:
            yield from super().in_body(state, place, requested)
        elif left[0][0] == "await_any":
            yield from self.resumed_by_any(state, place, left[0])
        elif self.may_resume(state, left[0]):
            yield Act("resume", place), self.resumed(state, place, left[0])

    def way_of(self, statement: tuple, own: str | None, requested) -> str | None:
        way = super().way_of(statement, own, requested)
        return LET_OUT if way == THREW and statement[0] == "check" else way

    def stepped(self, state: State, place: int, requested) -> State:
        left = state.tasks[place].left
        if left[0][0] == "rethrow":
            return self.thrown(state, place, self.rethrown(left))
        return super().stepped(state, place, requested)

    def worked(self, state: State, place: int, job: tuple) -> Iterator[tuple[Act, State]]:
        yield from super().worked(state, place, job)
        if job[3]:
            missed = state._replace(failed=state.failed | {job[1]})
            yield Act("worked", place, "canceled"), self.thrown(missed, place, LET_OUT)

    # ---- awaits

    def awaited(self, statement: tuple) -> list[int]:
        """The tasks that a statement waits for."""
        return [self.graph.places[name] for name in statement[1]]

    def may_resume(self, state: State, statement: tuple) -> bool:
        """What an await or a wait waits for has ended."""
        return all(state.tasks[task].final for task in self.awaited(statement))

    def resumed(self, state: State, place: int, statement: tuple) -> State:
        """Behind an await or a wait, which observes all that the tasks carry."""
        tasks = self.awaited(statement)
        state = self.read(state, tasks)
        way = self.way_of_tasks(state, tasks, statement[0])
        left = state.tasks[place].left[1:]
        return self.thrown(state, place, way) if way else self.with_rest(state, place, left)

    def read(self, state: State, tasks: Iterable[int]) -> State:
        return state._replace(seen=state.seen.union(self.gathered(state, (), tasks)))

    def way_of_tasks(self, state: State, tasks: list[int], word: str) -> str | None:
        """What an await, or a wait, of tasks that have ended throws, or None."""
        finals = [state.tasks[task].final for task in tasks]
        if FAULTED in finals:
            return self.way_of_faulted(state, tasks[finals.index(FAULTED)], word)
        return self.way_of_canceled(word) if CANCELED in finals else None

    def way_of_canceled(self, word: str) -> str:
        """An await throws a cancellation, and a wait the exception that is around it."""
        return LET_OUT if word == "await" else THREW

    def way_of_faulted(self, state: State, task: int, word: str) -> str:
        """An await throws on the first exception, which is a cancellation if the task's own body let one out."""
        return LET_OUT if word == "await" and self.lets_out(state, task) else THREW

    def lets_out(self, state: State, task: int) -> bool:
        """The first exception of a task that is faulted is a cancellation: its own, or of its first argument that is faulted."""
        if self.graph.tasks[task].kind == "all":
            faulted = (argument for argument in self.graph.tasks[task].of if state.tasks[argument].final == FAULTED)
            return self.lets_out(state, next(faulted))
        return state.tasks[task].over == LET_OUT

    def resumed_by_any(self, state: State, place: int, statement: tuple) -> Iterator[tuple[Act, State]]:
        """Any task that has ended may be the winner, and nothing is thrown or observed."""
        for winner in self.winners(state, statement):
            left = self.branch(statement, winner) + state.tasks[place].left[1:]
            yield Act("resume", place, winner), self.with_rest(state, place, left)

    def winners(self, state: State, statement: tuple) -> list[int]:
        return [task for task in self.awaited(statement) if state.tasks[task].final]

    def branch(self, statement: tuple, winner: int) -> tuple:
        """The list for this winner, which is empty if none is named."""
        _, _, won, first, second = statement
        if won is None:
            return ()
        return first if self.graph.places[won] == winner else second
