"""Mistakes that a machine of version 4 could make, or the one that tells which worker may act: each is a model of the rules with
this one thing wrong."""
from audited import Played
from every_run import ACKNOWLEDGED, CREATED, LET_OUT, RETURNED, THREW, THROWN, Act
from machine import CANCELLATIONS, Caught, Ending, Machine, Trying
from small import CANCELED, FAULTED, RAN, statements_of

# ---- what awaits and waits throw, and read


class AwaitOfCanceledThrows(Machine):
    """An await of a canceled task throws an exception."""

    def way_of_canceled(self, word):
        return THREW


class AwaitCancelsIfAllAre(Machine):
    """An await of several tasks throws a cancellation only if all of them are canceled."""

    def way_of_tasks(self, state, tasks, word):
        finals = {state.tasks[task].final for task in tasks}
        return None if finals == {RAN, CANCELED} else super().way_of_tasks(state, tasks, word)


class CanceledBeforeFaulted(Machine):
    """An await of a canceled and a faulted task throws a cancellation."""

    def way_of_tasks(self, state, tasks, word):
        is_canceled = CANCELED in (state.tasks[task].final for task in tasks)
        return self.way_of_canceled(word) if is_canceled else super().way_of_tasks(state, tasks, word)


class WaitOfCanceledCancels(Machine):
    """A wait of a canceled task throws a cancellation."""

    def way_of_canceled(self, word):
        return LET_OUT


class LetOutIsException(Machine):
    """An await of a faulted task throws an exception, whatever its body let out."""

    def way_of_faulted(self, state, task, word):
        return THREW


class FaultedIsCancellation(Machine):
    """An await of a faulted task throws a cancellation, whatever its body threw."""

    def way_of_faulted(self, state, task, word):
        return LET_OUT if word == "await" else THREW


class WaitOfLetOutCancels(Machine):
    """A wait of a task whose body let out a cancellation throws one."""

    def way_of_faulted(self, state, task, word):
        return super().way_of_faulted(state, task, "await")


class LetOutThroughChildren(Machine):
    """A cancellation that an attached child let out is one for who awaits the parent."""

    def lets_out(self, state, task):
        first = state.tasks[task].carried[:1]
        return super().lets_out(state, task) or any(state.tasks[carried].over == LET_OUT for carried in first)


class LetOutLostByWhenAll(Machine):
    """An await of a WhenAll task throws an exception, whatever its tasks let out."""

    def lets_out(self, state, task):
        return self.graph.tasks[task].kind != "all" and super().lets_out(state, task)


class LetOutLostAmongSeveral(Machine):
    """An await of several tasks throws an exception, whatever they let out."""

    def way_of_tasks(self, state, tasks, word):
        way = super().way_of_tasks(state, tasks, word)
        return THREW if len(tasks) > 1 and FAULTED in (state.tasks[task].final for task in tasks) else way


class LetOutByAnyArgument(Machine):
    """An await of a WhenAll task throws a cancellation if any of its tasks let one out."""

    def lets_out(self, state, task):
        if self.graph.tasks[task].kind == "all":
            return any(self.lets_out(state, argument) for argument in self.graph.tasks[task].of)
        return super().lets_out(state, task)


class LetOutByTheLast(Machine):
    """Of several tasks that are faulted the last one says what is thrown on."""

    def way_of_tasks(self, state, tasks, word):
        return super().way_of_tasks(state, tasks[::-1], word)


class AwaitReadsNothing(Machine):
    """An await observes no exception."""

    def resumed(self, state, place, statement):
        after = super().resumed(state, place, statement)
        return after if statement[0] == "wait" else after._replace(seen=state.seen)


class WaitReadsNothing(Machine):
    """A wait observes no exception."""

    def resumed(self, state, place, statement):
        after = super().resumed(state, place, statement)
        return after if statement[0] == "await" else after._replace(seen=state.seen)


class AwaitReadsTheFirst(Machine):
    """An await observes the exception that it throws on, and no other."""

    def read(self, state, tasks):
        faulted = [task for task in tasks if state.tasks[task].final == FAULTED]
        return state._replace(seen=state.seen.union(self.gathered(state, (), faulted)[:1]))


class AwaitReadsWhatIsNotCarried(Machine):
    """An await observes the exceptions of the tasks' own bodies alone."""

    def read(self, state, tasks):
        return state._replace(seen=state.seen.union(tasks))


class ThrownOnIsNotItsOwn(Machine):
    """What an await throws on is no exception of the body's own."""

    def resumed(self, state, place, statement):
        after = super().resumed(state, place, statement)
        return after._replace(seen=after.seen | {place}) if after.tasks[place].over in THROWN else after


class AwaitGoesOnAtTheFirst(Machine):
    """An await of several tasks goes on when one has ended."""

    def may_resume(self, state, statement):
        return any(state.tasks[task].final for task in self.awaited(statement))


class AwaitGoesOnAtOnce(Machine):
    """An await goes on before anything has ended."""

    def may_resume(self, state, statement):
        return True


class StepPassesAnAwait(Machine):
    """An await of what has ended is a step."""

    def in_body(self, state, place, requested):
        for act, after in super().in_body(state, place, requested):
            yield (act._replace(word="step", more=None) if act.word == "resume" else act), after


class ResumePassesAnyStatement(Machine):
    """A body that doesn't wait is resumed too."""

    def in_body(self, state, place, requested):
        for act, after in super().in_body(state, place, requested):
            yield act, after
            if act.word == "step":
                yield Act("resume", place), after


# ---- await_any


class OnlyOneThatRanWins(Machine):
    """Only a task that ran to completion wins."""

    def winners(self, state, statement):
        return [task for task in super().winners(state, statement) if state.tasks[task].final == RAN]


class FirstOfTheListWins(Machine):
    """Of those that have ended the first of the list wins."""

    def winners(self, state, statement):
        return super().winners(state, statement)[:1]


class FirstThatEndedWins(Played):
    """Of those that have ended the one wins that ended first."""

    def may_act(self, actor, act):
        named = [] if act.more is None or act.word != "resume" else self.state.tasks[act.what].left[0][1]
        ended = [task for task in self.enders if self.graph.tasks[task].name in named]
        return super().may_act(actor, act) and ended[:1] in ([], [act.more])


class AnyWaitsForAll(Machine):
    """An await of any goes on when all have ended."""

    def winners(self, state, statement):
        return super().winners(state, statement) if self.may_resume(state, statement) else []


class AnyReadsTheWinner(Machine):
    """An await of any observes what the winner carries."""

    def resumed_by_any(self, state, place, statement):
        for act, after in super().resumed_by_any(state, place, statement):
            yield act, self.read(after, [act.more])


class AnyThrowsOn(Machine):
    """An await of any throws on what the winner carries."""

    def resumed_by_any(self, state, place, statement):
        for act, after in super().resumed_by_any(state, place, statement):
            way = self.way_of_tasks(state, [act.more], "await")
            yield act, self.thrown(state, place, way) if way else after


class OthersTakeThen(Machine):
    """The list `then` is taken where another task than the one that is named wins."""

    def branch(self, statement, winner):
        word, named, won, first, second = statement
        return super().branch((word, named, won, second, first), winner)


class ThenIsAlwaysTaken(Machine):
    """The list `then` is taken whoever wins."""

    def branch(self, statement, winner):
        return statement[3] or ()


# ---- what is under way outwards


class OtherTokenFaults(Machine):
    """A check of another token makes an async body faulted."""

    def over_by(self, place, way):
        return way


class OtherTokenCancels(Machine):
    """A check of another token makes a plain body canceled."""

    def over_by(self, place, way):
        return ACKNOWLEDGED if way == LET_OUT else way


class OtherTokenIsException(Machine):
    """A check of another token throws an exception."""

    def way_of(self, statement, own, requested):
        way = super().way_of(statement, own, requested)
        return THREW if way == LET_OUT else way


class ReturnPastAFinally(Machine):
    """A return doesn't go through a finally."""

    def last_of(self, mark, way):
        return None if way == RETURNED else mark.last


class ExceptionPastAFinally(Machine):
    """An exception doesn't go through a finally."""

    def last_of(self, mark, way):
        return None if way == THREW else mark.last


class CancellationPastAFinally(Machine):
    """A cancellation doesn't go through a finally."""

    def last_of(self, mark, way):
        return None if way in CANCELLATIONS else mark.last


class EndPastAFinally(Machine):
    """The end of a try's list doesn't go through the finally."""

    def last_of(self, mark, way):
        return None if way is None and isinstance(mark, Trying) else mark.last


class HandlerPastAFinally(Machine):
    """What comes out of a handler, or its end, doesn't go through the finally."""

    def last_of(self, mark, way):
        return None if isinstance(mark, Caught) else mark.last


class FinallySwallows(Machine):
    """A finally that ends swallows what was thrown."""

    def behind_finally(self, mark):
        return mark.way if mark.way == RETURNED else None


class FinallySwallowsReturn(Machine):
    """A finally that ends goes on behind the try, where the body returned."""

    def behind_finally(self, mark):
        return None if mark.way == RETURNED else mark.way


class ThrownInFinallyIsLost(Machine):
    """What a finally throws doesn't take the place of what was under way."""

    def replacing(self, before, way):
        return before or way


class ThrownInFinallyStops(Machine):
    """What a finally throws goes no further, and the body goes on behind the try."""

    def outwards(self, left, way):
        mark = next((mark for mark in left if isinstance(mark, (Trying, Caught, Ending))), None)
        return self.unfolded(left[left.index(mark) + 1 :]) if isinstance(mark, Ending) else super().outwards(left, way)


class CatchTakesNoCancellation(Machine):
    """A catch takes exceptions alone."""

    def handler(self, mark, way):
        return mark.catch_canceled if way in CANCELLATIONS else super().handler(mark, way)


class CatchBeforeCatchCanceled(Machine):
    """A catch takes cancellations too where the try has a list of its own for them."""

    def handler(self, mark, way):
        return mark.catch if way != RETURNED and mark.catch is not None else super().handler(mark, way)


class CatchCanceledTakesExceptions(Machine):
    """The list for cancellations takes exceptions too."""

    def handler(self, mark, way):
        return mark.catch_canceled if way == THREW and mark.catch is None else super().handler(mark, way)


class ReturnIsCaught(Machine):
    """A catch takes a return."""

    def handler(self, mark, way):
        return mark.catch if way == RETURNED else super().handler(mark, way)


class NothingIsCaught(Machine):
    """What is thrown ends the body."""

    def handler(self, mark, way):
        return None


class ThrownInHandlerIsLost(Machine):
    """What a handler throws is lost."""

    def outwards(self, left, way):
        mark = next((mark for mark in left if isinstance(mark, (Trying, Caught, Ending))), None)
        is_lost = isinstance(mark, Caught) and way != RETURNED
        return self.unfolded(left[left.index(mark) :]) if is_lost else super().outwards(left, way)


class ThrownInHandlerIsCaught(Machine):
    """What a handler throws goes to the handlers of its own try."""

    def behind_handler(self, mark, way):
        return (mark._replace(last=None), Caught(way, mark.last))


class HandlersFollowOneAnother(Machine):
    """What the list for cancellations throws goes to the catch of its try."""

    def behind_handler(self, mark, way):
        is_first = way in CANCELLATIONS and mark.catch_canceled is not None
        marks = super().behind_handler(mark, way)
        return (Trying(None, mark.catch, None), *marks) if is_first and mark.catch is not None else marks


class RethrowIsException(Machine):
    """A rethrow throws an exception, whatever was caught."""

    def rethrown(self, left):
        return THREW


class RethrowOfTheOutermost(Machine):
    """A rethrow throws what the outermost catch around it caught."""

    def rethrown(self, left):
        return super().rethrown(left[::-1])


class TryTakesAStep(Machine):
    """A try at the front of a body takes a step."""

    def unfolded(self, left):
        return (left, None) if left and left[0][0] == "try" else super().unfolded(left)

    def stepped(self, state, place, requested):
        left = state.tasks[place].left
        if left[0][0] == "try":
            _, first, *handlers = left[0]
            return self.with_rest(state, place, (*first, Trying(*handlers), *left[1:]))
        return super().stepped(state, place, requested)


class FinallyBeforeHandler(Machine):
    """A finally is passed before the handler of its try."""

    def behind_handler(self, mark, way):
        return (Caught(way, None),)

    def handler(self, mark, way):
        handler = super().handler(mark, way)
        return handler and (*(mark.last or ()), *handler)


# ---- jobs that are canceled


class CanceledJobGoesOn(Machine):
    """Behind a canceled job the body goes on."""

    def worked(self, state, place, job):
        for act, after in super().worked(state, place, job):
            yield act, self.with_rest(state, place, state.tasks[place].left[1:]) if act.more == "canceled" else after


class CanceledJobIs(Machine):
    """A canceled job throws something else."""

    way: str

    def worked(self, state, place, job):
        for act, after in super().worked(state, place, job):
            yield act, self.thrown(state, place, self.way) if act.more == "canceled" else after


class CanceledJobIsAcknowledged(CanceledJobIs):
    """A canceled job throws a cancellation of the task's own token."""

    way = ACKNOWLEDGED


class CanceledJobIsException(CanceledJobIs):
    """A canceled job throws an exception."""

    way = THREW


class CanceledJobReturns(CanceledJobIs):
    """A canceled job ends the body as a return does."""

    way = RETURNED


class CanceledOnlyWhereItMayFail(Machine):
    """A job that may be canceled is so only if it may fail too."""

    def worked(self, state, place, job):
        yield from (each for each in super().worked(state, place, job) if job[2] or each[0].more != "canceled")


class CanceledOnlyWhereRequested(Machine):
    """A job is canceled only where some token is requested."""

    def worked(self, state, place, job):
        has_request = bool(self.requested(state))
        yield from (each for each in super().worked(state, place, job) if has_request or each[0].more != "canceled")


class AnyJobIsCanceled(Machine):
    """A job that may fail may be canceled."""

    def worked(self, state, place, job):
        yield from super().worked(state, place, (*job[:3], job[2] or job[3]))


# ---- who is attached to whom


class Attaching(Machine):
    """Other tasks are attached to a parent."""

    def is_attached(self, place, child):
        tasks = self.graph.tasks
        may = "AttachedToParent" in tasks[child].options and "DenyChildAttach" not in tasks[place].options
        return may and self.may_attach(tasks[place], tasks[child])

    def may_attach(self, parent, child):
        raise NotImplementedError

    def __init__(self, graph, inputs):
        super().__init__(graph, inputs)
        attached = (
            filter(lambda child: self.is_attached(place, child), graph.started_by(place)) for place in range(len(graph.tasks))
        )
        graph.attached = tuple(map(tuple, attached))


class AsyncBodyTakesChildren(Attaching):
    """A child is attached to an async parent."""

    def may_attach(self, parent, child):
        return not child.is_async


class AsyncChildIsAttached(Attaching):
    """An async child is attached to its parent."""

    def may_attach(self, parent, child):
        return not parent.is_async


# ---- what is given, and workers


class SucceedsByTheEnd(Machine):
    """A job that fails, and whose failure is caught, has succeeded."""

    def facts_of(self, state):
        facts = super().facts_of(state)
        loud = (self.graph.tasks[place].body for place in facts.threw)
        sites = {said[1] for body in loud for said in statements_of(body) if said[0] == "work"}
        return facts._replace(failed=facts.failed & sites)


class CanceledJobSucceeds(Machine):
    """A job that is canceled has succeeded."""

    def worked(self, state, place, job):
        for act, after in super().worked(state, place, job):
            yield act, after._replace(failed=state.failed) if act.more == "canceled" else after


class Given(Played):
    """What is given is kept otherwise."""

    def is_given(self, facts, given):
        word = next((word for word in ("begins", "never") if isinstance(given, dict) and word in given), "")
        return getattr(self, word)(facts, self.graph.places[given[word]]) if word else super().is_given(facts, given)

    def begins(self, facts, place):
        return place not in facts.missed

    def never(self, facts, place):
        return place not in facts.begun


class BeginsOnlyOnceBegun(Given):
    """A claim given that a task begins says nothing before it has begun."""

    def begins(self, facts, place):
        return place in facts.begun


class BeginsUntilDropped(Given):
    """That a task begins is broken by its drop alone."""

    def begins(self, facts, place):
        return place in facts.begun or facts.finals[place] is None


class BeginsIsKept(Given):
    """That a task begins is never broken."""

    def begins(self, facts, place):
        return True


class BeginsOfChildrenToo(Given):
    """That a task begins is broken by a child that never does."""

    def begins(self, facts, place):
        return facts.missed.isdisjoint({place, *self.graph.started_by(place)})


class NeverUntilStarted(Given):
    """That a task never begins is broken by its start."""

    def never(self, facts, place):
        return self.state.tasks[place].phase == CREATED


class NeverIsKept(Given):
    """That a task never begins is never broken."""

    def never(self, facts, place):
        return True


class ResumedByItsWorker(Played):
    """Only the worker who has begun a body resumes it."""

    def may_act(self, actor, act):
        return super().may_act(actor, act) and (act.word != "resume" or self.workers[act.what] == actor)


class BegunByItsWorker(Played):
    """The worker who has begun a body stays its worker."""

    def take(self, worker, word, place):
        super().take(self.workers.get(place, worker), word, place)


def all_below(kind: type) -> list[type]:
    return [found for below in kind.__subclasses__() for found in ([below] if not below.__subclasses__() else all_below(below))]


MISTAKES: dict[str, type] = {
    kind.__name__: kind for kind in [*all_below(Machine), *all_below(Played)] if kind.__module__ == __name__
}
