"""Mistakes that a reader of version 4 could make of which tasks a body may wait for: each is a model of the rules with this one
thing wrong."""
from bodies import Started


class LaterHead(Started):
    """Any task that is no child may be waited for."""

    def is_earlier(self, other, place):
        return True


class AnyBrother(Started):
    """Any child of the same parent may be waited for, whenever it is started."""

    def had_started(self, place, other):
        return place in self.graph.parents and self.graph.parents[place] == self.graph.parents[other]


class NoBrothers(Started):
    """Only children of the body itself may be waited for."""

    def had_started(self, place, other):
        return False


class NoUncles(Started):
    """What was started where the parent was started may not be waited for."""

    def may_wait(self, place, other, surely):
        is_uncle = other in self.graph.parents and other not in surely and not self.had_started(place, other)
        return not is_uncle and super().may_wait(place, other, surely)


class UnionWhereListsMeet(Started):
    """Behind a branch is what one of the lists has."""

    def met(self, statement, ends):
        return frozenset.union(*ends)


class NothingBehindLeaving(Started):
    """Behind a return or a throw is what was before it."""

    def behind_leaving(self, place, surely):
        return surely


class HandlerBeginsWithTheEnd(Started):
    """A handler begins with what the try's list ends with."""

    def handler_begin(self, surely, end):
        return end


class FinallyBeginsWithTheEnd(Started):
    """A finally begins with what the try's list ends with."""

    def finally_begin(self, surely, end):
        return end


class HandlersForgotten(Started):
    """Behind a try is what its list has."""

    def met_behind_try(self, end, ends):
        return end


class FinallyAddsNothing(Started):
    """Behind a try isn't what its finally starts."""

    def behind_try(self, place, statement, surely):
        without = (*statement[:4], None)
        super().behind_try(place, statement, surely)
        return super().behind_try(place, without, surely)


MISTAKES: dict[str, type[Started]] = {mistaken.__name__: mistaken for mistaken in Started.__subclasses__()}
