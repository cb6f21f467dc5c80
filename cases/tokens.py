"""When a certificate of version 3 is accepted, by the rules of docs/CERTIFICATES.md that know of tokens and of winners alone.

What is known is told by facts: a task that is settled by its place, a token that is requested by its name. The rules of
rules.py that are the same here are taken from there. For trying out what compares a checker with all runs, a mistake can be
planted in the others.
"""
import collections
import dataclasses
import enum
from collections.abc import Iterable, Iterator, Sequence, Set
from typing import NamedTuple

import rules
from rules import ACKNOWLEDGED, BY_BODY, LEAST, RETURNED, THROWN, Fact, Split, Tree, split_on, taken_lists
from small import CANCELED, FAULTED, FINALS, RAN, Graph

FINAL_OF = {how: final for final, how in BY_BODY.items()}


class Mistake(enum.Enum):
    """A mistake that can be planted in the rules that know of tokens and of winners."""

    STARTS_BEHIND_ENDS = "starts behind that of a child without ends aren't counted"
    CUT_BY_GIVEN = "an end that is given cuts off ends of other tasks"
    ANTECEDENT_CUT_ALWAYS = "the antecedent of each continuation ended as its options allow"
    ALL_CUT_FOR_ONE = "where one task of a WhenAll's list didn't run to completion, none did"
    FACTS_BEFORE_END = "what holds once a child has ended is known where it is started"
    OWN_TOKEN_KNOWN = "a path knows the task's own token at its start"
    PASSED_CHECK_KNOWN = "behind a check that was passed its token is known"
    LINKS_DOWNWARDS = "the tokens that a token is linked to are requested with it"
    EARLY_BEHIND_ANTECEDENT = "a continuation that is canceled early is so behind its antecedent"
    UNION_OVER_DROPS = "what holds in one way to be canceled before the begin holds in each"
    DROPS_FORGOTTEN = "a continuation isn't canceled before it begins"
    CHILD_DROPPED_IF_RUNS = "a child is canceled before it begins only if its row runs"
    UNION_OVER_WINNERS = "what holds once one task of a WhenAny's list has ended holds once that has"
    CHAIN_THROUGH_ANY = "a continuation of a WhenAny task reads the exception of each task of its list"
    BURDEN_FORGOTTEN = "a path that starts a child which ends Faulted isn't burdened"
    SUBJECT_OF_EACH = "behind a WhenAny task the subject ended only as each task may that may win"


@dataclasses.dataclass
class Row(rules.Row):
    """What a leaf says of one task, tokens among it."""

    asked: set[str] = dataclasses.field(default_factory=set)
    asks: set[str] = dataclasses.field(default_factory=set)

    @property
    def begins(self) -> Set[Fact]:
        return self.before | self.asked

    @property
    def ended(self) -> Set[Fact]:
        return self.past | self.asks


def tasks_of(facts: Iterable[Fact]) -> set[int]:
    """The tasks that are settled by these facts."""
    return {fact for fact in facts if isinstance(fact, int)}


def tokens_of(facts: Iterable[Fact]) -> set[str]:
    """The tokens that are requested by these facts."""
    return {fact for fact in facts if isinstance(fact, str)}


# ---- the paths of a body


class Known(NamedTuple):
    """What all paths to a place have: the tokens that they know, and what holds once the attached children have ended that
    they started, these tokens among it."""

    tokens: frozenset[str]
    later: frozenset[Fact] = frozenset()

    def with_tokens(self, tokens: Iterable[str]):
        return Known(self.tokens.union(tokens), self.later.union(tokens))


# the paths to a place, those that are burdened apart: what they have in common, where there are any
Live = dict[bool, Known]


def meet(each: Iterable[Known]) -> Known | None:
    """What paths have in common of which some have the one and some the other; None where there are none."""
    each = list(each)
    if not each:
        return None
    tokens, later = (frozenset.intersection(*those) for those in zip(*each))
    return Known(tokens, later)


def joined(each: Sequence[Live]) -> Live:
    """The paths of each, burdened ones and others apart."""
    met = {
        is_burdened: meet(each_known[is_burdened] for each_known in each if is_burdened in each_known)
        for is_burdened in (False, True)
    }
    return {is_burdened: known for is_burdened, known in met.items() if known is not None}


class Paths:
    """What the paths of a task's body do: how they end it, whether one throws, and which children they start. Where each
    chooses an end of the attached children that it starts, else all go on there."""

    def __init__(self, leaf_rules, place: int, is_choosing: bool):
        self.rules, self.place, self.is_choosing = leaf_rules, place, is_choosing
        self.task, self.subject = leaf_rules.graph.tasks[place], leaf_rules.subject(place)
        self.ends: dict[str, list[Known]] = collections.defaultdict(list)
        self.starts: dict[int, list[Known]] = collections.defaultdict(list)
        self.may_throw = False
        self.end(RETURNED, self.through(self.task.body, {False: Known(frozenset()).with_tokens(self.at_first())}))

    def at_first(self) -> frozenset[str]:
        """The tokens that a path knows at its start."""
        asked = frozenset(self.rules.rows[self.place].asked)
        is_mistaken = Mistake.OWN_TOKEN_KNOWN in self.rules.leaf.planted and self.rules.is_loud(self.place)
        return asked | self.rules.with_links(self.task.token) if is_mistaken else asked

    def end(self, how: str, live: Live):
        """These paths end here, in this way."""
        self.may_throw = self.may_throw or how == THROWN and bool(live)
        for is_burdened, known in live.items():
            self.ends[FAULTED if is_burdened else FINAL_OF[how]].append(known)

    def through(self, body: tuple, live: Live) -> Live:
        """The paths that pass all statements, of those before them."""
        for statement in body:
            live = self.past(statement, live)
        return live

    def past(self, statement: tuple, live: Live) -> Live:
        """The paths that pass a statement."""
        word, leaf = statement[0], self.rules.leaf
        if word in ("if", "when"):
            return joined([self.through(each_list, live) for each_list in taken_lists(leaf, self.subject, statement)])
        if word in ("return", "throw"):
            self.end(RETURNED if word == "return" else THROWN, live)
            return {}
        if word in ("check", "cancel"):
            return (self.past_check if word == "check" else self.past_cancel)(statement[1], live)
        if word == "work" and statement[2] and not leaf.succeeds(statement[1]):
            self.end(THROWN, live)
        return self.past_start(self.rules.graph.places[statement[1]], live) if word == "start" else live

    def past_cancel(self, token: str, live: Live) -> Live:
        """A cancel of a quiet token isn't passed."""
        return self.with_tokens(token, live) if self.rules.leaf.is_loud(token) else {}

    def past_check(self, token: str, live: Live) -> Live:
        """A check of a loud token may end a path, and isn't passed where the path knows it."""
        if not self.rules.leaf.is_loud(token):
            return live
        self.end(ACKNOWLEDGED if token == self.task.token else THROWN, self.with_tokens(token, live))
        passed = {is_burdened: known for is_burdened, known in live.items() if token not in known.tokens}
        return self.with_tokens(token, passed) if Mistake.PASSED_CHECK_KNOWN in self.rules.leaf.planted else passed

    def with_tokens(self, token: str, live: Live) -> Live:
        """The same paths, which know the token too, with its links."""
        return {is_burdened: known.with_tokens(self.rules.with_links(token)) for is_burdened, known in live.items()}

    def past_start(self, child: int, live: Live) -> Live:
        """The paths behind the start of a child."""
        self.starts[child] += live.values()
        if child not in self.rules.graph.attached[self.place]:
            return live
        row, planted = self.rules.rows[child], self.rules.leaf.planted
        if Mistake.FACTS_BEFORE_END in planted:
            live = {is_burdened: known.with_tokens(row.asks) for is_burdened, known in live.items()}
        if not self.is_choosing and Mistake.STARTS_BEHIND_ENDS not in planted:
            return live
        live = {is_burdened: known._replace(later=known.later | row.ended) for is_burdened, known in live.items()}
        if Mistake.BURDEN_FORGOTTEN in planted:
            return live if row.ends else {}
        every = meet(live.values())
        burdened: Live = {True: every} if every and FAULTED in row.ends else {}
        return joined([live if row.ends - {FAULTED} else {}, burdened])


# ---- what a leaf assumes


@dataclasses.dataclass(frozen=True)
class Leaf(rules.Leaf):
    """What a leaf assumes: in `cut` what is given of ends, in `left` the ends that splits left to each task, and of each
    WhenAny task those that may win. Then the task whose exception is to be observed, if the claim says so of one."""

    left: tuple[frozenset[str], ...]
    winners: tuple[frozenset[int], ...]
    planted: frozenset[Mistake]
    observed: int | None

    def split(self, split: Split) -> list:
        place = self.graph.places[split.what] if split.word != "split_input" else 0
        if split.word == "split_end":
            return [self.with_left(place, {final}) for final in FINALS]
        if split.word == "split_winner":
            one = {self.graph.places[split.task or ""]}
            return [self.with_winners(place, item) for item in (one, self.winners[place] - one)]
        return super().split(split)

    def with_left(self, place: int, ends: Set[str]):
        left = [it & ends if at == place else it for at, it in enumerate(self.left)]
        return dataclasses.replace(self, left=tuple(left))

    def with_winners(self, place: int, tasks: Set[int]):
        winners = [it & tasks if at == place else it for at, it in enumerate(self.winners)]
        return dataclasses.replace(self, winners=tuple(winners))

    def splits(self) -> list[Split]:
        names = [task.name for task in self.graph.tasks]
        several = [place for place in self.graph.having("any") if len(self.graph.tasks[place].of) > 1]
        winners = [Split("split_winner", names[item], names[x]) for item in several for x in sorted(self.graph.tasks[item].of)]
        return [*super().splits(), *winners]

    def read(self, rows: list[dict]):
        return Rules(self, [row_of(self.graph, row) for row in rows])

    def best(self):
        return least(self)

    def cuts(self) -> list[frozenset[str]]:
        """The ends that are cut off neither by the splits, with what they say of other tasks, nor by a given."""
        left = list(self.left)
        if Mistake.CUT_BY_GIVEN in self.planted:
            left = [one & other for one, other in zip(left, self.cut)]
        for place, task in reversed(list(enumerate(self.graph.tasks))):
            is_sure = CANCELED not in left[place] or Mistake.ANTECEDENT_CUT_ALWAYS in self.planted
            if task.kind == "then" and is_sure:
                left[task.antecedent] -= task.excluded
            for argument in task.of if task.kind == "all" else ():
                left[argument] -= self.cut_by_all(left[place])
        return [one & other for one, other in zip(left, self.cut)]

    def cut_by_all(self, left: Set[str]) -> set[str]:
        """The ends that the tasks of a WhenAll's list lose where the splits leave it these."""
        lost = {FAULTED} if FAULTED not in left else set()
        if lost and CANCELED not in left:
            lost.add(CANCELED)
        if Mistake.ALL_CUT_FOR_ONE in self.planted and RAN not in left:
            lost.add(RAN)
        return lost


def assumed(graph: Graph, claim: dict, planted: Iterable[Mistake] = ()) -> Leaf:
    """What a certificate assumes for a claim, before its splits."""
    given = rules.assumed(graph, claim, True)
    said = {field.name: getattr(given, field.name) for field in dataclasses.fields(given)}
    every, winners = frozenset(FINALS), tuple(frozenset(task.of) for task in graph.tasks)
    observed = graph.places[claim["observed"]] if "observed" in claim else None
    return Leaf(**said, left=tuple(every for _ in graph.tasks), winners=winners, planted=frozenset(planted), observed=observed)


# ---- the rules


class Way(NamedTuple):
    """A way in which a task with a body may end: its final, and what holds then."""

    final: str
    facts: Set[Fact]


class Rules(rules.Rules):
    """The rules K1 to K6 for the rows of a leaf."""

    leaf: Leaf
    rows: Sequence[Row]

    def __init__(self, leaf: Leaf, rows: Sequence[Row]):
        super().__init__(leaf, rows)
        self.cut = leaf.cuts()

    def with_links(self, token: str | None) -> frozenset[str]:
        """The token, with those that are linked to it."""
        if token is None:
            return frozenset()
        is_mistaken = Mistake.LINKS_DOWNWARDS in self.leaf.planted
        return frozenset(self.graph.with_sources(token)) if is_mistaken else self.graph.requested_with({token})

    def winners(self, place: int) -> list[int]:
        """The tasks of a WhenAny's list that may win."""
        return sorted(self.leaf.winners[place])

    def subject(self, place: int) -> set[str]:
        after = self.graph.tasks[place].after
        if after is None or self.graph.tasks[after].kind != "any":
            return super().subject(place)
        each = [self.rows[each_place].ends for each_place in self.winners(after)]
        if Mistake.SUBJECT_OF_EACH in self.leaf.planted:
            return set(FINALS).intersection(*each)
        return set().union(*each)

    def known_at_start(self, child: int) -> frozenset[str] | None:
        """The tokens that all paths know that start the child; None where none does."""
        known = meet(Paths(self, self.graph.parents[child], False).starts[child])
        return known.tokens if known else None

    def is_started(self, child: int) -> bool:
        """A path starts the child, of a parent that runs."""
        return self.rows[self.graph.parents[child]].runs and self.known_at_start(child) is not None

    def must_run(self, place: int) -> bool:
        task = self.graph.tasks[place]
        if task.kind == "child":
            return self.is_started(place) and task.token not in (self.known_at_start(place) or ())
        if task.kind == "then":
            before = self.rows[task.antecedent]
            return bool(before.ends - task.excluded) and task.token not in before.asks
        return task.kind == "root"

    # ---- ways to end

    def ways(self, place: int) -> list[Way]:
        """The ways in which a task with a body may end."""
        drops = list(self.drops(place))
        if Mistake.UNION_OVER_DROPS in self.leaf.planted:
            every = set().union(*(drop.facts for drop in drops))
            drops = [drop._replace(facts=every) for drop in drops]
        return [statement for statement in (*self.by_body(place), *drops) if statement.final in self.cut[place]]

    def by_body(self, place: int) -> Iterator[Way]:
        """Its body ends it."""
        row = self.rows[place]
        for final, each in Paths(self, place, True).ends.items() if row.runs else ():
            known = meet(each)
            if known:
                yield Way(final, row.begins | self.before_begin(place) | known.later)

    def before_begin(self, place: int) -> Set[Fact]:
        """What holds when the task may begin, besides what its row says."""
        task = self.graph.tasks[place]
        if task.kind == "child":
            return self.rows[self.graph.parents[place]].before
        return self.once_ended(task.antecedent) if task.kind == "then" else set()

    def once_ended(self, place: int) -> Set[Fact]:
        """What holds once the task has ended."""
        return {place} | self.rows[place].ended

    def drops(self, place: int) -> Iterator[Way]:
        """It is canceled before it begins."""
        kind, own = self.graph.tasks[place].kind, self.with_links(self.graph.tasks[place].token)
        if kind == "root" and self.is_loud(place):
            yield Way(CANCELED, own)
        if kind == "child" and self.is_loud(place):
            yield from self.drops_of_child(place, own)
        if kind == "then" and Mistake.DROPS_FORGOTTEN not in self.leaf.planted:
            yield from self.drops_of_continuation(place, own)

    def drops_of_child(self, place: int, own: Set[str]) -> Iterator[Way]:
        may_be = self.rows[place].runs or Mistake.CHILD_DROPPED_IF_RUNS not in self.leaf.planted
        if self.is_started(place) and may_be:
            yield Way(CANCELED, own | self.before_begin(place) | (self.known_at_start(place) or set()))

    def drops_of_continuation(self, place: int, own: Set[str]) -> Iterator[Way]:
        task, behind = self.graph.tasks[place], self.before_begin(place)
        before = self.rows[task.antecedent].ends
        if self.is_loud(place) and not task.is_lazy:
            yield Way(CANCELED, own | behind if Mistake.EARLY_BEHIND_ANTECEDENT in self.leaf.planted else own)
        if self.is_loud(place) and before:
            yield Way(CANCELED, own | behind)
        if before & task.excluded:
            yield Way(CANCELED, behind)

    # ---- what the rules ask

    def must_end(self, place: int) -> set[str]:
        task = self.graph.tasks[place]
        if task.kind == "all":
            return self.all_ends(task.of) & self.cut[place]
        if task.kind == "any":
            return self.any_ends(self.winners(place)) & self.cut[place]
        return {way.final for way in self.ways(place)}

    def every_fact(self) -> Set[Fact]:
        return {*range(len(self.rows)), *self.graph.sources}

    def may_hold_before(self, place: int) -> Set[Fact]:
        task = self.graph.tasks[place]
        if not self.rows[place].runs or task.kind in ("all", "any"):
            return self.every_fact()
        if task.kind == "child":
            known = self.known_at_start(place)
            return self.before_begin(place) | (frozenset(self.graph.sources) if known is None else known)
        return self.before_begin(place)

    def may_hold_past(self, place: int) -> Set[Fact]:
        task = self.graph.tasks[place]
        if task.kind == "all":
            return set().union(*map(self.once_ended, task.of))
        if task.kind == "any":
            each = [self.once_ended(each_place) for each_place in self.winners(place) if self.rows[each_place].ends]
            is_mistaken = Mistake.UNION_OVER_WINNERS in self.leaf.planted and each
            return set().union(*each) if is_mistaken else self.in_each(each)
        return self.graph.below(place) | self.in_each([way.facts for way in self.ways(place)])

    def in_each(self, each: list[Set[Fact]]) -> Set[Fact]:
        """The facts that are in each of these, all where there is none."""
        common = self.every_fact()
        for known in each:
            common &= known
        return common

    def reads(self, reader: int, place: int) -> bool:
        return super().reads(reader, place) or self.reads_winner(reader, place)

    def reads_winner(self, reader: int, place: int) -> bool:
        """It continues a WhenAny task that only the task at this place may win, and reads its exception."""
        task = self.graph.tasks[reader]
        if task.kind != "then" or self.graph.tasks[task.antecedent].kind != "any":
            return False
        winners = self.winners(task.antecedent)
        is_winner = winners == [place] or place in winners and Mistake.CHAIN_THROUGH_ANY in self.leaf.planted
        return is_winner and task.may_follow(RAN) and not self.is_loud(reader) and self.observes(reader)

    def may_throw(self, place: int) -> bool:
        return Paths(self, place, True).may_throw

    def tree(self) -> dict:
        return {"rows": [row_text(self.graph, row) for row in self.rows]}


# ---- the least rows


def least(leaf: Leaf) -> Rules:
    """The rules for the least rows, those of a leaf without rows: they run and end only as K1 and K2 demand, and say all that
    K3 to K5 permit of begins and ends. They are made family by family, in declared order."""
    made, graph = Rules(leaf, [Row() for _ in leaf.graph.tasks]), leaf.graph
    attached = {child for each in graph.attached for child in each}
    for place in range(len(graph.tasks)):
        if place not in attached:
            make_family(made, place)
    return made


def make_family(made: Rules, place: int):
    """Makes the row of a task, and those of its attached children with it. No row is read by how another child begins or
    ends, but for its own children's, so it makes no difference that the rows of one child are whole before the next one's."""
    make_begin(made, place)
    for child in sorted(made.graph.attached[place]):
        make_family(made, child)
    make_end(made, place)


def make_begin(made: Rules, place: int):
    """The row says whether the task runs, and what holds then. One that doesn't run says nothing of its begin."""
    row = made.rows[place]
    row.runs = made.must_run(place)
    begins = made.may_hold_before(place) if row.runs else set()
    row.before, row.asked = tasks_of(begins), tokens_of(begins)


def make_end(made: Rules, place: int):
    """The row says how the task ends, and what holds then. One that can't end says nothing of its end. Only the task of a
    claim `observed` has a chain, since no other chain is looked at."""
    row = made.rows[place]
    row.ends = made.must_end(place)
    ended = made.may_hold_past(place) if row.ends else set()
    row.past, row.asks = tasks_of(ended), tokens_of(ended)
    if place == made.leaf.observed:
        row.chain = rules.chain_of(made, place) or []


def without_rows(tree: Tree) -> Tree:
    """The tree with leaves without rows."""
    branches = split_on(tree)
    return branches.split.tree([without_rows(each_tree) for each_tree in branches.trees]) if branches else LEAST


def with_rows(leaf: Leaf, tree: Tree) -> Tree:
    """The tree with the rows written out for which its leaves without rows stand, where this is assumed above it."""
    if isinstance(tree, str):
        return least(leaf).tree()
    branches = split_on(tree)
    if branches is None:
        return tree
    return branches.split.tree([with_rows(*each) for each in zip(leaf.split(branches.split), branches.trees)])


# ---- what is said of a certificate


def row_text(graph: Graph, row: Row) -> dict:
    """A row as a document has it."""

    def named(tokens):
        return [source for source in graph.sources if source in tokens]

    return {"asked": named(row.asked), "asks": named(row.asks), **rules.row_text(graph, row)}


def row_of(graph: Graph, said: dict) -> Row:
    """A row of a document."""
    it = rules.row_of(graph, said)
    return Row(it.ends, it.runs, it.before, it.past, it.chain, set(said.get("asked", [])), set(said.get("asks", [])))


def verdict(graph: Graph, claim: dict, tree: Tree) -> str:
    """What `check` answers to a document of version 3 with this claim and this tree alone."""
    return rules.judged(assumed(graph, claim), claim, tree)
