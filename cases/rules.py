"""When a certificate of a small graph is accepted, by the rules of docs/CERTIFICATES.md alone; and a search by these rules.

For trying out what compares a checker with all runs, a mistake can be planted in the rules.
"""
import dataclasses
import enum
from collections.abc import Sequence, Set
from typing import NamedTuple

from small import CANCELED, FAULTED, FINALS, RAN, WITH_BODY, Graph

RETURNED, THROWN, ACKNOWLEDGED = "returned", "thrown", "acknowledged"
BY_BODY = {RAN: RETURNED, FAULTED: THROWN, CANCELED: ACKNOWLEDGED}
# what stays so once it is: a task is settled, which is told by its place, or a token is requested, told by its name
Fact = int | str


class Mistake(enum.Enum):
    """A mistake that can be planted in the rules with tokens."""

    OWN_TOKEN_FOR_FINAL = "the task's own token is quiet for final"
    OWN_TOKEN_FOR_OBSERVED = "the task's own token is quiet for observed"
    OWN_TOKEN_FOR_RUNS = "the task's own token is quiet for runs"
    OWN_TOKENS_FOR_EXCLUDES = "the own tokens of both tasks are quiet for excludes, though they are two"
    RUNS_OF_CHILD = "runs is proved of a child that isn't canceled"
    RUNS_OF_CANCELED = "runs is proved of a task that may be canceled"
    CHILD_WITHOUT_ENDS = "no run is complete where a child can't end"
    ONE_SUCCEEDS_FOR_ALL = "a job that succeeds is taken for all jobs"
    ARGUMENT_LEFT_OUT = "the first argument of WhenAny is left out, though it has an end"
    UNION_FOR_ANY = "past WhenAny stands what is past one of its arguments"
    ENDED_AS_OTHERS = "what is given of the end of one task is taken for all tasks"


@dataclasses.dataclass
class Row:
    """What a leaf says of one task."""

    ends: set[str] = dataclasses.field(default_factory=set)
    runs: bool = False
    before: set[int] = dataclasses.field(default_factory=set)
    past: set[int] = dataclasses.field(default_factory=set)
    chain: list[int] = dataclasses.field(default_factory=list)

    @property
    def begins(self) -> Set[Fact]:
        """What holds when the task begins."""
        return self.before

    @property
    def ended(self) -> Set[Fact]:
        """What holds when it has ended."""
        return self.past


# a leaf without rows, which stands for the least ones; version 3 has it
LEAST = "least"
# a tree of a document
Tree = dict | str
# how many tasks a chain has at most
LONGEST_CHAIN = 16
# the members of a split's trees
MEMBERS = {"split_input": ("yes", "no"), "split_end": ("ran", "canceled", "faulted"), "split_winner": ("yes", "no")}
# the values of an input, in this order
VALUES = (True, False)


class Split(NamedTuple):
    """A split: on an input, on how a task ends, or on whether a task wins a WhenAny task."""

    word: str
    what: str
    task: str | None = None

    def tree(self, trees: Sequence[Tree]) -> dict:
        """A tree of a document with this split and these trees below it."""
        more = {"task": self.task} if self.task else {}
        return {self.word: self.what, **more, **dict(zip(MEMBERS[self.word], trees))}


class Branches(NamedTuple):
    """A split with its two or three trees."""

    split: Split
    trees: tuple


def split_on(tree: Tree) -> Branches | None:
    """The split of a tree of a document, or None for a leaf."""
    if isinstance(tree, str):
        return None
    word = next((member for member in MEMBERS if member in tree), None)
    if word is None:
        return None
    return Branches(Split(word, tree[word], tree.get("task")), tuple(tree[member] for member in MEMBERS[word]))


# ---- the paths of a body


def taken_lists(leaf, subject: set[str], statement: tuple) -> list[tuple]:
    """The lists of statements that a branch may take."""
    word, what, *lists = statement
    may_take = (value in leaf.possible[what] for value in VALUES) if word == "if" else (what in subject, bool(subject - {what}))
    return [it for it, is_taken in zip(lists, may_take) if is_taken]


class Paths:
    """What the paths of a body do: how they end, whether each that ends observes, and which children they start."""

    def __init__(self, leaf, body: tuple, own: str | None, subject):
        self.leaf, self.own, self.subject = leaf, own, subject
        # each way to end, with whether the path has observed
        self.endings: set[tuple[str, bool]] = set()
        self.starts: set[int] = set()
        self.endings |= {(RETURNED, has_observed) for has_observed in self.through(body, {False})}

    @property
    def ends(self) -> set[str]:
        return {it for it, _ in self.endings}

    @property
    def must_observe(self) -> bool:
        return all(has_observed for _, has_observed in self.endings)

    def through(self, body: tuple, live: set[bool]) -> set[bool]:
        """Whether the paths that pass all statements have observed, of those before them that had or hadn't."""
        for statement in body:
            if not live:
                return live
            live = self.past(statement, live)
        return live

    def end(self, how: str, live: set[bool]):
        self.endings |= {(how, has_observed) for has_observed in live}

    def past(self, statement: tuple, live: set[bool]) -> set[bool]:
        """The paths that pass a statement."""
        word = statement[0]
        if word in ("if", "when"):
            return set().union(*(self.through(each_list, live) for each_list in taken_lists(self.leaf, self.subject, statement)))
        if word in ("return", "throw"):
            self.end(RETURNED if word == "return" else THROWN, live)
            return set()
        if word == "check" and self.leaf.is_loud(statement[1]):
            self.end(ACKNOWLEDGED if statement[1] == self.own else THROWN, live)
        if word == "work" and statement[2] and not self.leaf.succeeds(statement[1]):
            self.end(THROWN, live)
        if word == "start":
            self.starts.add(self.leaf.graph.places[statement[1]])
        if word == "cancel" and not self.leaf.is_loud(statement[1]):
            return set()
        return {True} if word == "observe" else live


# ---- what a leaf assumes


def own_tokens(graph: Graph, claim: dict, mistakes) -> set[str]:
    """The own tokens that may be taken as quiet for a claim, by the rules with tokens."""
    names = claim.get("after", [])[1:] or [claim[each_word] for each_word in ("never",) if each_word in claim]
    mistaken = {
        "final": Mistake.OWN_TOKEN_FOR_FINAL,
        "observed": Mistake.OWN_TOKEN_FOR_OBSERVED,
        "runs": Mistake.OWN_TOKEN_FOR_RUNS,
    }
    names += [claim[word] for word, mistake in mistaken.items() if word in claim and mistake in mistakes]
    if "excludes" in claim:
        both = [graph.tasks[graph.places[exclude]].token for exclude in claim["excludes"]]
        is_one = both[0] == both[1] or Mistake.OWN_TOKENS_FOR_EXCLUDES in mistakes
        return {each for each in both if each} if is_one else set()
    return {token for token in (graph.tasks[graph.places[name]].token for name in names) if token}


@dataclasses.dataclass(frozen=True)
class Leaf:
    """What a leaf of a certificate assumes, and by which rules it is judged."""

    graph: Graph
    possible: dict[str, frozenset[bool]]
    quiet: frozenset[str]
    # of each task the ends that aren't cut off
    cut: tuple[frozenset[str], ...]
    sure: frozenset[str]
    has_tokens: bool
    mistakes: frozenset[Mistake]

    def is_loud(self, token: str | None) -> bool:
        return token is not None and token not in self.quiet

    def succeeds(self, site: str) -> bool:
        return site in self.sure or bool(self.sure) and Mistake.ONE_SUCCEEDS_FOR_ALL in self.mistakes

    def with_input(self, name: str, value: bool):
        return dataclasses.replace(self, possible={**self.possible, name: self.possible[name] & {value}})

    def with_end(self, place: int, ends):
        cut = [it & set(ends) if at == place else it for at, it in enumerate(self.cut)]
        return dataclasses.replace(self, cut=tuple(cut))

    def split(self, split: Split) -> list:
        """What is assumed in each branch of a split."""
        if split.word == "split_input":
            return [self.with_input(split.what, value) for value in VALUES]
        return [self.with_end(self.graph.places[split.what], {final}) for final in FINALS]

    def splits(self) -> list[Split]:
        """The splits that a search tries, in this order."""
        ends = [Split("split_end", task.name) for task in self.graph.tasks]
        return [*(Split("split_input", each_input) for each_input in self.graph.inputs), *ends]

    def read(self, rows: list[dict]):
        """The rules for rows of a document."""
        return Rules(self, [row_of(self.graph, row) for row in rows])

    def best(self):
        """The rules for the best rows that they permit."""
        return Rules(self, least(self))


def assumed(graph: Graph, claim: dict, has_tokens: bool, mistakes=frozenset()) -> Leaf:
    """What a certificate assumes for a claim, before its splits."""
    every = frozenset(FINALS)
    leaf = Leaf(
        graph,
        {each_input: frozenset((True, False)) for each_input in graph.inputs},
        frozenset(),
        tuple(every for _ in graph.tasks),
        frozenset(),
        has_tokens,
        frozenset(mistakes),
    )
    taken = [*claim.get("given", []), *({"quiet": token} for token in own_tokens(graph, claim, mistakes) if has_tokens)]
    for given in taken:
        leaf = with_given(leaf, given)
    return leaf


def with_given(leaf: Leaf, given) -> Leaf:
    """What is assumed besides where this is given."""
    graph = leaf.graph
    if given == "no_failure":
        return dataclasses.replace(leaf, sure=frozenset(graph.sites))
    if given == "no_request":
        return dataclasses.replace(leaf, quiet=frozenset(graph.sources))
    if "quiet" in given:
        return dataclasses.replace(leaf, quiet=leaf.quiet | graph.with_sources(given["quiet"]))
    if "succeeds" in given:
        return dataclasses.replace(leaf, sure=leaf.sure | {given["succeeds"]})
    if "ended" in given:
        for place in range(len(graph.tasks)) if Mistake.ENDED_AS_OTHERS in leaf.mistakes else [graph.places[given["ended"]]]:
            leaf = leaf.with_end(place, given["in"])
        return leaf
    return leaf.with_input(given["input"], given["is"])


# ---- the rules


class Rules:
    """The rules K1 to K6 for the rows of a leaf."""

    def __init__(self, leaf: Leaf, rows: Sequence[Row]):
        self.leaf, self.rows, self.graph = leaf, rows, leaf.graph

    def subject(self, place: int) -> set[str]:
        """How the subject of a task may have ended."""
        task = self.graph.tasks[place]
        if task.after is None:
            return set()
        after = self.graph.tasks[task.after]
        if after.kind == "any":
            return set().union(*(self.rows[argument].ends for argument in after.of))
        return self.rows[task.after].ends - task.excluded

    def paths(self, place: int) -> Paths:
        task = self.graph.tasks[place]
        return Paths(self.leaf, task.body, task.token, self.subject(place))

    def is_loud(self, place: int) -> bool:
        return self.leaf.is_loud(self.graph.tasks[place].token)

    def must_run(self, place: int) -> bool:
        """What K1 asks of `runs`."""
        task = self.graph.tasks[place]
        if task.kind == "child":
            parent = self.graph.parents[place]
            return self.rows[parent].runs and place in self.paths(parent).starts
        may_follow = task.kind == "then" and bool(self.rows[task.antecedent].ends - task.excluded)
        return task.kind == "root" or may_follow

    def must_end(self, place: int) -> set[str]:
        """What K2 asks of `ends`."""
        task = self.graph.tasks[place]
        by_kind = {"all": self.all_ends, "any": self.any_ends}
        ends = by_kind[task.kind](task.of) if task.kind in by_kind else self.own_ends(place)
        return ends & self.leaf.cut[place]

    def own_ends(self, place: int) -> set[str]:
        """How a task with a body may end."""
        task = self.graph.tasks[place]
        ends: set[str] = set()
        if self.rows[place].runs:
            paths = self.paths(place)
            ends |= {final for final, how in BY_BODY.items() if how in paths.ends}
            if any(
                FAULTED in self.rows[each_place].ends for each_place in self.graph.attached[place] if each_place in paths.starts
            ):
                ends.add(FAULTED)
            if task.kind != "then" and self.is_loud(place):
                ends.add(CANCELED)
        if task.kind == "then" and self.may_be_dropped(place):
            ends.add(CANCELED)
        return ends

    def may_be_dropped(self, place: int) -> bool:
        """A continuation may be canceled without its body."""
        task = self.graph.tasks[place]
        before = self.rows[task.antecedent].ends
        return self.is_loud(place) and (not task.is_lazy or bool(before)) or bool(before & task.excluded)

    def all_ends(self, of) -> set[str]:
        each, ends = [self.rows[argument].ends for argument in of], set()
        if all(RAN in each_ends for each_ends in each):
            ends.add(RAN)
        if all(each_ends - {FAULTED} for each_ends in each) and any(CANCELED in each_ends for each_ends in each):
            ends.add(CANCELED)
        if all(each) and any(FAULTED in each_ends for each_ends in each):
            ends.add(FAULTED)
        return ends

    def any_ends(self, of) -> set[str]:
        return {RAN} if any(self.rows[argument].ends for argument in of) else set()

    def may_hold_before(self, place: int) -> Set[Fact]:
        """What may be said to hold when a task begins."""
        return self.may_stand_before(place)

    def may_hold_past(self, place: int) -> Set[Fact]:
        """What may be said to hold when it has ended."""
        return self.may_stand_past(place)

    def may_stand_before(self, place: int) -> set[int]:
        """What K3 allows in `before`."""
        task, every = self.graph.tasks[place], set(range(len(self.rows)))
        if not self.rows[place].runs or task.kind in ("all", "any"):
            return every
        if task.kind == "child":
            return self.rows[self.graph.parents[place]].before
        return {task.antecedent} | self.rows[task.antecedent].past if task.kind == "then" else set()

    def may_stand_past(self, place: int) -> set[int]:
        """What K4 and K5 allow in `past`."""
        task, below = self.graph.tasks[place], self.graph.below(place)
        if task.kind in ("all", "any"):
            return self.past_many(task)
        if task.kind == "child":
            return self.rows[self.graph.parents[place]].before | below
        is_early = self.is_loud(place) and not task.is_lazy and CANCELED in self.rows[place].ends
        if task.kind == "root" or is_early:
            return below
        return {task.antecedent} | self.rows[task.antecedent].past | below

    def past_many(self, task) -> set[int]:
        """What may stand past WhenAll and WhenAny."""
        of = list(task.of)
        if task.kind == "any" and Mistake.ARGUMENT_LEFT_OUT in self.leaf.mistakes:
            of = of[1:] or of
        if task.kind == "any" and self.leaf.has_tokens:
            of = [argument for argument in of if self.rows[argument].ends]
        each = [{argument} | self.rows[argument].past for argument in of]
        is_union = task.kind == "all" or Mistake.UNION_FOR_ANY in self.leaf.mistakes
        if is_union:
            return set().union(*each)
        return set.intersection(*each) if each else set(range(len(self.rows)))

    def takes_over(self, place: int) -> list[int]:
        """The tasks that take over what a task carries."""
        parents = [it for it, attached in enumerate(self.graph.attached) if place in attached]
        return [*parents, *(each_place for each_place in self.graph.having("all") if place in self.graph.tasks[each_place].of)]

    def reads(self, reader: int, place: int) -> bool:
        """A continuation reads the exception of the task wherever that is faulted."""
        task = self.graph.tasks[reader]
        is_next = task.kind == "then" and task.after == place and task.may_follow(FAULTED) and not self.is_loud(reader)
        return is_next and self.observes(reader)

    def observes(self, reader: int) -> bool:
        """Each path of its body that ends passes an observe where its subject is faulted."""
        task = self.graph.tasks[reader]
        return Paths(self.leaf, task.body, task.token, {FAULTED}).must_observe

    def is_chain(self, place: int, chain: list[int]) -> bool:
        """What K6 asks of `chain`."""
        if not chain:
            return True
        *between, last = chain
        for each_place in between:
            if each_place not in self.takes_over(place):
                return False
            place = each_place
        return self.reads(last, place)

    def broken(self) -> tuple[int, str] | None:
        """The first task whose row breaks a rule, and the rule."""
        for place, row in enumerate(self.rows):
            kept = {
                "K1": row.runs or not self.must_run(place),
                "K2": self.must_end(place) <= row.ends,
                "K3": row.begins <= self.may_hold_before(place) or not row.runs,
                "K4": row.ended <= self.may_hold_past(place),
                "K6": self.is_chain(place, row.chain),
            }
            rule = next((it for it, is_kept in kept.items() if not is_kept), None)
            if rule:
                return place, "K5" if rule == "K4" and self.graph.tasks[place].kind in ("all", "any") else rule
        return None

    def tree(self) -> dict:
        """A leaf of a document with these rows."""
        return {"rows": [row_text(self.graph, row) for row in self.rows]}

    # ---- what a closed leaf proves

    def proves(self, claim: dict) -> bool:
        def place(name):
            return self.graph.places[name]

        if "final" in claim:
            return self.rows[place(claim["final"])].ends <= set(claim["in"])
        if "after" in claim:
            first, second = map(place, claim["after"])
            return not self.rows[second].runs or first in self.rows[second].before
        if "observed" in claim:
            return self.proves_observed(place(claim["observed"]))
        if "runs" in claim:
            return self.proves_runs(place(claim["runs"]))
        names = [claim["never"]] if "never" in claim else claim["excludes"]
        return not all(self.rows[place(each_name)].runs for each_name in names)

    def proves_observed(self, place: int) -> bool:
        row = self.rows[place]
        is_calm = FAULTED not in row.ends or not row.runs or not self.may_throw(place)
        return bool(row.chain) or is_calm or self.leaf.has_tokens and self.is_none_complete()

    def may_throw(self, place: int) -> bool:
        """Some path of its body ends with an exception."""
        return THROWN in self.paths(place).ends

    def proves_runs(self, place: int) -> bool:
        mistakes = self.leaf.mistakes
        kinds = WITH_BODY if Mistake.RUNS_OF_CHILD in mistakes else ("root", "then")
        is_sure = CANCELED not in self.rows[place].ends or Mistake.RUNS_OF_CANCELED in mistakes
        return self.graph.tasks[place].kind in kinds and is_sure or self.is_none_complete()

    def is_none_complete(self) -> bool:
        """A task that has to end can't: so no run is complete."""

        def has_to_end(task):
            return task.kind != "child" or Mistake.CHILD_WITHOUT_ENDS in self.leaf.mistakes

        return any(has_to_end(task) and not row.ends for task, row in zip(self.graph.tasks, self.rows))


# ---- the least rows, and a search


def least(leaf: Leaf) -> list[Row]:
    """The rows with the least `ends` and `runs` and the greatest `before` and `past`, and a chain wherever there is one."""
    rows = [Row() for _ in leaf.graph.tasks]
    rules = Rules(leaf, rows)
    is_new = True
    while is_new:
        is_new = False
        for place, row in enumerate(rows):
            runs, ends = row.runs or rules.must_run(place), row.ends | rules.must_end(place)
            is_new = is_new or (runs, ends) != (row.runs, row.ends)
            row.runs, row.ends = runs, ends
    for place, row in enumerate(rows):
        row.before = set(rules.may_stand_before(place))
        row.past = set(rules.may_stand_past(place))
        row.chain = chain_of(rules, place) or []
    return rows


def chain_of(rules: Rules, place: int) -> list[int] | None:
    """A shortest chain from a task to a reader of its exception; of those the one with the least task where they differ."""
    chains, known = [[place]], {place}
    while chains and len(chains[0]) <= LONGEST_CHAIN:
        *_, last = chain = chains.pop(0)
        reader = next((each_place for each_place in rules.graph.having("then") if rules.reads(each_place, last)), None)
        if reader is not None:
            return [*chain[1:], reader]
        chains += [[*chain, each_place] for each_place in rules.takes_over(last) if each_place not in known]
        known.update(rules.takes_over(last))
    return None


def row_text(graph: Graph, row: Row) -> dict:
    """A row as a document has it."""

    def names(places):
        return [graph.tasks[place].name for place in places]

    return {
        "before": names(sorted(row.before)),
        "chain": names(row.chain),
        "ends": [final for final in FINALS if final in row.ends],
        "past": names(sorted(row.past)),
        "runs": row.runs,
    }


def row_of(graph: Graph, said: dict) -> Row:
    """A row of a document."""

    def places(member):
        return [graph.places[name] for name in said.get(member, [])]

    return Row(set(said["ends"]), said["runs"], set(places("before")), set(places("past")), places("chain"))


def search(leaf: Leaf, claim: dict, depth: int, used: frozenset[Split] = frozenset()) -> dict | None:
    """A tree with at most so many splits on a path that proves the claim, or None."""
    best = leaf.best()
    if best.proves(claim):
        return best.tree()
    if not depth:
        return None
    for split in leaf.splits():
        if split not in used:
            trees = searched(leaf.split(split), claim, depth - 1, used | {split})
            if trees:
                return split.tree(trees)
    return None


def searched(leaves, claim: dict, depth: int, used: frozenset[Split]) -> list[dict] | None:
    """A tree for each of these leaves, or None."""
    trees = []
    for leaf in leaves:
        tree = search(leaf, claim, depth, used)
        if tree is None:
            return None
        trees.append(tree)
    return trees


# ---- what is said of a certificate


def fits(graph: Graph, tree: Tree) -> bool:
    """Each leaf has one row for each task, or none, and each split on a winner is of a task in the list of a WhenAny task."""
    if isinstance(tree, str):
        return tree == LEAST
    branches = split_on(tree)
    if branches is None:
        return len(tree["rows"]) == len(graph.tasks)
    return is_fitting(graph, branches.split) and all(fits(graph, each_tree) for each_tree in branches.trees)


def is_fitting(graph: Graph, split: Split) -> bool:
    """It is no split on a winner, or one of a task in the list of a WhenAny task."""
    if split.task is None:
        return True
    task = graph.tasks[graph.places[split.what]]
    return task.kind == "any" and graph.places[split.task] in task.of


def leaves_of(leaf: Leaf, tree: Tree):
    """The rules for each leaf of a tree, from left to right."""
    if isinstance(tree, str):
        yield leaf.best()
        return
    branches = split_on(tree)
    if branches is None:
        yield leaf.read(tree["rows"])
        return
    for branch, below in zip(leaf.split(branches.split), branches.trees):
        yield from leaves_of(branch, below)


def judged(leaf: Leaf, claim: dict, tree: Tree) -> str:
    """What `check` answers to a document with this claim and this tree alone, where this is assumed before its splits."""
    if not fits(leaf.graph, tree):
        return "refused: shape claim 1"
    for number, rules in enumerate(leaves_of(leaf, tree), 1):
        fault = rules.broken()
        if fault:
            place, rule = fault
            return f"refused: not closed claim 1 leaf {number} task {rules.graph.tasks[place].name} rule {rule}"
        if not rules.proves(claim):
            return f"refused: claim 1 leaf {number}"
    return "accepted"
