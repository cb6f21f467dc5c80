#!/usr/bin/env python3
"""Compares what the program answers to small graphs with all their runs.

Graphs are drawn by chance, and claims of each kind about them, with each kind of given. All runs of a graph are gone through
(every_run.py), and the rules of certificates are tried out beside: those of version 2 (rules.py), and those of version 3, which
know of tokens and of winners (tokens.py). Then it has to be so that

- the program accepts a certificate exactly where the rules do, and says the same of one that it refuses: the best that the
  rules permit, such in which a row is another, such with splits by chance and with leaves without rows, and such by rules in
  which there is a mistake;
- of the best certificate it says the same with rows and without, and what is accepted with rows is accepted without;
- what version 2 accepts is accepted in version 3;
- `analyse` finds one exactly where the rules of the version have one, and it is accepted; in version 3 its leaves have no rows,
  and with --rows those for which they stand;
- a claim whose certificate is accepted holds in all runs, and no run in which it fails is found by `refute`;
- each run that is found, or made by `run`, is one of them;
- where `verify` says that a claim is empty, the reason that it names is one in all runs. It is counted how many claims are
  empty and said to hold, and how many of those whose given no complete run keeps.

With --empty only the last of these is compared. With --mistake a mistake is planted in the rules, and the program isn't asked:
it is counted how often a claim that doesn't hold gets a certificate. The last line is what was counted; the exit status is 1
where something isn't as it has to be.
"""
import argparse
import collections
import copy
import itertools
import json
import pathlib
import random
import re
import sys
from collections.abc import Iterator
from typing import NamedTuple

import rules
import tokens
from chance import LINK, Wide
from every_run import TooManyStates, Truth
from graphs import FINALS
from harness import TOP, Program
from rules import LEAST, Tree, judged, leaves_of, search, split_on
from small import Graph
from tokens import with_rows, without_rows

GRAPHS, SEED, TASKS = 60, 0, (2, 6)
# splits on a path of what is searched for
DEPTH = 1
# graphs with more states are passed over
STATES = 20_000
# of each graph: claims for which `analyse` and `refute` are asked, and certificates with another row for each claim
ASKED, CHANGED = 4, 2
# splits on a path of a tree that is split by chance
SPLITS = 2
# how many runs are tried for a claim that may be true
FEW = "300"
# the newest version, and the one before it, which has neither `runs` nor the new kinds of given
VERSIONS = (3, 2)


class Small(Wide):
    """A small graph with claims of each kind."""

    def claims(self, version: int) -> list[dict]:
        """Claims of each kind about each of the tasks, each with something given or nothing."""
        every = [task["name"] for task in self.tasks]
        bodies = [task["name"] for task in self.having("root", "then", "child")]
        said = [{"final": each_task, "in": self.chance.sample(FINALS, self.chance.randint(1, 2))} for each_task in every]
        said += [{"after": [a, b]} for a in every for b in bodies if a != b]
        said += [{word: body} for body in bodies for word in ("observed", "never", *(["runs"] if version > 2 else []))]
        said += [{"excludes": [a, b]} for a, b in itertools.combinations(bodies, 2)]
        return [self.given(claim, version) for claim in said]

    def given(self, claim: dict, version: int) -> dict:
        """The claim, with nothing given in half of the cases."""
        kinds = self.kinds_of_given(version)
        given = self.chance.sample(kinds, min(len(kinds), self.chance.choice((0, 0, 1, 1, 2))))
        return {"given": given, **claim} if given else claim

    def kinds_of_given(self, version: int) -> list:
        """What may be given in this version, each input, token, task and job once."""
        chance = self.chance
        kinds: list = [{"input": each_input, "is": chance.random() < 0.5} for each_input in self.inputs]
        kinds += [{"quiet": token} for token in self.tokens]
        if version > 2:
            kinds += [{"ended": task["name"], "in": chance.sample(FINALS, chance.randint(1, 2))} for task in self.tasks]
            kinds += [{"succeeds": f"S{number}"} for number in range(1, self.sites + 1)]
            kinds += ["no_failure", "no_request"]
        return kinds


class Asking(Small):
    """One in which more is requested, and raced for."""

    def some_tokens(self):
        names = [f"K{number}" for number in range(self.chance.choice((1, 1, 2)))]
        return [*names, LINK]

    def task(self, name):
        chance = self.chance
        before = [task["name"] for task in self.having("root", "then", "all", "any")]
        if len(before) > 1 and chance.random() < 0.15:
            return {"name": name, "kind": "any", "of": chance.sample(before, 2)}
        task, races = super().task(name), [task["name"] for task in self.having("any")]
        return {**task, "after": chance.choice(races)} if task["kind"] == "then" and races and chance.random() < 0.4 else task

    def statement(self, kind, nested=False):
        chance = self.chance
        drawn = chance.random()
        if drawn < 0.3:
            return {chance.choice(("cancel", "cancel", "check")): chance.choice(self.tokens)}
        if kind == "then" and drawn < 0.4:
            return "observe"
        return super().statement(kind, nested)


# how the graph of a number is drawn, in turn
KINDS = (Small, Asking)
Mistake = rules.Mistake | tokens.Mistake
MISTAKES = (*rules.Mistake, *tokens.Mistake)


def leaf_with(graph: Graph, claim: dict, mistake: Mistake) -> rules.Leaf:
    """What is assumed for a claim in version 3 by rules in which there is this mistake."""
    if isinstance(mistake, tokens.Mistake):
        return tokens.assumed(graph, claim, {mistake})
    return rules.assumed(graph, claim, True, {mistake})


class Asked(NamedTuple):
    """A claim about a graph, in a version of documents, with a tree for it."""

    document: dict
    tree: Tree

    @property
    def claim(self) -> dict:
        return self.document["claims"][0]

    @property
    def has_tokens(self) -> bool:
        return self.document["version"] > 2

    def leaf(self, graph: Graph) -> rules.Leaf:
        """What is assumed before the splits."""
        return leaf_of(graph, self.document)

    def verdict(self, graph: Graph) -> str:
        """What the rules say."""
        return judged(self.leaf(graph), self.claim, self.tree)

    def text(self) -> str:
        return json.dumps({**self.document, "certificate": [self.tree]}, separators=(",", ":"))


def documents(drawn: Small, versions=VERSIONS) -> list[dict]:
    """A document for each claim about the graph, in each version."""
    return [{**drawn.document(claim), "version": version} for version in versions for claim in drawn.claims(version)]


def leaf_of(graph: Graph, document: dict) -> rules.Leaf:
    """What is assumed for the claim of a document, by the rules of its version."""
    (claim,) = document["claims"]
    return tokens.assumed(graph, claim) if document["version"] > 2 else rules.assumed(graph, claim, False)


def best_tree(leaf: rules.Leaf, claim: dict, depth: int) -> dict:
    """The tree that the rules have for the claim; where they have none, the leaf with the best rows."""
    return search(leaf, claim, depth) or leaf.best().tree()


def split_by_chance(chance: random.Random, leaf: rules.Leaf, depth: int) -> dict:
    """A tree with so many splits on each path, on winners above all, with the best rows."""
    if not depth:
        return leaf.best().tree()
    splits = leaf.splits()
    split = chance.choice([each_split for each_split in splits if each_split.word == "split_winner"] * 2 + splits)
    return split.tree([split_by_chance(chance, word, depth - 1) for word in leaf.split(split)])


def left_out(chance: random.Random, tree: dict) -> Tree:
    """The tree with some of its leaves without rows."""
    branches = split_on(tree)
    if branches is None:
        return LEAST if chance.random() < 0.7 else tree
    return branches.split.tree([left_out(chance, each_tree) for each_tree in branches.trees])


def changed(chance: random.Random, drawn: Small, tree: Tree) -> dict:
    """The tree, whose leaves have rows, with another row in one of them."""
    tree = leaf = copy.deepcopy(tree)
    while (split := split_on(leaf)) is not None:
        leaf = chance.choice(split.trees)
    assert isinstance(tree, dict) and isinstance(leaf, dict)
    row = chance.choice(leaf["rows"])
    names = {"ends": FINALS, **dict.fromkeys(("before", "past", "chain"), [task["name"] for task in drawn.tasks])}
    if "asks" in row and drawn.tokens:
        names |= dict.fromkeys(("asked", "asks"), drawn.tokens)
    member = chance.choice(["ends", "runs", *names])
    if member == "runs":
        row["runs"] = not row["runs"]
    else:
        one = chance.choice(names[member])
        row[member] = [item for item in row[member] if item != one] if one in row[member] else [*row[member], one]
    return tree


def without_tokens(tree: Tree) -> Tree:
    """The tree with rows that say nothing of tokens, where it has rows."""
    if isinstance(tree, str):
        return tree
    branches = split_on(tree)
    if branches is None:
        return {"rows": [{**row, "asked": [], "asks": []} for row in tree["rows"]]}
    return branches.split.tree([without_tokens(each_tree) for each_tree in branches.trees])


def has_winner(tree: Tree) -> bool:
    """A split of the tree is one on a winner."""
    branches = split_on(tree)
    return branches is not None and (branches.split.task is not None or any(map(has_winner, branches.trees)))


def has_same_rows(leaf: rules.Leaf, tree: Tree, other: Tree) -> bool:
    """Both trees split in the same way and have rows that say the same."""
    if without_rows(tree) != without_rows(other):
        return False
    pairs = zip(leaves_of(leaf, tree), leaves_of(leaf, other))
    return all(one.rows == two.rows for one, two in pairs)


def misplaced(chance: random.Random, drawn: Small, tree: dict) -> dict:
    """The tree with another task, or another winner, at the split on a winner at its top, where there is one."""
    if "split_winner" not in tree:
        return tree
    return {**tree, chance.choice(("split_winner", "task")): chance.choice(drawn.tasks)["name"]}


class Comparison:
    """What was counted, and what isn't as it has to be."""

    def __init__(self, program: Program | None, depth: int = DEPTH, states: int = STATES):
        self.program, self.depth, self.states = program, depth, states
        self.counts: collections.Counter[str] = collections.Counter()
        self.wrong: list[str] = []

    def compare(self, number: int):
        """Compares what is said of the graph of a number, with claims of both versions."""
        chance = random.Random(number)
        drawn = KINDS[number % len(KINDS)](chance, *TASKS)
        each = documents(drawn)
        try:
            truth = Truth(each[0], self.states)
        except TooManyStates:
            self.counts["too large"] += 1
            return
        self.counts["graphs"] += 1
        leaves = [(document, leaf_of(truth.graph, document)) for document in each]
        asked = [Asked(it, best_tree(leaf, it["claims"][0], self.depth)) for it, leaf in leaves]
        others = [Asked(question.document, changed(chance, drawn, question.tree)) for question in asked for _ in range(CHANGED)]
        self.compare_certificates(truth, [*asked, *others, *self.wider(chance, drawn, truth.graph, each)])
        self.compare_versions(truth.graph, asked)
        self.compare_leaves(truth.graph, asked)
        for one in chance.sample(each, min(len(each), ASKED)) if self.program else []:
            self.compare_search(truth, one)
            self.compare_refutation(truth, one)
        if self.program:
            self.compare_run(truth, drawn)
            self.compare_emptiness(truth, each)

    def compare_empty(self, number: int):
        """Compares alone which claims about the graph of a number are said to be empty, in the newest version."""
        drawn = KINDS[number % len(KINDS)](random.Random(number), *TASKS)
        each = documents(drawn, VERSIONS[:1])
        try:
            self.compare_emptiness(Truth(each[0], self.states), each)
        except TooManyStates:
            self.counts["too large"] += 1

    def wider(self, chance: random.Random, drawn: Small, graph: Graph, each: list[dict]) -> Iterator[Asked]:
        """Certificates of version 3 with splits by chance, such in which a row or a split is another, and such by rules in
        which there is a mistake."""
        for document in (question for question in each if question["version"] > 2):
            tree = split_by_chance(chance, leaf_of(graph, document), chance.randint(1, SPLITS))
            yield Asked(document, tree)
            other = changed(chance, drawn, tree)
            yield Asked(document, misplaced(chance, drawn, other))
            yield Asked(document, left_out(chance, chance.choice((tree, other))))
            mistaken_leaf = leaf_with(graph, document["claims"][0], chance.choice(MISTAKES))
            yield Asked(document, mistaken_leaf.best().tree())
            yield Asked(document, split_by_chance(chance, mistaken_leaf, 1))

    def tell(self, what: str, *more):
        self.counts["wrong"] += 1
        self.wrong.append(" ".join(map(str, (what, *more))))

    def compare_certificates(self, truth: Truth, asked: list[Asked]):
        """`check` answers as the rules do, and what is accepted holds in all runs."""
        answers = [question.verdict(truth.graph) for question in asked]
        said = self.checked(asked) if self.program else answers
        for it, wanted, answer in zip(asked, answers, said):
            self.counts["certificates"] += 1
            self.counts["accepted"] += answer == "accepted"
            if wanted == "accepted" and it.has_tokens:
                if Asked(it.document, without_rows(it.tree)).verdict(truth.graph) != "accepted":
                    self.tell("accepted with rows, and not without:", it.text())
                self.counts["accepted by tokens"] += tokens.verdict(truth.graph, it.claim, without_tokens(it.tree)) != wanted
                self.counts["accepted with a split on a winner"] += has_winner(it.tree)
            if answer != wanted:
                self.tell("check says", answer, "and the rules say", wanted, "of", it.text())
            if "accepted" in (answer, wanted) and not truth.holds(it.claim):
                self.tell("accepted, and there is a run in which it fails:", it.text())

    def checked(self, asked: list[Asked]) -> list[str]:
        """What `check` answers to each of the documents."""
        assert self.program
        answer = self.program("check", "--each", given="".join(question.text() + "\n" for question in asked))
        lines = answer.stdout.splitlines()
        return [line.split(" ", 2)[2] for line in lines] if len(lines) == len(asked) else [answer.stdout] * len(asked)

    def compare_versions(self, graph: Graph, asked: list[Asked]):
        """What is accepted by rules that know neither of tokens nor of winners is accepted in version 3, with the same
        certificate."""
        narrow = [question for question in asked if not question.has_tokens and question.verdict(graph) == "accepted"]
        older = [Asked({**question.document, "version": 3}, question.tree) for question in narrow]
        for question in asked:
            tree = search(rules.assumed(graph, question.claim, True), question.claim, self.depth) if question.has_tokens else None
            older += [Asked(question.document, tree)] if tree else []
        said = self.checked(older) if self.program else ["accepted"] * len(older)
        for it, answer in zip(older, said):
            self.counts["older"] += 1
            if (answer, it.verdict(graph)) != ("accepted", "accepted"):
                self.tell("accepted without knowing of tokens, and not in version 3:", it.text())

    def compare_leaves(self, graph: Graph, asked: list[Asked]):
        """Of the best certificate the same is said with rows and without."""
        wide = [question for question in asked if question.has_tokens]
        each = [Asked(question.document, without_rows(question.tree)) for question in wide]
        said = self.checked(each) if self.program else [question.verdict(graph) for question in each]
        for it, answer in zip(wide, said):
            self.counts["without rows"] += 1
            if answer != it.verdict(graph):
                self.tell("without rows the answer is", answer, "and not", it.verdict(graph), "of", it.text())

    def compare_search(self, truth: Truth, document: dict):
        """`analyse` finds a certificate exactly where the rules of the version have one."""
        assert self.program
        (claim,), leaf = document["claims"], leaf_of(truth.graph, document)
        wanted = search(leaf, claim, self.depth)
        answer = self.program("analyse", "--depth", str(self.depth), given=json.dumps(document))
        self.counts["searched"] += 1
        if answer.exit == 1 and not wanted:
            return
        if answer.exit != 0 or not wanted:
            self.tell("analyse says", answer.stdout, "and the rules have", wanted, "for", json.dumps(document))
            return
        (tree,) = json.loads(answer.stdout)
        found = Asked(document, tree)
        if found.verdict(truth.graph) != "accepted" or self.checked([found]) != ["accepted"]:
            self.tell("found, and not accepted:", found.text())
        if not truth.holds(claim):
            self.tell("found, and there is a run in which it fails:", found.text())
        if found.has_tokens:
            self.compare_rows(found, leaf)

    def compare_rows(self, found: Asked, leaf: rules.Leaf):
        """The leaves that `analyse` finds in version 3 have no rows, and with --rows it writes those for which they stand."""
        assert self.program and isinstance(leaf, tokens.Leaf)
        if found.tree != without_rows(found.tree):
            self.tell("found with rows:", found.text())
        text = json.dumps(found.document)
        answer = self.program("analyse", "--rows", "--depth", str(self.depth), given=text)
        (tree,) = json.loads(answer.stdout) if answer.exit == 0 else [None]
        if tree is None or tree != with_rows(leaf, tree) or not has_same_rows(leaf, tree, with_rows(leaf, found.tree)):
            self.tell("written out as", answer.stdout, "and not as", with_rows(leaf, found.tree), "for", text)

    def compare_refutation(self, truth: Truth, document: dict):
        """`refute` finds a run only of a claim that doesn't hold in all runs, and `audit` says the same of that run."""
        assert self.program
        (claim,) = document["claims"]
        answer = self.program("refute", "--claim", "1", "--runs", FEW, given=json.dumps(document))
        self.counts["refuted"] += answer.exit
        if answer.exit == 0:
            return
        audit = self.program("audit", given=answer.stdout)
        if truth.holds(claim) or "claim 1 fails" not in audit.stdout:
            self.tell("refuted", answer.stdout, "which", audit.stdout)

    def compare_run(self, truth: Truth, drawn: Small):
        """`run` makes one of the runs: so the tasks end in one of them, and the same exceptions aren't observed."""
        assert self.program
        start = drawn.start()
        text = json.dumps(drawn.document(start=start))
        report = self.program("run", "--workers", "3", given=text).stdout
        ends = re.findall(r"(?m)^task \w+ (\w+)", report)
        finals = tuple(end if end in FINALS else None for end in ends)
        unread = frozenset(truth.graph.places[match] for match in re.findall(r"(?m)^unobserved (\w+):", report))
        each = (facts for runs in truth.all if runs.inputs == start["inputs"] for facts in runs.facts)
        if not any(question.is_complete and (question.finals, question.unread) == (finals, unread) for question in each):
            self.tell("no run ends as that of `run`:", report, "of", text)

    def compare_emptiness(self, truth: Truth, each: list[dict]):
        """`verify` says that a claim is empty only for a reason that there is."""
        assert self.program
        claims = [document["claims"][0] for document in each if document["version"] == VERSIONS[0]]
        self.counts["claims of the newest version"] += len(claims)
        hold = [claim for claim in claims if truth.holds(claim)]
        text = json.dumps({**each[0], "version": VERSIONS[0], "claims": hold})
        said = json.loads(self.program("verify", "--as", "json", "--runs", FEW, given=text).stdout)["claims"]
        for claim, answer in zip(hold, said, strict=True):
            why, verdict = truth.why_empty(claim), answer["verdict"]
            self.counts["empty"] += bool(why)
            self.counts["empty and said to hold"] += verdict == "holds" and bool(why)
            if not any(facts.is_complete for facts in truth.kept(claim)):
                self.counts["given is never kept"] += 1
                self.counts["given is never kept and said to hold"] += verdict == "holds"
            if verdict == "empty" and answer["empty"]["why"] not in why:
                self.tell("said to be empty", answer["empty"], "and not", why, "of", json.dumps({**each[0], "claims": [claim]}))


def mistaken(number: int, mistake: Mistake, depth: int = DEPTH, states: int = STATES) -> dict | None:
    """A document with a claim that doesn't hold about the graph of a number and a certificate for it, by rules in which there
    is a mistake, and which the rules refuse; None where there is none."""
    kind = Asking if isinstance(mistake, tokens.Mistake) else Small
    each = documents(kind(random.Random(number), *TASKS), (3,))
    graph = Graph(each[0])
    for document in each:
        (claim,) = document["claims"]
        leaf = leaf_with(graph, claim, mistake)
        tree = search(leaf, claim, depth)
        is_taken = tree and judged(leaf, claim, tree) == "accepted" and tokens.verdict(graph, claim, tree) != "accepted"
        if tree and is_taken and is_false(document, states):
            return {**document, "certificate": [tree]}
    return None


def is_false(document: dict, states: int) -> bool:
    """The claim doesn't hold in all runs, which aren't too many to go through."""
    try:
        return not Truth(document, states).holds(document["claims"][0])
    except TooManyStates:
        return False


def main() -> int:
    parser = argparse.ArgumentParser(description=__doc__, formatter_class=argparse.RawDescriptionHelpFormatter)
    parser.add_argument("--program", type=pathlib.Path, default=TOP / "taskgraph", help="the script taskgraph, if none is named")
    parser.add_argument("--graphs", type=int, default=GRAPHS, help="how many graphs (%(default)s)")
    parser.add_argument("--seed", type=int, default=SEED, help="the number of the first graph (%(default)s)")
    parser.add_argument("--depth", type=int, default=DEPTH, help="splits on a path of what is searched for (%(default)s)")
    parser.add_argument("--states", type=int, default=STATES, help="pass over graphs with more states (%(default)s)")
    parser.add_argument("--alone", action="store_true", help="compare the rules with all runs, and don't ask the program")
    parser.add_argument("--empty", action="store_true", help="compare only which claims are said to be empty")
    parser.add_argument("--mistake", choices=[mistake.name for mistake in MISTAKES], help="plant this mistake in the rules")
    given = parser.parse_args()
    numbers = range(given.seed, given.seed + given.graphs)
    if given.mistake:
        (planted,) = (mistake for mistake in MISTAKES if mistake.name == given.mistake)
        found = [each_number for each_number in numbers if mistaken(each_number, planted, given.depth, given.states)]
        print(f"of {given.graphs} graphs {len(found)} show the mistake" + (f", first {found[0]}" if found else ""))
        return 0 if found else 1
    comparison = Comparison(None if given.alone else Program(given.program), given.depth, given.states)
    compare = comparison.compare_empty if given.empty else comparison.compare
    for number in numbers:
        compare(number)
    print(*comparison.wrong, sep="\n")
    print(", ".join(f"{count} {what}" for what, count in sorted(comparison.counts.items())))
    return 1 if comparison.wrong else 0


if __name__ == "__main__":
    sys.exit(main())
