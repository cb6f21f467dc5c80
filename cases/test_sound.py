"""What the program says of small graphs is compared with all their runs, as sound.py does.

Each mistake that is planted in the rules shows in one of the graphs: a claim that doesn't hold gets a certificate, which the
program refuses. `./sound.py --mistake` says which graphs show it.
"""
import json
import re

import pytest

import rules
import tokens
from every_run import Runs, Truth
from harness import Case, all_cases
from rules import LEAST, LONGEST_CHAIN, Split, judged
from small import Graph
from sound import MISTAKES, Asked, Comparison, Mistake, leaf_with, mistaken

# how many graphs are compared
DRAWN = 30
# a graph that shows each mistake
SHOWN: dict[Mistake, int] = {
    rules.Mistake.OWN_TOKEN_FOR_FINAL: 3,
    rules.Mistake.OWN_TOKEN_FOR_OBSERVED: 39,
    rules.Mistake.OWN_TOKEN_FOR_RUNS: 3,
    rules.Mistake.OWN_TOKENS_FOR_EXCLUDES: 193,
    rules.Mistake.RUNS_OF_CHILD: 8,
    rules.Mistake.RUNS_OF_CANCELED: 3,
    rules.Mistake.CHILD_WITHOUT_ENDS: 21,
    rules.Mistake.ONE_SUCCEEDS_FOR_ALL: 7,
    rules.Mistake.ARGUMENT_LEFT_OUT: 3,
    rules.Mistake.UNION_FOR_ANY: 3,
    rules.Mistake.ENDED_AS_OTHERS: 3,
    tokens.Mistake.STARTS_BEHIND_ENDS: 131,
    tokens.Mistake.CUT_BY_GIVEN: 57,
    tokens.Mistake.ANTECEDENT_CUT_ALWAYS: 3,
    tokens.Mistake.ALL_CUT_FOR_ONE: 3,
    tokens.Mistake.FACTS_BEFORE_END: 141,
    tokens.Mistake.OWN_TOKEN_KNOWN: 12,
    tokens.Mistake.PASSED_CHECK_KNOWN: 3,
    tokens.Mistake.LINKS_DOWNWARDS: 18,
    tokens.Mistake.EARLY_BEHIND_ANTECEDENT: 119,
    tokens.Mistake.UNION_OVER_DROPS: 126,
    tokens.Mistake.DROPS_FORGOTTEN: 3,
    tokens.Mistake.CHILD_DROPPED_IF_RUNS: 64,
    tokens.Mistake.UNION_OVER_WINNERS: 11,
    tokens.Mistake.CHAIN_THROUGH_ANY: 267,
    tokens.Mistake.BURDEN_FORGOTTEN: 30,
    tokens.Mistake.SUBJECT_OF_EACH: 886,
}


@pytest.mark.drawn(DRAWN)
def test_drawn_graph(program, number: int):
    comparison = Comparison(program)
    comparison.compare(number)
    assert comparison.wrong == []


@pytest.mark.parametrize("mistake", MISTAKES, ids=lambda letter: letter.name)
def test_mistake_shows(program, mistake: Mistake):
    document = mistaken(SHOWN[mistake], mistake)
    assert document, "no claim that doesn't hold has a certificate"
    (claim,), (tree,) = document["claims"], document["certificate"]
    graph = Graph(document)
    assert judged(leaf_with(graph, claim, mistake), claim, tree) == "accepted"
    said = tokens.verdict(graph, claim, tree)
    answer = program("check", given=json.dumps(document))
    assert said.startswith("refused: ") and (answer.stdout, answer.exit) == (f"{said}\n", 1)


# ---- certificates that were worked out by hand


def worked_certificates() -> list[Case]:
    """The cases in which a certificate of one claim is checked."""
    is_answer = re.compile("accepted|refused: ").match
    checked = [case for case in all_cases() if case.command == "check" and is_answer(case.stdout or "")]
    return [
        case for case in checked if [len(json.loads(case.stdin).get(word, [])) for word in ("claims", "certificate")] == [1, 1]
    ]


@pytest.mark.parametrize("case", worked_certificates(), ids=str)
def test_the_rules_say_what_was_worked_out(case: Case):
    said = json.loads(case.stdin)
    (tree,) = said["certificate"]
    assert f"{Asked(said, tree).verdict(Graph(said))}\n" == case.stdout


# ---- small documents


def document(*tasks: dict, tokens=(), inputs=()) -> dict:
    return {"version": 3, "inputs": list(inputs), "tokens": list(tokens), "tasks": list(tasks)}


def root(name: str, *body, **more) -> dict:
    return {"name": name, "kind": "root", "body": list(body), **more}


def after(name: str, antecedent: str, *body, **more) -> dict:
    return {"name": name, "kind": "then", "after": antecedent, "body": list(body), **more}


def waits(name: str, kind: str, *of: str) -> dict:
    return {"name": name, "kind": kind, "of": list(of)}


# ---- the rows for which a leaf without rows stands


def least_rows(said: dict, claim: dict) -> dict[str, tokens.Row]:
    """The least rows for a claim about the graph, by the names of the tasks."""
    graph = Graph(said)
    return dict(zip(graph.places, tokens.least(tokens.assumed(graph, claim)).rows))


def test_least_rows_say_all_that_holds():
    """A requests the token of B, which is canceled before it begins and says nothing of that; C begins behind both."""
    said = document(root("A", {"cancel": "stop"}), after("B", "A", token="stop"), after("C", "B"), tokens=["stop"])
    rows = least_rows(said, {"final": "B", "in": ["Canceled"]})
    assert rows["A"] == tokens.Row({"RanToCompletion"}, True, asks={"stop"})
    assert rows["B"] == tokens.Row({"Canceled"}, False, asks={"stop"})
    assert rows["C"] == tokens.Row({"RanToCompletion"}, True, {1}, {1}, asked={"stop"}, asks={"stop"})


def test_least_rows_say_nothing_of_what_never_ends():
    """A root that can't pass its statement where the token is quiet, what waits for it, and what follows."""
    said = document(root("A", {"cancel": "k"}), waits("W", "all", "A"), after("B", "W"), tokens=["k"])
    rows = least_rows(said, {"given": [{"quiet": "k"}], "never": "B"})
    assert list(rows.values()) == [tokens.Row(runs=True), tokens.Row(), tokens.Row()]


def test_least_rows_have_one_chain():
    """Of the two WhenAll tasks with a reader the least one; no chain for a task that the claim doesn't name."""
    roots, alls = [root(letter, {"throw": "x"}) for letter in "AB"], [waits("W1", "all", "A"), waits("W2", "all", "A", "B")]
    said = document(*roots, *alls, *(after(f"R{letter}", f"W{letter}", "observe") for letter in "21"))
    chains = {name: row.chain for name, row in least_rows(said, {"observed": "A"}).items() if row.chain}
    assert chains == {"A": [2, 5]}


@pytest.mark.parametrize("links", [LONGEST_CHAIN - 1, LONGEST_CHAIN])
def test_least_rows_have_no_chain_that_is_too_long(links: int):
    """So many WhenAll tasks, each of the one before it, and then the reader."""
    names = ["A", *(f"W{number}" for number in range(links))]
    alls = [waits(name, "all", before) for before, name in zip(names, names[1:])]
    said = document(root("A", {"throw": "x"}), *alls, after("R", names[-1], "observe"))
    chain = [*range(1, links + 2)] if links < LONGEST_CHAIN else []
    assert least_rows(said, {"observed": "A"})["A"].chain == chain


def test_rows_are_left_out_and_written_out():
    said = document(root("A", {"throw": "x"}), root("B"), waits("N", "any", "A", "B"), after("C", "N", "observe"))
    graph, claim = Graph(said), {"observed": "A"}
    leaf, split = tokens.assumed(graph, claim), Split("split_winner", "N", "A")
    short = split.tree([LEAST, LEAST])
    whole = tokens.with_rows(leaf, short)
    assert [item["rows"][0]["chain"] for item in (whole["yes"], whole["no"])] == [["C"], []]
    assert tokens.without_rows(whole) == short
    assert [tokens.verdict(graph, claim, item) for item in (short, whole)] == ["refused: claim 1 leaf 2"] * 2


# ---- how runs are gone through


def test_states_are_counted():
    """A root that returns is ready, running before and behind its statement, or has ended; of two each stands in one of four."""
    one, other = root("A", "return"), root("B", "return")
    assert Runs(Graph(document(one)), {}, 100).count == 4
    assert Runs(Graph(document(one, other)), {}, 100).count == 16


def test_a_token_is_requested_at_any_moment():
    """Requested before the task begins it cancels it; behind that it doesn't, since the body checks nothing."""
    (runs,) = Truth(document(root("A", token="k"), tokens=["k"])).all
    ends = {(fact.finals, fact.begun, fact.requested) for fact in runs.facts if fact.is_complete}
    ran, begun, asked = ("RanToCompletion",), frozenset([0]), frozenset("k")
    assert ends == {(ran, begun, frozenset()), (ran, begun, asked), (("Canceled",), frozenset(), asked)}


def test_claims_hold_or_fail():
    """Worked out by hand, of a job that may fail and a task that follows a failure."""
    handler = after("X", "A", "observe", options=["OnlyOnFaulted"])
    truth = Truth(document(root("A", {"work": "a", "may_fail": True}), handler))
    faulted, calm = {"given": [{"ended": "A", "in": ["Faulted"]}]}, {"given": ["no_failure"]}
    hold = [{"after": ["A", "X"]}, {"observed": "A"}, {"runs": "A"}, {**faulted, "runs": "X"}, {**calm, "never": "X"}]
    fail = [{"runs": "X"}, {"never": "X"}, {**calm, "runs": "X"}, {**faulted, "never": "A"}, {"excludes": ["A", "X"]}]
    assert [truth.holds(claim) for claim in hold] == [True] * len(hold)
    assert [truth.holds(claim) for claim in fail] == [False] * len(fail)


def test_inputs_have_each_value():
    body = {"if": "dry", "then": [{"throw": "no"}], "else": []}
    truth = Truth(document(root("A", body), inputs=["dry"]))
    ran, faulted = {"final": "A", "in": ["RanToCompletion"]}, {"final": "A", "in": ["Faulted"]}
    wet, dry = ({"given": [{"input": "dry", "is": value}]} for value in (False, True))
    assert [truth.holds(item) for item in (ran, {**wet, **ran}, {**dry, **faulted}, {**dry, **ran})] == [False, True, True, False]
