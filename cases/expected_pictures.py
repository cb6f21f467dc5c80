#!/usr/bin/env python3
"""The picture of a document, worked out by the rules of docs/PICTURES.md alone. As a script it draws the examples."""
import collections
import json
import pathlib
import sys
from typing import NamedTuple

import tokens
from harness import HERE, examples, tell_kept
from rules import split_on
from small import Graph
from task_statuses import statuses

PICTURES = HERE / "pictures"
LANGUAGES = {"mermaid": "mmd", "dot": "dot"}
BREAKS = {"mermaid": "<br/>", "dot": "\\n"}
# a token that more tasks have as their own is written at each of them
MOST_EDGES = 8
SHAPES = {
    "mermaid": {
        "root": ('["', '"]'),
        "child": ('("', '")'),
        "then": ('(["', '"])'),
        "all": ('{{"', '"}}'),
        "any": ('{"', '"}'),
    },
    "dot": {"root": "box", "child": "Mrecord", "then": "ellipse", "all": "hexagon", "any": "diamond"},
}
LINES = {
    "mermaid": {"wait": "-->", "child": "==>", "cancel": "-.->", "token": "-.->"},
    "dot": {
        "wait": "solid",
        "child": "bold",
        "cancel": "dashed, color=red3",
        "token": "dotted, color=gray40",
    },
}
OPENING = {
    "mermaid": "flowchart LR\n",
    "dot": """digraph taskgraph {
  graph [rankdir=LR, ranksep=0.4, nodesep=0.3];
  node [fontname="sans-serif", fontsize=11, height=0.3, margin="0.08,0.04"];
  edge [fontname="sans-serif", fontsize=9, arrowsize=0.7];
""",
}
ENDS = frozenset(["RanToCompletion", "Canceled", "Faulted"])
# the class and the colour of a task that may end in these ways, and what the legend says of it
CLASSES = {
    frozenset(["Canceled"]): ("canceled", "#f0c848", "can only be canceled"),
    frozenset(["Faulted"]): ("faulted", "#ee7560", "can only fault"),
    frozenset(["Canceled", "Faulted"]): ("canceled_or_faulted", "#c596da", "can only be canceled or fault"),
    frozenset(["RanToCompletion", "Canceled"]): ("ran_or_canceled", "#fff8d0", "may run to completion or be canceled"),
    frozenset(["RanToCompletion", "Faulted"]): ("ran_or_faulted", "#ffdfd0", "may run to completion or fault"),
    ENDS: ("any_end", "#e0d0ec", "may run to completion, be canceled or fault"),
}
# the class and the colour of a task that stands so at a moment of a run
RUNNING = ("running", "#cfe2f7")
STANDS = {
    "Running": RUNNING,
    "WaitingForChildrenToComplete": RUNNING,
    "RanToCompletion": ("ran", "#d5ebd0"),
    "Canceled": ("canceled", "#f0c848"),
    "Faulted": ("faulted", "#ee7560"),
}

# the ends of its antecedent after which a continuation with the word doesn't start
EXCLUDES = {
    "NotOnRanToCompletion": {"RanToCompletion"},
    "NotOnCanceled": {"Canceled"},
    "NotOnFaulted": {"Faulted"},
    "OnlyOnRanToCompletion": {"Canceled", "Faulted"},
    "OnlyOnCanceled": {"RanToCompletion", "Faulted"},
    "OnlyOnFaulted": {"RanToCompletion", "Canceled"},
}
# the one word for the ends after which a continuation starts
WORDS = {ENDS - excluded: word for word, excluded in EXCLUDES.items()} | {ENDS: "always"}


def name_of(token):
    return token["name"] if isinstance(token, dict) else token


def start_words(options):
    """When a continuation with these options starts."""
    excluded = set().union(*(EXCLUDES.get(word, ()) for word in options))
    words = [WORDS[ENDS - excluded]]
    words += ["lazy"] * ("LazyCancellation" in options)
    words += ["synchronous"] * ("ExecuteSynchronously" in options)
    return [] if words == ["always"] else words


def acts(body):
    """The children that a body starts and the tokens that it requests, in the order of its text."""
    for statement in body:
        if "start" in statement and isinstance(statement, dict):
            yield "start", statement["start"]
        elif "cancel" in statement and isinstance(statement, dict):
            yield "cancel", statement["cancel"]
        elif isinstance(statement, dict):
            yield from acts(statement.get("then", []))
            yield from acts(statement.get("else", []))


def edges(document):
    """Each edge: from, to, its line, what stands at it."""
    tasks, badges = {task["name"]: task for task in document["tasks"]}, crowded(document)
    for token in document.get("tokens", []):
        if isinstance(token, dict):
            for source in token.get("linked", []):
                yield f"k_{source}", f"k_{token['name']}", "token", ["linked"]
    for task in document["tasks"]:
        node, options = f"t_{task['name']}", task.get("options", [])
        if "token" in task and task["token"] not in badges:
            yield f"k_{task['token']}", node, "token", []
        if "after" in task:
            yield f"t_{task['after']}", node, "wait", start_words(options)
        for waited in task.get("of", []):
            yield f"t_{waited}", node, "wait", []
        for act, name in acts(task.get("body", [])):
            if act == "cancel":
                yield node, f"k_{name}", "cancel", ["cancels"]
            else:
                attached = "AttachedToParent" in tasks[name].get("options", []) and "DenyChildAttach" not in options
                yield node, f"t_{name}", "child", ["attached" if attached else "detached"]


def token_node(language, name):
    if language == "mermaid":
        return f'  k_{name}>"{name}<br/>token"]:::token\n'
    return f'  k_{name} [label="{name}\\ntoken", shape=note];\n'


def written(document):
    """The trees of the certificate with the rows that their leaves leave out, which only version 3 has."""
    trees = document.get("certificate", [])
    if document["version"] < 3:
        return trees
    graph = Graph(document)
    return [tokens.with_rows(tokens.assumed(graph, claim), tree) for claim, tree in zip(document.get("claims", []), trees)]


def leaves(tree):
    """The ends that the rows of each leaf have of the tasks."""
    branches = split_on(tree)
    if branches is None:
        yield [row["ends"] for row in tree["rows"]]
    else:
        for branch in branches.trees:
            yield from leaves(branch)


def endings(document):
    """For each task the ways in which it may end by the certificate, in whatever leaf."""
    found = [set() for _ in document["tasks"]]
    for tree in written(document):
        for each in leaves(tree):
            for ends, more in zip(found, each):
                ends.update(more)
    return found


class Failure(NamedTuple):
    """Where a claim of a document fails first in the run of its journal."""

    claim: int
    place: int


class Moment(NamedTuple):
    """A moment of a run: after how many events it is, how each task stands, which claim fails and which tasks that names."""

    place: int
    statuses: dict[str, str]
    claim: int | None
    named: frozenset[str]

    def words(self) -> str:
        fails = f": claim {self.claim} fails, which names the tasks with this border" if self.claim else ""
        return f"the run after event {self.place}{fails}"


def moment(document, failure=None):
    """The moment at which a claim fails, or the end of the run; None where the journal is empty."""
    lines = document.get("journal", "").splitlines(keepends=True)
    if not lines:
        return None
    place = failure.place if failure else len(lines)
    stand = statuses({**document, "journal": "".join(lines[:place])})
    named = claimed(document["claims"][failure.claim - 1]) if failure else frozenset()
    return Moment(place, stand, failure and failure.claim, named)


def claimed(claim):
    """The tasks of which a claim says something; what it takes as given names none."""
    said = next(value for key, value in claim.items() if key not in ("given", "in"))
    return frozenset([said] if isinstance(said, str) else said)


def painted(language, word, colour):
    """What gives a node its class or colour."""
    return f":::{word}" if language == "mermaid" else f', style=filled, fillcolor="{colour}"'


def mark(language, ends):
    """What stands at the node of a task that may end in these ways."""
    return painted(language, *CLASSES[frozenset(ends)][:2]) if frozenset(ends) in CLASSES else ""


def crowded(document):
    """The tokens that stand at the tasks which have them, and not at edges."""
    owners = collections.Counter(task["token"] for task in document["tasks"] if "token" in task)
    return {token for token, count in owners.items() if count > MOST_EDGES}


def task_node(language, name, kind, said, marked, named):
    """The node of a task, with these further lines."""
    shape, text = SHAPES[language][kind], BREAKS[language].join([name, kind, *said])
    if language == "mermaid":
        border = f"  style t_{name} stroke:#c00,stroke-width:4px\n" if named else ""
        return f"  t_{name}{shape[0]}{text}{shape[1]}{marked}\n{border}"
    border = ", color=red3, penwidth=3" if named else ""
    return f'  t_{name} [label="{text}", shape={shape}{marked}{border}];\n'


def task_nodes(document, language, marks, now):
    """The node of each task: with these marks, or as it stands at the moment."""
    badges = crowded(document)
    for task, marked in zip(document["tasks"], marks):
        name, named = task["name"], False
        said = [f"token {task['token']}"] if task.get("token") in badges else []
        if now:
            stands, named = now.statuses[name], name in now.named
            said, marked = [*said, stands], painted(language, *STANDS[stands]) if stands in STANDS else ""
        yield task_node(language, name, task["kind"], said, marked, named)


def legend(language, found, now):
    """The legend of the colours that occur, or of the moment."""
    if now:
        return moment_legend(language, now)
    occurring = [sort for ends, sort in CLASSES.items() if ends in map(frozenset, found)]
    if language == "mermaid":
        entries = [f'    l_{word}["{said}"]:::{word}\n' for word, _, said in occurring]
    else:
        entries = [f'<td bgcolor="{colour}">{said}</td>' for _, colour, said in occurring]
    return framed(language, "".join(entries)) if entries else ""


def moment_legend(language, now):
    if language == "mermaid":
        border = "    style l_moment stroke:#c00,stroke-width:4px\n" if now.claim else ""
        return framed(language, f'    l_moment["{now.words()}"]\n{border}')
    border = 'border="3" color="red3"' if now.claim else 'border="0"'
    return framed(language, f"<td {border}>{now.words()}</td>")


def framed(language, entries):
    if language == "mermaid":
        return f"  subgraph legend\n{entries}  end\n"
    table = f'<table border="0" cellborder="1" cellspacing="4"><tr>{entries}</tr></table>'
    return f'  graph [fontname="sans-serif", fontsize=9, label=<{table}>];\n'


def closing(language, now):
    if language == "dot":
        return "}\n"
    classes = sorted(set(STANDS.values())) if now else [sort[:2] for sort in CLASSES.values()]
    lines = [f"  classDef {word} fill:{colour},color:#000\n" for word, colour in classes]
    return "".join(["  classDef token fill:#eee,stroke:#888\n", *lines])


def edge_line(language, start, end, line, label):
    drawn, said = LINES[language][line], " ".join(label)
    if language == "mermaid":
        return f"  {start} {drawn}" + (f'|"{said}"|' if said else "") + f" {end}\n"
    return f"  {start} -> {end} [style={drawn}" + (f', label="{said}"' if said else "") + "];\n"


def picture(document, language, accepted, failure=None):
    """The text of the picture. Where the document has a journal, which is taken to be a run, that is drawn, as far as to the
    place where a claim fails; else the nodes of tasks are coloured where the document's certificate is accepted."""
    found = endings(document) if accepted else [()] * len(document["tasks"])
    now = moment(document, failure)
    lines = [OPENING[language]]
    lines += [token_node(language, name_of(token)) for token in document.get("tokens", [])]
    lines += task_nodes(document, language, [mark(language, ends) for ends in found], now)
    lines += [edge_line(language, *edge) for edge in edges(document)]
    return "".join([*lines, legend(language, found, now), closing(language, now)])


def accepted(document):
    """Whether the certificate is taken as accepted: it has a tree for each claim."""
    return len(document.get("certificate", [])) == len(document.get("claims", []))


def without_run(document):
    """The document without its journal."""
    return {key: value for key, value in document.items() if key != "journal"}


def kept_picture(name: str, language: str) -> pathlib.Path:
    """The file of an example's picture, at which a person has looked."""
    return PICTURES / f"{name}.{LANGUAGES[language]}"


def drawn_examples():
    """What is drawn of the examples: each one without its journal, and with it where it has one."""
    for file in examples():
        document = json.loads(file.read_text(encoding="utf-8"))
        yield file.stem, without_run(document)
        if "journal" in document:
            yield f"{file.stem}-run", document


def main() -> int:
    return tell_kept(
        "Draws",
        PICTURES,
        (
            (kept_picture(name, language), picture(document, language, accepted(document)))
            for name, document in drawn_examples()
            for language in LANGUAGES
        ),
    )


if __name__ == "__main__":
    sys.exit(main())
