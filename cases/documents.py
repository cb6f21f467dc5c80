"""Documents that are measured: of a given size, with a run, with claims that are searched for, with tasks for threads."""
import bisect
import dataclasses
import json

# the limits of a document
LONGEST = 16_777_216
MOST_TASKS = 1_024
MOST_STATEMENTS = 64
MOST_ARGUMENTS = 256
MOST_TOKENS = 32
MOST_SITES = 256
MOST_CLAIMS = 64
MOST_SPLITS = 6


def text_of(document):
    """The text of a document, in one line."""
    return json.dumps(document, separators=(",", ":")) + "\n"


def root(name, body, **more):
    return {"name": name, "kind": "root", **more, "body": body}


def continuation(name, after, body, **more):
    return {"name": name, "kind": "then", "after": after, **more, "body": body}


# ---- documents of a given size


INPUTS = 6
ENDS = ["RanToCompletion", "Faulted"]


@dataclasses.dataclass(frozen=True)
class Size:
    """The size of a document. Its tasks stand in lines: a root, and continuations of which each continues the one before."""

    tasks: int
    # of each body
    statements: int = 0
    # the tasks of each line
    line: int = 1
    claims: int = 0
    # on each path of a tree, on inputs and on how a task ends
    splits: int = 0
    ends: int = 0


def line_before(size, task):
    """The tasks of its line before the task."""
    return [f"Task{number}" for number in range(task - task % size.line, task)]


def statement(task, number):
    if number == 0 and task < MOST_SITES:
        return {"work": f"Site{task}", "may_fail": True}
    kinds = [{"if": f"Input{number % INPUTS}", "then": []}, {"check": "Stop"}, {"cancel": "Stop"}]
    return kinds[number % len(kinds)]


def sized_task(size, task):
    name, before = f"Task{task}", line_before(size, task)
    body = [statement(task, number) for number in range(size.statements)]
    return continuation(name, before[-1], body) if before else root(name, body)


def row(size, task):
    before = line_before(size, task)
    return {"ends": ENDS, "runs": True, **({"before": before, "past": before} if before else {})}


def tree(size):
    """A tree whose leaves have the same rows."""
    made = {"rows": [row(size, task) for task in range(size.tasks)]}
    for task in range(size.ends):
        made = {"split_end": f"Task{task}", "ran": made, "canceled": made, "faulted": made}
    for number in range(size.splits):
        made = {"split_input": f"Input{number}", "yes": made, "no": made}
    return made


def sized(size):
    """The document of a size, with a tree for each claim."""
    return {
        "version": 1,
        "inputs": [f"Input{number}" for number in range(INPUTS)],
        "tokens": ["Stop"],
        "tasks": [sized_task(size, task) for task in range(size.tasks)],
        "claims": [{"final": f"Task{claim}", "in": ENDS} for claim in range(size.claims)],
        "certificate": [tree(size)] * size.claims,
    }


def filled(size):
    """The document of a size, but with as many tasks as fit."""

    def made(tasks):
        return sized(dataclasses.replace(size, tasks=tasks))

    counts = range(1, MOST_TASKS + 1)
    return made(bisect.bisect(counts, False, key=lambda tasks: len(text_of(made(tasks))) > LONGEST))


# documents whose work is counted
COUNTED = {
    # many roots, under many claims whose trees are one leaf
    "roots": Size(1_024, claims=64),
    # a chain of continuations, whose rows name all tasks before them
    "chain": Size(256, line=256, claims=8),
    # few tasks, under claims with as many leaves as may be
    "leaves": Size(64, claims=4, ends=6),
    # many tasks with long bodies
    "bodies": Size(1_024, statements=64, claims=60),
}


# ---- graphs with a run


def task_name(number):
    return f"task{number}"


def checks(count):
    """Statements that check the first token, which is requested at the end of the run."""
    return [{"check": "token0"}] * count


def apart(count, statements):
    """Roots."""
    return [root(task_name(number), checks(statements)) for number in range(count)]


def chained(count, statements):
    """Tasks of which each continues the one before it."""
    first, *others = apart(count, statements)
    return [first, *(continuation(task_name(n), task_name(n - 1), checks(statements)) for n in range(1, len(others) + 1))]


def combined(kind, count, arguments):
    """Roots of which so many at a time are the arguments of a WhenAll or WhenAny task."""
    tasks = apart(count, 1)
    for number in range(arguments, count, arguments + 1):
        names = [task_name(other) for other in range(number - arguments, number)]
        tasks[number] = {"name": task_name(number), "kind": kind, "of": names}
    return tasks


def families(count, children):
    """Roots with so many attached children each."""
    attached = {"kind": "child", "options": ["AttachedToParent"]}
    tasks = [{**task, **attached} for task in apart(count * (children + 1), 1)]
    for number in range(0, len(tasks), children + 1):
        started = range(number + 1, number + children + 1)
        tasks[number] = root(task_name(number), [{"start": task_name(child)} for child in started])
    return tasks


def body_events(task):
    """It begins, passes its statements, and is left."""
    name = task["name"]
    return [f"w1 begin {name}", *[f"w1 step {name}"] * len(task["body"]), f"w1 leave {name}"]


def task_events(task):
    """All events of a task that is no child and has none."""
    if task["kind"] in ("all", "any"):
        return [f"w1 settle {task['name']}"]
    released = [f"w1 release {task['name']}"] if task["kind"] == "then" else []
    return [*released, *body_events(task)]


def one_by_one(tasks):
    """One task after another."""
    return [event for task in tasks for event in task_events(task)]


def side_by_side(tasks, rounds):
    """All roots begin, and then each passes a statement in turn, so many in all; after the last of its body it is left."""
    verbs = ["begin", *["step"] * rounds, *["leave"] * (rounds == len(tasks[0]["body"]))]
    return [f"w1 {verb} {task['name']}" for verb in verbs for task in tasks]


def by_family(tasks, children):
    """Roots start their children and are left, and then the children run, which closes the root."""
    found = []
    for number in range(0, len(tasks), children + 1):
        family = tasks[number : number + children + 1]
        found += [event for task in family for event in body_events(task)]
        found.append(f"w1 close {family[0]['name']}")
    return found


def with_run(tasks, events, tokens=1):
    """The document of a graph and a run, at the end of which all tokens are requested."""
    names = [f"token{number}" for number in range(tokens)]
    lines = [*events, *(f"o1 request {name}" for name in names)]
    return {"version": 1, "tokens": names, "tasks": tasks, "journal": "".join(f"{line}\n" for line in lines)}


@dataclasses.dataclass(frozen=True)
class Widths:
    """How wide the graphs of a course are."""

    # of long bodies
    statements: int
    # of a WhenAll or WhenAny task
    arguments: int
    # of a parent
    children: int
    tokens: int


WIDEST = Widths(MOST_STATEMENTS, MOST_ARGUMENTS, MOST_STATEMENTS, MOST_TOKENS)


@dataclasses.dataclass(frozen=True)
class Length:
    """How long a course is."""

    # with long bodies
    tasks: int
    # in which each of many tasks passes a statement
    rounds: int
    # with WhenAll or WhenAny tasks, and a rest of roots
    combined: int
    families: int


LENGTHS = (Length(15, 0, 257, 4), Length(76, 4, 514, 8), Length(303, 19, 771, 12), Length(1_024, 64, 1_024, 15))


def courses(widths, length, many=MOST_TASKS):
    """The name and the document of each course: a graph with a run."""
    bodies = apart(length.tasks, widths.statements)
    yield "one by one", with_run(bodies, one_by_one(bodies))
    yield "side by side", with_run(bodies, side_by_side(bodies, widths.statements))
    tasks = apart(many, widths.statements)
    yield f"the first of {many:,} side by side", with_run(tasks, side_by_side(tasks, length.rounds))
    tasks = chained(length.tasks, widths.statements)
    yield "a chain", with_run(tasks, one_by_one(tasks), widths.tokens)
    for name, kind in (("WhenAll", "all"), ("WhenAny", "any")):
        tasks = combined(kind, length.combined, widths.arguments)
        yield name, with_run(tasks, one_by_one(tasks))
    tasks = families(length.families, widths.children)
    yield "families", with_run(tasks, by_family(tasks, widths.children))


def claim_of_run(document, number):
    """A claim of each kind in turn, of which each third asks that a token is quiet."""
    bodies = [task["name"] for task in document["tasks"] if "body" in task][:MOST_ARGUMENTS]
    one, other = (bodies[number * step % len(bodies)] for step in (7, 11))
    claims = [
        {"final": one, "in": ["RanToCompletion"]},
        {"after": [one, other]},
        {"observed": other},
        {"never": other},
        {"excludes": [one, other]},
    ]
    tokens = document["tokens"]
    given = {"given": [{"quiet": tokens[number % len(tokens)]}]} if number % 3 == 2 else {}
    return {**given, **claims[number % len(claims)]}


def with_claims(document, count):
    """The document with so many claims about its run."""
    return {**document, "claims": [claim_of_run(document, number) for number in range(count)]}


# ---- claims that are searched for


# the continuations of a group that stand in a line
GROUP_LINE = 9


@dataclasses.dataclass(frozen=True)
class Groups:
    """A graph of groups of 16 tasks."""

    count: int
    # the root of each group but the first continues the line of the one before it
    joined: bool
    # the splits on a path that each claim needs: none, one on an end, or one on an input and one on an end; with more the
    # claims are false
    splits: int


def throws(when):
    return [{"when": when, "then": [{"throw": "boom"}]}]


def throwing(name, after, on_true, on_false):
    """It throws after one end of its antecedent where the input `i` is true, and after the other where it is false."""
    return continuation(name, after, [{"if": "i", "then": throws(on_true), "else": throws(on_false)}])


def first_of_group(groups, group):
    """The first task of a group, whose job may fail."""
    name, body = f"R{group}", [{"work": f"s{group}", "may_fail": True}]
    if groups.joined and group > 0:
        return continuation(name, f"C{group - 1}_{GROUP_LINE - 1}", body)
    return root(name, body)


def group_of(groups, group):
    """The tasks of a group. Each of its line throws where the input `h` is true."""
    first, faulted, ran = f"R{group}", {"options": ["OnlyOnFaulted"]}, {"options": ["OnlyOnRanToCompletion"]}
    line = [f"C{group}_{place}" for place in range(GROUP_LINE)]
    thrown = [{"if": "h", "then": [{"throw": "boom"}]}]
    return [
        first_of_group(groups, group),
        continuation(f"X{group}", first, [], **faulted),
        continuation(f"Y{group}", first, [], **ran),
        throwing(f"F{group}", first, "Faulted", "RanToCompletion"),
        throwing(f"H{group}", first, "RanToCompletion", "Faulted"),
        continuation(f"P{group}", f"F{group}", [], **faulted),
        continuation(f"Q{group}", f"H{group}", [], **faulted),
        *(continuation(name, after, thrown) for name, after in zip(line, [first, *line])),
    ]


def claim_of_group(groups, group):
    last = f"C{group}_{GROUP_LINE - 1}"
    claims = [
        {"after": [f"R{group}", last]},
        {"excludes": [f"X{group}", f"Y{group}"]},
        {"excludes": [f"P{group}", f"Q{group}"]},
        {"never": last},
    ]
    return claims[groups.splits]


def grouped(groups):
    """The document, with a claim about each group, the last one first."""
    return {
        "version": 1,
        "inputs": ["h", "i"],
        "tasks": [task for group in range(groups.count) for task in group_of(groups, group)],
        "claims": [claim_of_group(groups, group) for group in reversed(range(groups.count))],
    }


@dataclasses.dataclass(frozen=True)
class Stages:
    """A line of stages under one token, and a claim about the last one."""

    count: int
    # the stages between the one that the last continues and the one after which the claim has it begin: each needs a split
    # on its end
    splits: int
    # else the claim is false: that the last one never begins
    holds: bool


def staged(stages):
    """The document. Each stage continues the one before it where that ran to completion."""
    names = [f"S{number}" for number in range(stages.count)]
    token, ran = {"token": "stop"}, {"options": ["OnlyOnRanToCompletion"]}
    line = [continuation(name, after, [], **token, **ran) for after, name in zip(names, names[1:])]
    claim = {"after": [names[-2 - stages.splits], names[-1]]} if stages.holds else {"never": names[-1]}
    return {"version": 1, "tokens": ["stop"], "tasks": [root(names[0], [], **token), *line], "claims": [claim]}


# ---- tasks for threads


def chain_antecedent(number):
    """Each task continues the one before it."""
    return number - 1 if number else None


def fan_antecedent(fan):
    """So many tasks at a time are a root and those that continue it."""
    return lambda number: number - number % fan if number % fan else None


def for_threads(count, antecedent=lambda number: None, has_jobs=False):
    """The document of so many tasks, each with a job or with nothing to do."""
    tasks = []
    for number in range(count):
        body = [{"work": f"site{number}", "may_fail": True}] if has_jobs else []
        before = antecedent(number)
        name = task_name(number)
        tasks.append(root(name, body) if before is None else continuation(name, task_name(before), body))
    return {"version": 1, "tasks": tasks}
