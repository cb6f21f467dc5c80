"""Documents that are dear to answer, and how answers are found that cost too much or end badly.

  cost      each dear document within a bound of processor time and of memory. Both are multiples of what a plain reading
            of the same bytes costs, by Python's own reader in the same minute, so that a slow machine fails none
  stack     each command on small documents with the stack that docs/OUTPUT.md names
  full      a file that may not grow is a failed write, as one without a reader is: by the script `taskgraph`, whatever
            program is named
  memcheck  ten calls of each command under Debian's valgrind, which finds reads and writes where none may be

test_hostile.py has a test for each.
"""
import dataclasses
import json
import os
import pathlib
import re
import resource
import shutil
import subprocess
import sys
import tempfile
import time

import debian
from documents import COUNTED, Stages, sized, staged
from graphs import FINALS

HERE = pathlib.Path(__file__).resolve().parent
TOP = HERE.parent
PROGRAM = TOP / "taskgraph"
COMMANDS = ("check", "analyse", "run", "audit", "refute", "verify", "draw", "trace")

# the limits of a document
MOST_TASKS, MOST_ARGUMENTS, MOST_CLAIMS, MOST_STATEMENTS = 1_024, 256, 64, 64
# and those of version 3, and of jobs and tokens
MOST_WIDE_CLAIMS, MOST_SITES, MOST_TOKENS = 1_024, 256, 32
# what the smallest document may take beside its bytes, in bytes
BASE = 16 << 20
# how long a document is read again and again to find what a reading takes, in seconds
LEAST_READING = 0.2
# the program is stopped where it takes so many times as long as it may
PATIENCE = 3
# the exit status of a failed write
DEVICE = 5


# ---- documents


def root(name, *body):
    return {"name": name, "kind": "root", "body": list(body)}


def continuation(name, after, *body, **more):
    return {"name": name, "kind": "then", "after": after, **more, "body": list(body)}


def joined(name, names):
    return {"name": name, "kind": "all", "of": list(names)}


def turned(names, first):
    """So many of the names as a task may wait for, from this one on and round again."""
    return [names[(first + number) % len(names)] for number in range(MOST_ARGUMENTS)]


def numbered(letter, count):
    return [f"{letter}{number}" for number in range(count)]


def document(tasks, *claims, **more):
    return {"version": 1, "tasks": tasks, **({"claims": list(claims)} if claims else {}), **more}


def forks(count=250):
    """Jobs that may fail, each with a handler; two layers of WhenAll tasks over all handlers; and a claim that no split shows."""
    handlers, first, second = numbered("F", count), numbered("A", MOST_ARGUMENTS), numbered("B", MOST_ARGUMENTS)
    tasks = []
    for number, handler in enumerate(handlers):
        tasks.append(root(f"R{number}", {"work": f"w{number}", "may_fail": True}))
        tasks.append(continuation(handler, f"R{number}", "observe", options=["OnlyOnFaulted"]))
    tasks += [joined(name, turned(handlers, at)) for at, name in enumerate(first)]
    tasks += [joined(name, turned(first, at)) for at, name in enumerate(second)]
    tasks += [
        joined("Z", second),
        continuation("X", "Z", options=["OnlyOnRanToCompletion"]),
        continuation("V", "Z", {"throw": "v"}, options=["OnlyOnCanceled"]),
        continuation("U", "V", options=["OnlyOnRanToCompletion"]),
    ]
    return tasks


def throwing_chain(roots, links, *claims):
    """Roots that throw, WhenAll tasks over them, and a chain in which each waits for the one before as often as it can."""
    names = numbered("T", roots)
    tasks = [root(name, {"throw": "x"}) for name in names]
    layer = [names[at : at + MOST_ARGUMENTS] for at in range(0, roots, MOST_ARGUMENTS)]
    if len(layer) > 1:
        tasks += [joined(f"B{at}", some) for at, some in enumerate(layer)]
        names = numbered("B", len(layer))
    tasks.append(joined("A0", names))
    tasks += [joined(f"A{at}", [f"A{at - 1}"] * MOST_ARGUMENTS) for at in range(1, links)]
    return document(tasks, *claims)


def one_by_one(tasks):
    """A run of roots with one statement and of tasks that wait, in declared order."""
    events = []
    for task in tasks:
        name = task["name"]
        acts = ("begin", "step", "leave") if "body" in task else ("settle",)
        events += [f"w1 {act} {name}\n" for act in acts]
    return "".join(events)


def with_run(given):
    return {**given, "journal": one_by_one(given["tasks"])}


def all_exceptions():
    return throwing_chain(683, 338)


def many_claims(count, groups=MOST_CLAIMS, line=16):
    """Tasks in one long line of groups, and claims that each of some groups is settled before its last task."""
    names = numbered("T", groups * line)
    tasks = [root(names[0]), *(continuation(name, before) for before, name in zip(names, names[1:]))]
    claims = [{"after": [names[at * line], names[at * line + line - 1]]} for at in reversed(range(groups))]
    return document(tasks, *claims[:count])


def long_line():
    """A line of as many tasks as may be, and a claim that each of its runs refutes."""
    names = numbered("T", MOST_TASKS)
    tasks = [root(names[0]), *(continuation(name, before) for before, name in zip(names, names[1:]))]
    return document(tasks, {"never": names[-1]})


def long_bodies():
    """As many tasks as may be with bodies as long as may be, and claims that hold: each of some ends in some way."""
    names = numbered("T", MOST_TASKS)
    claims = [{"final": name, "in": FINALS} for name in names[:MOST_CLAIMS]]
    return document([root(name, *["return"] * MOST_STATEMENTS) for name in names], *claims)


def given_ends():
    """Claims that are given the end of each of as many tasks as may be."""
    names = numbered("T", MOST_TASKS)
    given = [{"ended": name, "in": ["Faulted"]} for name in names]
    return document(list(map(root, names)), *[{"given": given, "never": "T0"}] * 400, version=3)


def given_words():
    """As many claims as may be with names, for each of which no job fails and nobody requests a token."""
    tokens = numbered("K", MOST_TOKENS)
    tasks = [root(f"T{number}", {"work": f"s{number}", "may_fail": True}) for number in range(MOST_SITES)]
    names = [str(number).rjust(100, "n") for number in range(MOST_WIDE_CLAIMS)]
    claims = [{"name": name, "given": ["no_failure", "no_request"], "runs": "T0"} for name in names]
    return document(tasks, *claims, version=3, tokens=tokens)


def small_objects(longest=16 << 20):
    """Rows that are small objects, as many as fit."""
    row = {"ends": [], "runs": True}
    given = document([root("a")], {"never": "a"}, certificate=[{"rows": []}])
    room = longest - len(text_of(given))
    given["certificate"][0]["rows"] = [row] * (room // (len(text_of(row))))
    return given


def release(layers, width):
    """Layers of jobs, each behind the WhenAll over those before it, which a report follows where it failed, and a cleanup; and
    claims about each layer: one of nine is false, and one needs a split on that WhenAll."""
    ran, faulted = {"options": ["OnlyOnRanToCompletion"]}, {"options": ["OnlyOnFaulted"]}
    tasks, claims = [], []
    for layer in range(layers):
        before, jobs, joins = f"All{layer - 1}", [f"J{layer}_{number}" for number in range(width)], f"All{layer}"
        for number, job in enumerate(jobs, layer * width):
            body = [{"work": f"s{number}", "may_fail": True}] if number < MOST_SITES else []
            tasks.append(continuation(job, before, *body, **ran) if layer else root(job, *body))
        tasks += [
            joined(joins, jobs),
            continuation(f"Rep{layer}", joins, "observe", **faulted),
            continuation(f"Clean{layer}", joins),
        ]
        if layer:
            first = jobs[0]
            claims += [
                {"after": [before, first]},
                {"excludes": [f"Rep{layer - 1}", first]},
                {"after": [f"Clean{layer - 1}", first]},
            ]
        claims += [{"observed": job} for job in jobs[:3]]
        claims += [{"final": f"Clean{layer}", "in": ["RanToCompletion"]}, {"runs": f"Clean{layer}"}]
        claims.append({"given": ["no_failure", "no_request"], "never": f"Rep{layer}"})
    return document(tasks, *claims, version=3)


def steps_in_line():
    """A line of as many tasks as may be, and for each two that follow each other the claim that they come so."""
    line = long_line()
    names = [task["name"] for task in line["tasks"]]
    return document(line["tasks"], *({"after": list(pair)} for pair in zip(names, names[1:])), version=3)


def walked_bodies():
    """Long bodies under many claims of version 3: the paths of each are walked for each leaf."""
    return {**sized(COUNTED["bodies"]), "version": 3}


def wrong_object():
    """The same, where the last row is wrong."""
    given = small_objects()
    given["certificate"][0]["rows"][-1] = {"ends": [], "runs": "yes"}
    return given


def text_of(given):
    return json.dumps(given, separators=(",", ":")) + "\n"


@dataclasses.dataclass(frozen=True)
class Hostile:
    """A dear document: what is asked of it, what has to come of it, and what it may cost."""

    name: str
    words: tuple
    make: object
    exit: int
    # how the answer begins
    answer: str
    # processor time, in plain readings of the document
    readings: int
    # memory, in bytes for each byte of the document and of the answer
    bytes: int


def ran(task):
    """The claim that a task ends in no other way."""
    return {"final": task, "in": ["RanToCompletion"]}


# Each bound is some three times what a program takes that is compiled with checks and not proved.
DEAR = (
    Hostile("a claim over forks", ("analyse",), lambda: document(forks(), ran("X")), 1, "not found", 1_200, 8),
    Hostile("claims over a long line", ("analyse",), lambda: many_claims(16), 0, '[{"rows":', 5_000, 3),
    Hostile("all claims over a long line", ("analyse", "--slim"), lambda: many_claims(MOST_CLAIMS), 0, '[{"rows":', 600, 12),
    Hostile("exceptions of all roots in a chain", ("run",), all_exceptions, 0, "complete\n", 350, 8),
    Hostile("exceptions of all roots in a chain", ("audit",), lambda: with_run(all_exceptions()), 0, "run complete\n", 100, 24),
    Hostile("a run to be shortened", ("refute",), lambda: throwing_chain(60, 128, ran("A127")), 1, "{", 150, 24),
    Hostile("a long run to be shortened", ("refute",), long_line, 1, "{", 250, 24),
    Hostile("a true claim over long bodies", ("refute", "--claim", "1"), long_bodies, 0, "not refuted\n", 1_500, 16),
    Hostile("certified claims over long bodies", ("refute",), long_bodies, 0, "not refuted\n", 1_500, 16),
    Hostile("small objects", ("check",), small_objects, 1, "refused: shape claim 1\n", 5, 40),
    Hostile("all ends given to many claims", ("check",), given_ends, 1, "refused: shape claim 1\n", 5, 40),
    Hostile("all jobs and tokens given to all claims", ("check",), given_words, 1, "refused: shape claim 1\n", 1_000, 24),
    Hostile("long bodies by the rules of version 3", ("check",), walked_bodies, 0, "accepted\n", 20, 50),
    Hostile("a release of 260 tasks", ("verify", "--jobs", "1"), lambda: release(20, 10), 1, "claim 1 holds", 4_000, 24),
    Hostile("a release of 960 tasks", ("verify", "--jobs", "1"), lambda: release(60, 13), 1, "claim 1 holds", 6_000, 24),
    Hostile("all steps of a long line", ("verify", "--jobs", "1"), steps_in_line, 0, "claim 1 holds", 15_000, 24),
    Hostile("small objects, one of them wrong", ("check", "--explain"), wrong_object, 3, "unreadable: ", 15, 130),
)


# ---- what an answer costs


@dataclasses.dataclass(frozen=True)
class Cost:
    """How a call ended, how the answer begins, and what it took: seconds of a processor, and bytes."""

    exit: int
    answer: str
    seconds: float
    memory: int
    written: int


def reading_of(text):
    """What a plain reading of the text takes, in seconds of a processor."""
    times, started = 0, time.process_time()
    while time.process_time() - started < LEAST_READING:
        json.loads(text)
        times += 1
    return (time.process_time() - started) / times


def limiting(*limits):
    """What sets limits in a child: pairs of a kind and the most."""

    def limit():
        for kind, most in limits:
            resource.setrlimit(kind, (most, most))

    return limit


# Calls a program with a limit of processor time, in seconds, and says how it ended and what it took. A process is charged with
# the memory of the one that it was forked from, until it runs another program: so that one has to be small.
CALLING = """
import os, resource, sys
limit, program, *words = sys.argv[1:]
child = os.fork()
if child == 0:
    resource.setrlimit(resource.RLIMIT_CPU, (int(limit), int(limit)))
    os.dup2(os.open(os.devnull, os.O_WRONLY), 2)
    os.execv(program, [program, *words])
_, status, used = os.wait4(child, 0)
print(os.waitstatus_to_exitcode(status), used.ru_utime + used.ru_stime, used.ru_maxrss, file=sys.stderr)
"""


def cost_of(program, words, text, seconds):
    """Calls the program, which is stopped after so many seconds of a processor."""
    with tempfile.TemporaryFile() as given, tempfile.TemporaryFile() as out:
        given.write(text.encode())
        given.seek(0)
        line = [sys.executable, "-E", "-S", "-c", CALLING, str(int(seconds) + 1), program, *words]
        called = subprocess.run(line, stdin=given, stdout=out, stderr=subprocess.PIPE, check=True)
        status, taken, kilobytes = called.stderr.split()
        written = os.fstat(out.fileno()).st_size
        out.seek(0)
        start = out.read(80).decode(errors="replace")
    return Cost(int(status), start, float(taken), int(kilobytes) << 10, written)


def dearness(program, hostile):
    """What is wrong with the cost of an answer; None where nothing is."""
    text = text_of(hostile.make())
    most = hostile.readings * reading_of(text)
    cost = cost_of(program, hostile.words, text, PATIENCE * most)
    room = BASE + hostile.bytes * (len(text) + cost.written)
    if cost.exit != hostile.exit or not cost.answer.startswith(hostile.answer):
        return f"ends with {cost.exit} after {cost.seconds:.2f} s and answers {cost.answer[:40]!r}"
    if cost.seconds > most:
        return f"takes {cost.seconds:.2f} s, and not {most:.2f} s as {hostile.readings} plain readings"
    if cost.memory > room:
        return f"takes {cost.memory >> 20} MB, and not {room >> 20} MB"
    return None


# ---- a small stack, a full file, memory that isn't the program's


# the commands of a row of docs/OUTPUT.md, and the stack that it says they need at most, in kilobytes
NEEDED = re.compile(r"^\| ((?:`[^`]+`, )*`[^`]+`) \| (\d+) KB \|$", re.MULTILINE)


def needed_stacks():
    """The stack that each command needs by docs/OUTPUT.md, in kilobytes."""
    rows = NEEDED.findall((TOP / "docs/OUTPUT.md").read_text(encoding="utf-8"))
    return {tuple(words.split()): int(size) for commands, size in rows for words in re.findall("`([^`]+)`", commands)}


def tree_of(splits):
    """A tree with as many splits on each path, all by how the only task ends."""
    made = {"rows": [{"ends": ["RanToCompletion"], "runs": True}]}
    for _ in range(splits):
        made = {"split_end": "R", "ran": made, "canceled": made, "faulted": made}
    return made


def deep_tree():
    return document([root("R")], {"final": "R", "in": ["RanToCompletion"]}, certificate=[tree_of(6)])


def nested_bodies():
    body = ["return"]
    for _ in range(6):
        body = [{"if": "i", "then": body}]
    return document([root("R", *body)], inputs=["i"])


def example(name):
    """The document of an example, in a line."""
    return text_of(json.loads((TOP / f"examples/{name}.json").read_text(encoding="utf-8")))


# small documents that use much of the stack
SHORT = {
    "no task": text_of(document([])),
    "a tree with six splits": text_of(deep_tree()),
    "a claim that six splits show": text_of(staged(Stages(20, splits=6, holds=True))),
    "nested bodies": text_of(nested_bodies()),
    "nested arrays": "[" * 127 + "]" * 127,
    "a chain that carries exceptions": text_of(throwing_chain(8, 24)),
    "its run": text_of(with_run(throwing_chain(8, 24))),
    **{name: example(name) for name in ("saga", "etl-mirrors", "blue-green-wrong")},
}
# on how many lines such a document stands, where each line is answered
LINES = 20


def ended(program, words, text, *limits):
    """How a call ends under limits, and what it writes into a file."""
    with tempfile.TemporaryFile() as given, tempfile.TemporaryFile() as out:
        given.write(text.encode())
        given.seek(0)
        how = {"stdin": given, "stdout": out, "stderr": subprocess.DEVNULL, "preexec_fn": limiting(*limits)}
        called = subprocess.run([program, *words], check=False, **how)
        out.seek(0)
        return called.returncode, out.read()


# what a command is asked besides: few tries
BESIDES = {"refute": ("--runs", "100"), "verify": ("--runs", "100")}


def asked(command):
    return (command, *BESIDES.get(command, ()))


def overflow(program, words, size, name):
    """What is wrong where a command answers with a stack of so many kilobytes; None where nothing is."""
    text = SHORT[name] * LINES if "--each" in words else SHORT[name]
    words = (*words, *BESIDES.get(words[0], ()))
    wanted = ended(program, words, text)
    got = ended(program, words, text, (resource.RLIMIT_STACK, size << 10))
    # (what several workers run comes in another order)
    is_well = got[0] == wanted[0] if words[0] == "run" else got == wanted
    return None if is_well else f"with a stack of {size} KB it ends with {got[0]}, and with more of it with {wanted[0]}"


def unwritten(program, command):
    """What is wrong where what a command writes may not grow; None where nothing is."""
    got = ended(program, asked(command), SHORT["no task"], (resource.RLIMIT_FSIZE, 0))
    return None if got == (DEVICE, b"") else f"it ends with {got[0]}, and not with {DEVICE}"


# how many calls of each command valgrind watches, and the exit status by which it says that it found something
WATCHED, FOUND = 10, 99
VALGRIND = ("valgrind", "--quiet", "--leak-check=no", f"--error-exitcode={FOUND}")


def has_valgrind():
    """Whether valgrind is there, or can be installed."""
    if not shutil.which("valgrind"):
        debian.install("valgrind")
    return shutil.which("valgrind") is not None


def small_examples():
    """The shortest examples of the repository."""
    return sorted((TOP / "examples").glob("*.json"), key=lambda file: (file.stat().st_size, file.name))[:WATCHED]


def strays(program, command, file):
    """What valgrind finds in a call; None where it finds nothing and the answer is as without it."""
    words = ("refute", "--runs", "2") if command == "refute" else (command,)
    text = file.read_text(encoding="utf-8")
    with tempfile.TemporaryFile() as said:
        how = {"input": text, "stdout": subprocess.PIPE, "stderr": said, "text": True, "check": False}
        watched = subprocess.run([*VALGRIND, program, *words], **how)
        said.seek(0)
        if watched.returncode == FOUND:
            return f"{file.name}: valgrind finds {said.read()[:300].decode(errors='replace')}"
    got, wanted = (watched.returncode, watched.stdout), ended(program, words, text)
    # (runs by threads differ)
    same = got[0] == wanted[0] if command == "run" else got == (wanted[0], wanted[1].decode())
    return None if same else f"{file.name}: under valgrind it answers {got}"
