"""Tests the library of this folder under Mono, with the program that is named.

The library, the tests and the samples are compiled as C# 7. Expected are: the documents of the folder examples; the rules,
by which the program audits each run, and by which this script reads each journal once more; what a method does that is
written with await; and what the page docs/DOTNET.md says of them. Where Mono can't be had all is skipped. What is published of
the library, its package and its pages, test_published.py tests.
"""
import collections
import json
import os
import pathlib
import random
import re
import shutil
import subprocess
import sys
import time

import pytest

from mono import HERE, TOP, Failure, hold, library, lines

# for the graphs that are drawn by chance
sys.path.insert(0, str(TOP / "cases"))
sys.dont_write_bytecode = True

EXAMPLE_RUNS = 50
# of the runs of examples one in so many is traced, and audited with another end
ONE_IN = 10
FINALS = ("RanToCompletion", "Canceled", "Faulted")
DRAWN_DOCUMENTS, DRAWN_RUNS, DRAWN_SEED, DRAWN_TASKS = 200, 5, 5, (4, 12)
PLANTED_DOCUMENTS = 100
DRAWN_METHODS = 300
# of the claims of tests/Refuted.cs that are refuted, how many have to fail in real runs: 21 did
REFUTED, LEAST_SHAKEN = 26, 17
# in one real run of each that is led the way of the verdict, so many fail at least: 24 to 26 did
LEAST_LED = 20
SHARDS = "24"
# of 30 runs in which a job throws and nobody reads it: the collector of Mono may keep a task that is on no stack any more
LEAST_RAISED, RUNS_RAISED = 15, 30
# the two places where the libraries that were measured differ from the documentation
KNOWN = {"WinnerLookedAt", "Link"}
# notes by which a run is refused, whatever the program says of its journal
UNSAYABLE = {"WinnerLookedAt", "Unexplained"}
# notes that say that an end stands later in the journal than it was, or a begin earlier
SHIFTS = {"Begin", "Late", "Link"}


def kinds(run):
    """The kinds of a run's notes."""
    return {note.split(":")[0] for note in run["notes"]}


def told(runs):
    """How many of these runs have notes of each kind."""
    counted = collections.Counter(kind for run in runs for kind in kinds(run))
    return ", ".join(f"{count} {kind}" for kind, count in sorted(counted.items())) or "none"


def is_accepted(answer):
    return answer == ("run complete\n", 0)


# the documents


# how a task's note begins in a document that is declared in C#
DECLARED_AT = re.compile(r"^[A-Za-z0-9]+\.cs:[0-9]+(: )?")


def plain(document, *without):
    """A document without its version, its certificate, its run, the lines that declare its tasks, and what means nothing."""
    kept = {name: it for name, it in document.items() if name not in ("version", "certificate", "journal", "start", *without)}
    kept["tasks"] = [{**task, "options": sorted(task.get("options", []))} for task in kept["tasks"]]
    for task in kept["tasks"]:
        task["note"] = DECLARED_AT.sub("", task.get("note", ""))
    return kept


def example(name):
    if name == "pipeline":
        return json.loads(subprocess.run([TOP / "examples/pipeline", SHARDS], capture_output=True, text=True, check=True).stdout)
    folder = HERE / "tests" if name == "version3" else TOP / "examples"
    return json.loads((folder / f"{name}.json").read_text(encoding="utf-8"))


def from_csharp():
    """The documents of docs/FROM-CSHARP.md, by their numbers."""
    text = (TOP / "docs/FROM-CSHARP.md").read_text(encoding="utf-8")
    return [json.loads("{" + match + "}") for match in re.findall(r"^```json\n(.*?)^```$", text, re.MULTILINE | re.DOTALL)]


def loosely(document):
    """A document without what docs/FROM-CSHARP.md leaves out: its jobs are named in lower case, and DenyChildAttach stands only
    where a body starts children."""
    text = json.dumps(plain(document, "claims"))
    loose = json.loads(re.sub(r'"work": "(\w+)"', lambda letter: letter.group(0).lower(), text))
    for task in loose["tasks"]:
        if not list(started(task.get("body", []))):
            task["options"] = [option for option in task["options"] if option != "DenyChildAttach"]
    return loose


def of_documents(suite, tests):
    """What the builder writes is what the examples have, member by member, and what docs/FROM-CSHARP.md has."""
    written = dict(line.split("\t") for line in suite.ran(tests, "documents").splitlines())
    shown = {f"from-csharp {number}": it for number, it in enumerate(from_csharp())}
    expected = {file.stem for file in (TOP / "examples").glob("*.json")} | {"pipeline"}
    many = json.loads(written.pop("many claims"))
    yield "a document of many claims", None if len(many["claims"]) == 65 else f"{many}"
    versions = {json.loads(text)["version"] for text in written.values()}
    yield "the version of each document", None if versions == {3} else f"{versions}"
    declared = {name for name in written if not name.startswith(("from-csharp", "version3"))}
    yield "each example is declared", None if declared == expected else f"declared are {sorted(declared)}"
    for name, text in written.items():
        document = json.loads(text)
        same = loosely(document) == loosely(shown[name]) if name in shown else plain(document) == plain(example(name))
        yield f"the document {name}", None if same else f"the builder writes {text}"


# runs and their journals


def of_run(run, answer):
    """Why a run isn't accepted as complete, or None."""
    if not run["ended"]:
        return "it didn't end"
    document = run["document"]
    if not is_accepted(answer):
        return f"{answer}, with the notes {run['notes']}: {document['journal']!r}"
    if document["ended"].keys() != ended_by(document):
        return f"the ends {document['ended']} aren't those of the journal"
    times = document["times"]
    if len(times) != document["journal"].count("\n") or times != sorted(times) or (times and times[0] < 0):
        return f"the times {times} aren't one for each event, or fall"
    return None


def of_examples(suite, tests):
    """Each pipeline of the examples, shaken: accepted as a complete run, in which each task ended as it was seen to."""
    runs = lines(suite.ran(tests, "examples", EXAMPLE_RUNS * suite.times, 1))
    print(f"{len(runs)} runs of examples; notes on them: {told(runs)}")
    for number, (run, answer) in enumerate(zip(runs, suite.audited(runs))):
        yield f"the run {number} of {run['name']}", of_run(run, answer)
    yield from of_ends(suite, runs[::ONE_IN])
    yield from of_times(suite, runs[::ONE_IN])


def of_ends(suite, runs):
    """Where it is said that a task ended otherwise, the audit names that task and how it ended by the journal."""
    changed = [(run, name) for run in runs for name in list(run["document"]["ended"])[:1]]
    others = [{**run, "document": with_other_end(run["document"], name)} for run, name in changed]
    for (run, name), answer in zip(changed, suite.audited(others)):
        expected = (f"run complete\ntask {name} ended {run['document']['ended'][name]}\n", 1)
        yield f"another end of {name} in a run of {run['name']}", None if answer == expected else f"{answer}, not {expected}"


def with_other_end(document, name):
    other = FINALS[(FINALS.index(document["ended"][name]) + 1) % len(FINALS)]
    return {**document, "ended": {**document["ended"], name: other}}


def of_times(suite, runs):
    """A trace has each begin of a body at its time."""
    for run, (text, status) in zip(runs, suite.of_each(runs, "trace")):
        document = run["document"]
        lines = [line.split() for line in document["journal"].splitlines()]
        expected = {line[2]: time for line, time in zip(lines, document["times"]) if line[1] == "begin"}
        found = (
            {event["name"]: event["ts"] for event in json.loads(text)["traceEvents"] if event["ph"] == "B"}
            if status == 0
            else text
        )
        yield f"the times of a trace of {run['name']}", None if found == expected else f"{found}, not {expected}"


def of_lengths(suite, tests):
    """The slices of a trace are as long as the bodies of a real run took. The jobs read the clock: a body begins before its job
    and behind the one before it; and it ends behind its job and before the next one, or the end of the whole run."""
    (run,) = lines(suite.ran(tests, "times"))
    text, status = suite.asked(["trace"], run["document"])
    slices = [event for event in json.loads(text)["traceEvents"] if event["ph"] in "BE"] if status == 0 else []
    found = [(each_slice["name"], each_slice["ph"]) for each_slice in slices]
    names = [name for name, _, _ in run["bodies"]]
    yield "the slices of a chain", None if run["ended"] and found == [
        (each_name, edge) for each_name in names for edge in "BE"
    ] else f"{text}"
    latest = [item for _, begin, _ in run["bodies"] for item in (begin, begin)][1:] + [run["whole"]]
    earliest = [0, *(item for _, _, end in run["bodies"] for item in (end, end))][:-1]
    for it, least, most in zip(slices, earliest, latest):
        inside = least <= it["ts"] <= most
        yield f"the time of {it['ph']} of {it['name']}", None if inside else f"{it['ts']}, not from {least} to {most}"


class Account:
    """Which tasks have ended before each begin of a complete run's journal, by the rules of docs/PROFILE.md alone."""

    def __init__(self, document):
        self.tasks = {task["name"]: task for task in document["tasks"]}
        self.events = [line.split()[1:3] for line in document["journal"].splitlines()]
        # a child that is started begins or is dropped sooner or later, and no other does; a parent leaves after all its starts
        self.moved = {name for act, name in self.events if act in ("begin", "drop")}
        self.attached = {name: self.children(task) for name, task in self.tasks.items()}
        # those that have ended by the events that were looked at so far
        self.ended = {name for name, task in self.tasks.items() if task["kind"] == "all" and not task["of"]}

    def children(self, task):
        """The attached children that a task's body starts."""
        if "DenyChildAttach" in task.get("options", []):
            return set()
        mine = set(started(task.get("body", []))) & self.moved
        return {name for name in mine if "AttachedToParent" in self.tasks[name].get("options", [])}

    def begins(self):
        """Each task that begins, with those that have ended before."""
        for act, name in self.events:
            if act == "begin":
                yield name, set(self.ended)
            elif act in ("drop", "close", "settle") or (act == "leave" and self.attached[name] <= self.ended):
                self.ended.add(name)


def ended_by(document):
    """The tasks that have ended by a journal."""
    account = Account(document)
    collections.deque(account.begins(), maxlen=0)
    return account.ended


def started(body):
    """The children that a body starts, in textual order."""
    for statement in body:
        if isinstance(statement, dict):
            if "start" in statement:
                yield statement["start"]
            yield from started(statement.get("then", []))
            yield from started(statement.get("else", []))


def unseen(run):
    """The tasks that a journal says had ended where a body that then began could see that they had not; and the other way
    round."""
    account = Account({**run["document"], "journal": run["journal"]})
    names = list(account.tasks)
    too_early, too_late = [], []
    for task, ended in account.begins():
        before, first = ({name for name, digit in zip(names, seen) if digit == "1"} for seen in run["begins"][task])
        too_early += [(task, each_name) for each_name in sorted(ended - first)]
        too_late += [(task, item) for item in sorted(before - ended)]
    return too_early, too_late


def drawn(count):
    """Documents that are drawn by chance, one on a line."""
    from chance import Wide

    chance = random.Random(DRAWN_SEED)
    graphs = [Wide(chance, *DRAWN_TASKS) for _ in range(count)]
    return "".join(json.dumps(graph.document(start=graph.start())) + "\n" for graph in graphs)


def of_drawn_run(run, answer):
    """Why a run of a drawn graph is neither accepted nor refused for one of the two known differences; and why its journal
    lies."""
    too_early, too_late = unseen(run)
    if not run["ended"]:
        return "it didn't end"
    if kinds(run) & UNSAYABLE and is_accepted(answer):
        return f"the program accepts what the library refuses: {run['notes']}"
    if too_early:
        return f"the journal says that these had ended, and bodies saw that they had not: {too_early}"
    if too_late and not kinds(run) & SHIFTS:
        return f"bodies saw that these had ended, and the journal says later: {too_late}"
    if kinds(run) & KNOWN:
        return None
    return f"the notes {run['notes']}" if "Unexplained" in kinds(run) else of_run(run, answer)


def of_drawn(suite, tests):
    """Graphs that are drawn by chance: accepted, or refused for one of the two known differences; and no journal lies."""
    runs = lines(suite.ran(tests, "drawn", DRAWN_RUNS, 1, given=drawn(DRAWN_DOCUMENTS * suite.times)))
    answered = suite.audited(runs)
    for number, (run, answer) in enumerate(zip(runs, answered)):
        yield f"the run {number} of the drawn graph {run['name']}", of_drawn_run(run, answer)
    refused = [run for run, answer in zip(runs, answered) if not is_accepted(answer)]
    accepted = [run for run in runs if run not in refused]
    pairs = sum(len(run["document"]["tasks"]) * run["journal"].count(" begin ") for run in runs)
    print(
        f"{len(runs)} runs of drawn graphs, with {pairs} pairs of a begin and a task; {len(refused)} refused; notes on these:"
        f" {told(refused)}; on those that were accepted: {told(accepted)}"
    )


# planted faults


def planted(file, folder):
    """A copy of the library with a fault."""
    text, edits = None, []
    for line in file.read_text(encoding="utf-8").splitlines():
        head, _, rest = line.partition(":")
        if head == "file":
            text = folder / rest.strip()
        elif head in ("old", "new"):
            if not edits or (head == "old" and edits[-1]["new"]):
                edits.append({"old": [], "new": []})
            edits[-1][head].append(rest)
    for source in library():
        shutil.copy(source, folder)
    code = text.read_text(encoding="utf-8")
    for edit in edits:
        old, new = ("\n".join(edit[word]) + "\n" for word in ("old", "new"))
        if code.count(old) != 1:
            raise Failure(f"{file.name}: its old text stands at {code.count(old)} places: {old}")
        code = code.replace(old, new)
    text.write_text(code, encoding="utf-8")
    return sorted(folder.glob("*.cs"))


def failures(suite, tests, which):
    """Why tests of drawn graphs, of drawn methods, or of the lengths of bodies fail."""
    of_which = {"lengths": of_lengths, "refusals": of_refusals, "facts": of_facts}
    if which in of_which:
        return [why for _, why in of_which[which](suite, tests) if why]
    if which == "methods":
        return [why for _, why in of_methods(suite, tests, "drawn-methods", DRAWN_METHODS, 1) if why]
    runs = lines(suite.ran(tests, "drawn", DRAWN_RUNS, 1, given=drawn(PLANTED_DOCUMENTS)))
    return [why for run, answer in zip(runs, suite.audited(runs)) if (why := of_drawn_run(run, answer))]


def of_planted(suite):
    """With a fault in the library these tests have to fail."""
    for file in sorted((HERE / "tests/planted").iterdir()):
        folder = suite.folder / file.name
        folder.mkdir()
        tests = suite.compile(f"{file.name}.exe", planted(file, folder))
        which = re.search(r"^tests: (\w+)$", file.read_text(encoding="utf-8"), re.MULTILINE).group(1)
        failing = failures(suite, tests, which)
        print(f"with the planted fault {file.name} {len(failing)} tests fail, as: {failing[0][:160] if failing else ''}")
        yield f"the planted fault {file.name}", None if failing else "no test fails"


# programs that aren't their declaration


def of_deviations(suite, tests):
    """What the audit says of programs that aren't their declaration is what the page says. Where it says that a task ended
    otherwise, the journal alone would be accepted; and where the library refuses a run, the program refuses its document."""
    page = (TOP / "docs/DOTNET.md").read_text(encoding="utf-8")
    expected = dict(re.findall(r"^\| `([a-z-]+)` \|.*\| `([^`]*)` \|$", page, re.MULTILINE))
    written = [line.split("\t") for line in suite.ran(tests, "deviations").splitlines()]
    other = sorted(set(expected) ^ {name for name, _, _ in written})
    yield "each deviation stands on the page", f"{other}" if other else None
    for name, answer, document in written:
        yield f"the deviation {name}", None if expected.get(name) == answer else f"{answer!r}, not {expected.get(name)!r}"
        kept = suite.asked(["audit"], json.loads(document))
        yield f"the document of {name}", None if is_accepted(kept) == (answer == "accepted") else f"{kept}"
        if answer.startswith("the task "):
            alone = suite.asked(["audit"], {member: it for member, it in json.loads(document).items() if member != "ended"})
            yield f"the journal of {name} alone", None if is_accepted(alone) else f"{alone}"


# exceptions that nobody reads


def of_quiet(suite, tests):
    """The recorder neither observes nor swallows an exception, and attaches nothing."""
    for line in suite.ran(tests, "quiet").splitlines():
        what, answer = line.split("\t")
        if answer.isdigit():
            fits = LEAST_RAISED <= int(answer) if what.startswith("not read") else int(answer) == 0
            yield f"UnobservedTaskException, {what}", None if fits else f"raised {answer} times in {RUNS_RAISED} runs"
        else:
            yield what, None if answer == "does not wait" else answer


# methods that are written with await


def of_methods(suite, tests, *words):
    """Each method that is written with await and its declaration call the same jobs and end in the same way, whatever fails;
    and each run of a declaration is accepted."""
    written = suite.ran(tests, *words).splitlines()
    for line in written[::2]:
        which, method, declared = line.split("\t")
        # what is awaited together begins in any order
        declared = declared.replace("Prices Users", "Users Prices")
        yield f"the method {which}", None if method == declared else f"the method: {method}, the declaration: {declared}"
    runs = [json.loads(line) for line in written[1::2]]
    for run, answer in zip(runs, suite.audited(runs)):
        yield f"the run of the method {run['name']}", of_run(run, answer)


def of_watched(suite, tests):
    """Each method that is written with await, as it stands and with its calls watched, is a run of its declaration, whatever
    fails: a call that isn't reached isn't missed. So is each one that is drawn by chance, unless it leaves a call out."""
    runs = lines(suite.ran(tests, "watched-methods")) + lines(suite.ran(tests, "watched-drawn", DRAWN_METHODS * suite.times, 1))
    for run, answer in zip(runs, suite.audited(runs)):
        # a method that leaves out a call that it comes to isn't its declaration
        wrong = "it is accepted" if is_accepted(answer) else None
        yield f"the watched method {run['name']}", wrong if run["name"].startswith("lacking") else of_run(run, answer)


def of_shaken(suite, tests):
    """Of the claims that are refuted, most fail first in some of 60 real runs."""
    told = [line.split("\t") for line in suite.ran(tests, "shaken").splitlines()]
    found = [line for line in told if line[2] != "none"]
    print(f"of {len(told)} claims that are refuted {len(found)} fail first in 60 real runs")
    yield "claims that are refuted", None if len(told) == REFUTED else f"{len(told)}, not {REFUTED}"
    yield "claims that fail in real runs", None if len(found) >= LEAST_SHAKEN else f"only {len(found)}: {told}"


def of_led(suite, tests):
    """A real run that is led the way of a verdict's run fails the claim of the verdict."""
    led = [
        (name, int(claim), json.loads(text))
        for name, claim, text in (it.split("\t") for it in suite.ran(tests, "led").splitlines())
    ]
    answers = [suite.asked(["audit"], {**run, "claims": [run["claims"][claim - 1]]})[0] for _, claim, run in led]
    failed = [f"{name} {claim}" for (name, claim, _), answer in zip(led, answers) if "claim 1 fails" in answer]
    print(f"of {len(led)} claims that are refuted {len(failed)} fail in a real run that is led the way of the verdict")
    told = f"only {failed}"
    yield "claims that fail in led runs", None if len(led) == REFUTED and len(failed) >= LEAST_LED else told


def of_facts(suite, tests):
    """The tests that are written as a team writes them: those of the sample, and those of the verdicts."""
    for line in suite.ran(tests, "facts").splitlines():
        which, answer = line.split("\t")
        yield f"the test {which}", None if answer == "passed" else answer


# wrong declarations


def of_refusals(suite, tests):
    """What is declared wrongly is refused by words that name the call to make instead."""
    for line in suite.ran(tests, "refusals").splitlines():
        which, expected, answer = line.split("\t")
        yield f"the refusal of {which}", None if expected in answer else f"{answer!r} hasn't {expected!r}"


def of_path(suite, tests):
    """The program may lie at a path with spaces."""
    folder = suite.folder / "a folder with spaces"
    folder.mkdir()
    (folder / "taskgraph").symlink_to(suite.program)
    expected = suite.ran(tests, "first-answer")
    words = suite.environment["TASKGRAPH"]
    suite.environment["TASKGRAPH"] = str(folder / "taskgraph")
    found = suite.ran(tests, "first-answer")
    suite.environment["TASKGRAPH"] = words
    yield "a program at a path with spaces", None if expected and found == expected else f"{found!r}, not {expected!r}"


# how long a call may take, and after how long its token is requested, in milliseconds; -1 stands for neither
NEVER, SOON = -1, 500
# a limit that is longer than the system can wait
AGES = 10**12
# a call that is stopped has to come back long before what it called ends, in seconds
SLEEPS, STOPPED = 60, 20


def of_call(suite, tests, words="check", limit=NEVER, requested=NEVER, **environment):
    """What becomes of a call by the library, where the environment has these variables more or, if None, less."""
    before = suite.environment
    suite.environment = {name: it for name, it in {**before, **environment}.items() if it is not None}
    started = time.time()
    try:
        answer, _, _ = suite.ran(tests, "call", words, limit, requested).rpartition("\t")
    finally:
        suite.environment = before
    return answer, time.time() - started


def of_places(suite, tests):
    """The program is the one that TASKGRAPH names, else the one on the path, else the one that the package brings."""
    other, empty = suite.folder / "other", suite.folder / "empty"
    brought = suite.folder / "runtimes" / "linux-x64" / "native"
    for folder in (other, empty, brought):
        folder.mkdir(parents=True)
    mono = pathlib.Path(shutil.which("mono")).resolve().parent
    on_path = f"{other}{os.pathsep}{mono}{os.pathsep}/usr/bin{os.pathsep}/bin"
    bare = {"TASKGRAPH": None, "PATH": on_path}
    yield "no program", said_of(
        of_call(suite, tests, **bare),
        "InvalidOperationException: the environment variable TASKGRAPH isn't "
        "set, no program taskgraph is on the path, and the package has none for linux-x64",
    )
    (brought / "taskgraph").symlink_to(suite.program)
    yield "the program of the package", said_of(of_call(suite, tests, **bare), "0 accepted")
    (other / "taskgraph").write_text("#!/bin/sh\necho on the path\nexit 9\n")
    (other / "taskgraph").chmod(0o755)
    yield "the program on the path", said_of(of_call(suite, tests, **bare), "9 on the path")
    named = {**bare, "TASKGRAPH": str(suite.program)}
    yield "the program that is named", said_of(of_call(suite, tests, **named), "0 accepted")
    plain = other / "plain"
    plain.write_text("")
    found = of_call(suite, tests, **{**bare, "TASKGRAPH": str(plain)})
    yield "a file that is no program", said_of(
        found,
        f"InvalidOperationException: the program {plain}, which the environment variable " "TASKGRAPH names, can't be started: ",
    )
    shutil.rmtree(suite.folder / "runtimes")


def said_of(found, expected):
    """Why what became of a call doesn't begin so, or None."""
    return None if found[0].startswith(expected) else f"{found[0]!r}, not {expected!r}"


def of_limits(suite, tests):
    """A call ends where its time is up, or its token is requested, and the program with it; else neither changes anything."""
    sleeper, pids = suite.folder / "sleeper", suite.folder / "pids"
    sleeper.write_text(f"#!/bin/sh\necho $$ >> {pids}\nexec sleep {SLEEPS}\n")
    sleeper.chmod(0o755)
    slow = {"TASKGRAPH": str(sleeper)}
    ended = [
        (
            "a time that is up",
            of_call(suite, tests, "check", SOON, NEVER, **slow),
            "TimeoutException: taskgraph check hadn't answered",
        ),
        ("a token that is requested", of_call(suite, tests, "check", NEVER, SOON, **slow), "OperationCanceledException: "),
        (
            "a token that is requested first",
            of_call(suite, tests, "check", SLEEPS * 1000, SOON, **slow),
            "OperationCanceledException: ",
        ),
    ]
    for name, found, expected in ended:
        yield name, said_of(found, expected) or (None if found[1] < STOPPED else f"it came back after {found[1]:.0f} s")
    left = [pid for pid in pids.read_text().split() if pathlib.Path(f"/proc/{pid}/cmdline").exists() and is_running(pid)]
    are_all = len(pids.read_text().split()) == len(ended)
    yield "programs that were stopped", None if are_all and not left else f"{left} still run"
    for limit in (SLEEPS * 1000, AGES):
        found = of_call(suite, tests, "check", limit, SLEEPS * 1000)
        yield f"a limit of {limit} ms, which isn't reached", said_of(found, "0 accepted")


def is_running(pid):
    """Whether a process runs, and isn't only waited for."""
    state = pathlib.Path(f"/proc/{pid}/stat").read_text().rpartition(")")[2].split()[0]
    return state not in "ZX"


# what is tested: each gives names of what it looked at, and what is wrong with it or None
OF_SUITE = (of_planted,)
OF_TESTS = (
    of_documents,
    of_examples,
    of_lengths,
    of_drawn,
    of_deviations,
    of_quiet,
    of_watched,
    of_shaken,
    of_led,
    of_facts,
    of_refusals,
    of_path,
    of_places,
    of_limits,
)


@pytest.mark.parametrize("looks", OF_SUITE, ids=lambda looks: looks.__name__)
def test_library(suite, looks):
    hold(looks(suite))


@pytest.mark.parametrize("looks", OF_TESTS, ids=lambda looks: looks.__name__)
def test_compiled(suite, tests, looks):
    hold(looks(suite, tests))


def test_methods(suite, tests):
    hold(of_methods(suite, tests, "methods"))


def test_drawn_methods(suite, tests):
    hold(of_methods(suite, tests, "drawn-methods", DRAWN_METHODS * suite.times, 1))
