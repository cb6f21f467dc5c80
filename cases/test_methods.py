"""Async methods in C#, under Mono, beside documents of version 4 that say the same.

Each method is run in every order in which its calls may end, it may be resumed, and its token may be requested
(methods/Explore.cs). What was seen of it is what can be seen of the runs of its document by the model of waiting.py; where a
method awaits any of several tasks, the document has more, since there any task that has ended may win. Of methods that are drawn
by chance the compiler refuses those whose documents are refused since they wait for what may not have been started.
"""
import functools
import json
import pathlib
import re
import shutil
import subprocess
from collections import defaultdict

import pytest

import debian
import run_mistakes
from drawn_methods import Method, class_of
from harness import HERE
from refusals import fault
from waiting import Outcome, Stuck, outcomes, told

HOME = HERE / "methods"
DOCUMENTS = {path.stem: json.loads(path.read_text(encoding="utf-8")) for path in sorted(HOME.glob("*.json"))}
PACKAGES = ("mono-mcs", "mono-runtime")
LIMIT = 900
# how many methods are drawn
DRAWN = 100
# before the first method of a class that is drawn
HEAD_LINES = 5
# the compiler comes to no end with some methods, and names them: so many may be left out of each hundred
LEFT_OUT = 5
# mistakes in the machine that methods drawn by chance show, since C# does what the machine doesn't
SHOWN = """WaitOfCanceledCancels WaitOfLetOutCancels WaitReadsNothing AwaitOfCanceledThrows AwaitCancelsIfAllAre
CanceledBeforeFaulted LetOutIsException FaultedIsCancellation LetOutLostAmongSeveral LetOutByTheLast
AwaitReadsNothing AwaitReadsTheFirst AnyWaitsForAll AnyThrowsOn OthersTakeThen ThenIsAlwaysTaken
OtherTokenFaults OtherTokenCancels OtherTokenIsException ReturnPastAFinally ExceptionPastAFinally
CancellationPastAFinally EndPastAFinally HandlerPastAFinally FinallySwallows ThrownInFinallyIsLost
ThrownInFinallyStops CatchTakesNoCancellation CatchBeforeCatchCanceled CatchCanceledTakesExceptions
ReturnIsCaught NothingIsCaught ThrownInHandlerIsLost FinallyBeforeHandler CanceledJobGoesOn
CanceledJobIsAcknowledged CanceledJobIsException CanceledJobReturns CanceledOnlyWhereItMayFail
CanceledOnlyWhereRequested""".split()


class Seen:
    """What was seen of methods, and of which of them not all runs were made."""

    def __init__(self, program: pathlib.Path, names: list[str]):
        self.outcomes: dict[str, set[Outcome]] = defaultdict(set)
        self.cut: set[str] = set()
        ran = subprocess.run(["mono", program, *names], capture_output=True, text=True, timeout=LIMIT, check=False)
        assert ran.returncode == 0, ran.stderr[-2000:]
        for line in map(json.loads, ran.stdout.splitlines()):
            self.outcomes[line["method"]].add((tuple(line["seen"]), tuple(line["unread"])))
            self.cut |= set() if line["whole"] else {line["method"]}


def compiled(target: pathlib.Path, methods: pathlib.Path) -> str:
    """What the compiler says where it doesn't compile the methods, or nothing."""
    words = ["mcs", "-langversion:7", "-warn:0", f"-out:{target}", str(HOME / "Explore.cs"), str(methods)]
    ran = subprocess.run(words, capture_output=True, text=True, timeout=LIMIT, check=False)
    return ran.stdout + ran.stderr if ran.returncode else ""


@pytest.fixture(scope="module")
def folder(tmp_path_factory) -> pathlib.Path:
    """A folder, if there is Mono."""
    if not (shutil.which("mcs") and shutil.which("mono")):
        debian.install(*PACKAGES)
    if not (shutil.which("mcs") and shutil.which("mono")):
        pytest.skip("Mono isn't there and can't be installed: Debian has it as " + ", ".join(PACKAGES))
    return tmp_path_factory.mktemp("methods")


@pytest.fixture(scope="module")
def by_hand(folder) -> Seen:
    assert compiled(folder / "ByHand.exe", HOME / "Methods.cs") == ""
    return Seen(folder / "ByHand.exe", [name + ":" * ("tokens" in document) for name, document in DOCUMENTS.items()])


@pytest.mark.parametrize("name", sorted(set(DOCUMENTS) - {"Timeout"}))
def test_a_method_is_its_document(by_hand, name: str):
    lines = (HOME / f"{name}.txt").read_text(encoding="utf-8").splitlines()
    assert name not in by_hand.cut
    assert sorted(map(told, by_hand.outcomes[name])) == sorted(lines)
    assert by_hand.outcomes[name] == outcomes(DOCUMENTS[name])


def test_any_task_that_has_ended_may_win(by_hand):
    """Of a method that awaits any of two calls the document has four outcomes more: the call that ended first doesn't win."""
    more = outcomes(DOCUMENTS["Timeout"]) - by_hand.outcomes["Timeout"]
    assert by_hand.outcomes["Timeout"] < outcomes(DOCUMENTS["Timeout"])
    last, starts = ("end Delay RanToCompletion", "end M Faulted"), (("call Delay", "end Load {}"), ("end Load {}", "call Delay"))
    assert more == {
        (("call Load", *(event.format(end) for event in start), *last), ("Load",) if end == "Faulted" else ())
        for start in starts
        for end in ("Faulted", "RanToCompletion")
    }


class Drawn:
    """Methods that are drawn by chance, and what was seen of those whose documents can be read."""

    def __init__(self, folder: pathlib.Path, numbers: range):
        self.folder = folder
        self.methods = {f"M{number}": Method(number) for number in numbers}
        self.refused = {name: fault(method.document) for name, method in self.methods.items()}
        self.read = {name: method for name, method in self.methods.items() if not self.refused[name]}
        self.program = folder / "Drawn.exe"
        self.left_out = 0

    def compile(self, methods: dict[str, Method]) -> str:
        source = self.folder / "Drawn.cs"
        source.write_text(class_of(methods), encoding="utf-8")
        return compiled(self.program, source)

    @functools.cached_property
    def unassigned(self) -> set[str]:
        """The methods of which the compiler says that they use a variable that may not be assigned."""
        names, said = list(self.methods), self.compile(self.methods)
        lines = re.findall(r"Drawn\.cs\((\d+),[^)]*\): error CS0165", said)
        return {names[int(line) - 1 - HEAD_LINES] for line in lines}

    @functools.cached_property
    def seen(self) -> Seen:
        while said := self.compile(self.read):
            found = re.search(r"InternalErrorException.*Methods\.<(M\d+)>", said)
            assert found, said[-2000:]
            del self.read[found[1]]
            self.left_out += 1
        return Seen(self.program, [name + ":" * method.has_token for name, method in self.read.items()])


@pytest.fixture(scope="module")
def drawn(folder, pytestconfig) -> Drawn:
    first, times = (pytestconfig.getoption(word) for word in ("--first", "--times"))
    return Drawn(folder, range(first, first + DRAWN * times))


def test_what_may_not_be_started_may_not_be_assigned(drawn):
    """Nothing else is refused of methods that are drawn by chance, but for those with too many lists in one another."""
    late, much = "graph NotStarted task 1", "graph TooMany task 1"
    assert {late} <= {why for why in drawn.refused.values() if why} <= {late, much}
    too_many = {name for name, why in drawn.refused.items() if why == much}
    assert drawn.unassigned - too_many == {name for name, why in drawn.refused.items() if why == late}


def test_drawn_methods_are_their_documents(drawn):
    seen = drawn.seen
    assert len(drawn.read) > len(drawn.methods) // 3 and drawn.left_out <= LEFT_OUT * len(drawn.methods) // 100
    for name, method in drawn.read.items():
        allowed, whole = outcomes(method.document), name not in seen.cut
        assert seen.outcomes[name] <= allowed, method.text(name)
        assert seen.outcomes[name] == allowed or not whole or "await_any" in str(method.document), method.text(name)


@pytest.mark.parametrize("mistake", SHOWN)
def test_a_mistake_shows_in_drawn_methods(drawn, mistake: str):
    """By the methods that are drawn if nothing else is said."""
    if "M0" not in drawn.methods:
        pytest.skip("other methods are drawn")
    kind = run_mistakes.MISTAKES[mistake]
    assert any(not_seen(drawn.seen.outcomes[name], method, kind) for name, method in drawn.read.items())


def not_seen(seen: set[Outcome], method: Method, kind: type) -> bool:
    """By a machine of this kind something can't be seen that was, or a run gets stuck, as none did."""
    try:
        return not seen <= outcomes(method.document, kind)
    except Stuck:
        return True
