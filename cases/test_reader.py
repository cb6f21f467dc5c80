"""The reader of dotnet/reader, under Mono: what it makes of compiled C#.

Its classes have tests of their own, in C#. The C# of docs/FROM-CSHARP.md gives that page's documents, up to names. Of
methods as teams write them, and of methods that are drawn by chance, real runs are made in which jobs end well, fail or
stop in some order: each outcome that was seen is one of the document's. Methods that tempt to a wrong document give what
stands here, or are refused. Mistakes that are planted in the reader are found by these same tests.
"""
import collections
import concurrent.futures
import functools
import itertools
import json
import os
import pathlib
import re
import shutil
import subprocess
import tomllib
from collections.abc import Sequence

import pytest

import debian
from csharp import AsyncMethod, Method, Wiring, drawn_class
from harness import TOP, Program

HOME = TOP / "dotnet/reader"
CORPUS, PLANTED = HOME / "tests/corpus", HOME / "tests/planted"
CECIL = pathlib.Path("/usr/lib/mono-cecil")
# a later Mono.Cecil, which Debian has for Mono's own programs
LATER = pathlib.Path("/usr/lib/mono/gac/Mono.Cecil/0.11.0.0__0738eb9f132ed756")
PACKAGES = ("mono-mcs", "mono-runtime", "libmono-cecil-cil", "libmono-cecil-private-cil")
# what is drawn, by these seeds, and how many runs are made of each
METHODS, WIRINGS, METHOD_SEED, WIRING_SEED = 300, 200, 7, 3
RUNS_DRAWN, RUNS_TEAM, RUN_SEED = 12, 24, 1
# by how many of them a planted mistake has to be found
FEW = 60
# jobs of the library, of which no player says how they end
LIBRARY = {"WaitAsync", "Release", "Delay", "Timeout"}
LIMIT = 900
# the types that stand in files of their own
ELSEWHERE = {"Roslyn": "Roslyn.dll", **dict.fromkeys(("Orders", "Release", "Gallery"), "Declared.exe")}
FINALS = ("RanToCompletion", "Faulted", "Canceled")
NEVER = [
    {"name": "Nothing_", "kind": "root", "body": []},
    {"name": "Never_", "kind": "then", "after": "Nothing_", "body": [], "options": ["OnlyOnFaulted"]},
]
# the methods of Team that can be played: the others take lists or sources, or play nothing
PLAYED = """StartEarly WithTimeout Linked EarlyReturn Choose Using FixedList WhenAllList Nested Retry Lambda Beside ByType Saga
AwaitFinally FirstWins Status Gate Forget Switch Ternary Blocking""".split()
# those of them that wait with a time or a token, or for the first of two, with what goes both ways
WAITS = {
    "InTime": ["in_time"],
    "UntilStopped": ["before_stop"],
    "AnyOf": ["winner_ne_0"],
    "AnyInTime": ["in_time", "before_stop"],
    "AllInTime": ["in_time"],
    "AllUntilStopped": ["before_stop"],
}


def called(*words, given: str = "", environment: dict | None = None) -> str:
    """What a program writes that ends well."""
    ended = subprocess.run(
        [str(word) for word in words],
        input=given,
        capture_output=True,
        text=True,
        timeout=LIMIT,
        env={**os.environ, **(environment or {})},
        check=False,
    )
    assert ended.returncode == 0, f"{words[:3]} ended with {ended.returncode}: {ended.stdout[-1000:]}{ended.stderr[-2000:]}"
    return ended.stdout


def compile_csharp(target: pathlib.Path, *words) -> pathlib.Path:
    called("mcs", "-langversion:7", "-debug", "-warn:0", f"-out:{target}", *words)
    return target


class Reader:
    """The reader with its tests, compiled into a folder, and the corpus beside it."""

    def __init__(self, folder: pathlib.Path, sources: pathlib.Path = HOME, corpus: pathlib.Path | None = None):
        self.folder = folder
        self.corpus = corpus or folder
        for file in CECIL.glob("Mono.Cecil*.dll"):
            shutil.copyfile(file, folder / file.name)
        words = sorted((sources / "command").glob("*.cs"))
        files = [
            *sorted((sources / "src").rglob("*.cs")),
            *(file for file in words if file.name != "Program.cs"),
            *sorted((HOME / "tests").glob("*.cs")),
            CORPUS / "Small.cs",
        ]
        cecil = ["-d:CECIL_0_9", f"-r:{folder}/Mono.Cecil.dll", f"-r:{folder}/Mono.Cecil.Mdb.dll"]
        self.tests = compile_csharp(folder / "tests.exe", *cecil, *files)

    def read(self, name: str, *words: str) -> dict[str, dict]:
        """What is read of each method of a type of the corpus."""
        text = called("mono", self.tests, "read", self.corpus / ELSEWHERE.get(name, "Corpus.dll"), name, *words)
        return {line["method"]: line for line in map(json.loads, text.splitlines())}


def as_roslyn(file: pathlib.Path) -> None:
    """Gives the names of a compiled file their angle brackets: Q and Z stand for them in the source, as C# has no such names."""
    text = file.read_bytes()
    for name in set(re.findall(rb"(?<=\0)Q[A-Za-z]*Z[A-Za-z0-9_]+(?=\0)", text)):
        begin, _, end = name[1:].partition(b"Z")
        text = text.replace(b"\0" + name + b"\0", b"\0<" + begin + b">" + end + b"\0")
    file.write_bytes(text)


@pytest.fixture(scope="session")
def mono() -> None:
    """Mono with Mono.Cecil, or the tests are skipped."""
    if not (shutil.which("mcs") and shutil.which("mono") and CECIL.is_dir()):
        debian.install(*PACKAGES)
    if not (shutil.which("mcs") and shutil.which("mono") and CECIL.is_dir()):
        pytest.skip("Mono with Mono.Cecil isn't there and can't be installed: Debian has it as " + ", ".join(PACKAGES[:3]))


@pytest.fixture(scope="session")
def reader(mono, tmp_path_factory) -> Reader:
    """The reader, and the corpus as compiled assemblies."""
    folder = tmp_path_factory.mktemp("reader")
    played = compile_csharp(folder / "Played.dll", "-target:library", CORPUS / "Played.cs", CORPUS / "Player.cs")
    methods = [AsyncMethod(number, METHOD_SEED * 1000 + number) for number in range(METHODS)]
    wirings = [Wiring(number, WIRING_SEED * 1000 + number) for number in range(WIRINGS)]
    files = [CORPUS / f"{name}.cs" for name in ("Team", "Hostile", "Snippets", "Wiring", "Pieces")]
    classes: tuple[tuple[str, Sequence[Method]], ...] = (("Drawn", methods), ("Wired", wirings))
    for name, drawn in classes:
        files.append(folder / f"{name}.cs")
        files[-1].write_text(drawn_class(name, drawn), encoding="utf-8")
    compile_csharp(folder / "Corpus.dll", "-target:library", f"-r:{played}", *files)
    called("mcs", "-target:library", "-optimize+", "-warn:0", f"-out:{folder}/Roslyn.dll", CORPUS / "Roslyn.cs")
    as_roslyn(folder / "Roslyn.dll")
    compile_csharp(folder / "Explore.exe", f"-r:{played}", CORPUS / "Explore.cs")
    library = sorted((TOP / "dotnet/src").glob("*.cs"))
    samples = [TOP / f"dotnet/samples/{name}.cs" for name in ("Orders", "Release", "Gallery")]
    compile_csharp(folder / "Declared.exe", *library, *samples, CORPUS / "Declared.cs")
    return Reader(folder)


def played_runs(reader: Reader, name: str, methods: list[str], runs: int) -> dict[str, list[dict]]:
    """The outcomes of real runs of each method that came to an end."""
    text = called("mono", reader.folder / "Explore.exe", reader.folder / "Corpus.dll", name, runs, RUN_SEED, *methods)
    seen = collections.defaultdict(list)
    for line in map(json.loads, text.splitlines()):
        if line["final"] != "Running":
            seen[line["method"]].append(line)
    return dict(seen)


def drawn_names(count: int) -> list[str]:
    return [f"M{number}" for number in range(count)]


@pytest.fixture(scope="session")
def team_runs(reader):
    return played_runs(reader, "Team", [*PLAYED, *WAITS], RUNS_TEAM)


@pytest.fixture(scope="session")
def drawn_runs(reader):
    return played_runs(reader, "Drawn", drawn_names(METHODS), RUNS_DRAWN)


@pytest.fixture(scope="session")
def wired_runs(reader):
    return played_runs(reader, "Wired", drawn_names(WIRINGS), RUNS_DRAWN)


def answering_jobs(reader: Reader, name: str) -> str:
    """The word that says that jobs which answer are jobs, though their bodies touch tasks."""
    drawn = reader.folder / f"{name}.cs"
    names = re.findall(r"Task<bool> (Q\d+_\d+)", drawn.read_text(encoding="utf-8")) if drawn.exists() else ["Ready", "Open"]
    return f"--job={','.join(names)}"


def read_drawn(reader: Reader, count: int = METHODS) -> dict[str, dict]:
    return reader.read("Drawn", answering_jobs(reader, "Drawn"), *drawn_names(count))


def read_wired(reader: Reader, count: int = WIRINGS) -> dict[str, dict]:
    return reader.read("Wired", *drawn_names(count))


def sites(document: dict) -> dict[str, str]:
    """The task of each job, by the name that the player knows."""
    found = {}
    for task in document["tasks"]:
        for statement in task.get("body", []):
            if isinstance(statement, dict) and "work" in statement:
                plain = re.sub(r"^(inner|second|sub\d+_\d+)_", "", statement["work"])
                found[plain[0].upper() + plain[1:]] = task["name"]
    return {job: task for job, task in found.items() if re.sub(r"_\d+$", "", job) not in LIBRARY}


def asked(found: dict, runs: list[dict]) -> dict:
    """A document with a claim for each outcome that was seen, which fails where there is such a run."""
    jobs = sites(found["document"])
    claims = []
    for run in runs:
        ends = {task: run["ended"].get(job, "Canceled") for job, task in jobs.items()}
        if found["ends"]:
            ends.setdefault(found["ends"], run["final"])
        given = [{"ended": task, "in": [end]} for task, end in ends.items()]
        claims.append({"given": given, "runs": "Never_"})
    return {**found["document"], "tasks": found["document"]["tasks"] + NEVER, "claims": claims}


def verdicts(program: Program, documents: list[dict], *words: str) -> list[list[str]]:
    """The verdicts on the claims of each document."""

    def ask(part: list[dict]) -> list[list[str]]:
        lines = "".join(json.dumps(document) + "\n" for document in part)
        answer = program("verify", "--each", "--as", "json", "--jobs", "1", *words, given=lines, limit=LIMIT)
        answers = [json.loads(line.split(" ", 2)[2]) for line in answer.stdout.splitlines()]
        return [[claim["verdict"] for claim in each_answer["claims"]] for each_answer in answers]

    size = max(1, len(documents) // (4 * len(os.sched_getaffinity(0))) + 1)
    parts = [documents[at : at + size] for at in range(0, len(documents), size)]
    with concurrent.futures.ThreadPoolExecutor(len(os.sched_getaffinity(0))) as pool:
        return [verdict for part in pool.map(ask, parts) for verdict in part]


def lost(program: Program, read: dict[str, dict], runs: dict[str, list[dict]]) -> list[str]:
    """The outcomes that were seen and aren't the document's, and the jobs that it lacks."""
    told, names, documents = [], [], []
    for method, seen in runs.items():
        found = read[method]
        if "refused" in found:
            told.append(f"{method} is refused: {found['message']}")
            continue
        lacking = {job for run in seen for job in run["begun"]} - set(sites(found["document"]))
        if lacking:
            told.append(f"{method} lacks {sorted(lacking)}")
            continue
        names.append(method)
        documents.append(asked(found, seen))
    for method, answers in zip(names, verdicts(program, documents, "--runs", "2000", "--depth", "3")):
        for run, verdict in zip(runs[method], answers, strict=True):
            if verdict != "fails":
                told.append(f"{method} {verdict}: {run['ended']}, ends {run['final']}")
    return told


def count(runs: dict[str, list[dict]]) -> int:
    return sum(map(len, runs.values()))


def test_classes(reader, program):
    lines = called("mono", reader.tests, "facts", environment={"TASKGRAPH": str(program.path)}).splitlines()
    assert len(lines) >= 30
    assert [line for line in lines if not line.endswith("\tpassed")] == []


def test_team_methods(reader, program, team_runs):
    read = reader.read("Team", answering_jobs(reader, "Team"))
    public = re.findall(
        r"^    public (?:async )?(?:Task|Task<int>|void) ([A-Z]\w*)\(", (CORPUS / "Team.cs").read_text(), re.MULTILINE
    )
    refused = {name: read[name]["refused"] for name in public if "refused" in read[name]}
    assert refused == {"Forgot": "outer", "Throttled": "winner"}
    assert len(public) == 38
    assert set(team_runs) == {*PLAYED, *WAITS} and count(team_runs) > 100
    assert lost(program, read, team_runs) == []


def test_drawn_methods(reader, program, drawn_runs):
    assert len(drawn_runs) == METHODS and count(drawn_runs) > 3 * METHODS
    assert lost(program, read_drawn(reader), drawn_runs) == []


def test_drawn_wirings(reader, program, wired_runs):
    assert len(wired_runs) == WIRINGS and count(wired_runs) > 3 * WIRINGS
    assert lost(program, read_wired(reader), wired_runs) == []


# what the page calls its tasks, where the code has another name
NAMES: dict[int, dict[str, str]] = {
    5: {"ImportUsers": "Users"},
    17: {"LoadAsync": "Load", "SaveAsync": "Save", "Log": "Catch", "Joined": "Caught"},
    18: {"Sw": "Switch"},
    19: {"IsFilled": "cached"},
}
SHOWN = (0, 1, 3, 4, 5, 6, 7, 9, 10, 12, 13, 14, 15, 16, 17, 18, 19)
# jobs that the page calls otherwise than the code
JOBS = {"index": "BuildIndex", "users": "ImportUsers"}


@functools.cache
def page_documents() -> list[dict]:
    text = (TOP / "docs/FROM-CSHARP.md").read_text(encoding="utf-8")
    return [
        json.loads('{"version": 3,' + block + "}")
        for block in re.findall(r"^```json\n(.*?)^```$", text, re.MULTILINE | re.DOTALL)
    ]


def statements(body: list) -> list[dict]:
    """All statements of a body that are objects, those of branches too."""
    own = [statement for statement in body if isinstance(statement, dict)]
    return own + [inner for item in own for part in ("then", "else") for inner in statements(item.get(part, []))]


def safe_jobs(document: dict) -> set[str]:
    plain = {
        statement["work"]
        for task in document["tasks"]
        for statement in statements(task.get("body", []))
        if "work" in statement and not statement.get("may_fail")
    }
    return {JOBS.get(job, job[0].upper() + job[1:]) for job in plain}


def renamed(value, names: dict[str, str]):
    """A document in which tasks have other names."""
    if isinstance(value, dict):
        return {
            key: it if key in ("work", "throw", "token", "check", "cancel") else renamed(it, names) for key, it in value.items()
        }
    if isinstance(value, list):
        return [renamed(item, names) for item in value]
    return names.get(value, value) if isinstance(value, str) else value


def normal(document: dict) -> dict:
    """A document without claims, in which tasks stand by their names and jobs by numbers, without the option that matters only
    to children."""
    numbers: dict[str, int] = {}
    copy = json.loads(json.dumps(document))
    for task in sorted(copy["tasks"], key=lambda each_task: each_task["name"]):
        task["options"] = sorted(option for option in task.get("options", []) if option != "DenyChildAttach")
        for statement in statements(task.get("body", [])):
            if "work" in statement:
                statement["work"] = numbers.setdefault(statement["work"], len(numbers))
    tasks = {task["name"]: task for task in copy["tasks"]}
    return {"tasks": tasks, "tokens": copy.get("tokens", []), "inputs": copy.get("inputs", [])}


def test_snippets_of_the_page(reader, program):
    differ = []
    for number in SHOWN:
        page = page_documents()[number]
        read = reader.read("Snippets", f"S{number}", f"--safe={','.join(sorted(safe_jobs(page)))}")[f"S{number}"]
        own = renamed(read["document"], NAMES.get(number, {}))
        if normal(own) != normal(page):
            differ.append(number)
        claims = page.get("claims", [])
        assert verdicts(program, [{**own, "claims": claims}]) == verdicts(program, [{**page, "claims": claims}]), number
    # a try is left to one task more than on the page: it says the same
    assert differ == [17]


def work(task: dict) -> list[str]:
    return [statement["work"] for statement in statements(task.get("body", [])) if "work" in statement]


# the names that the reader gives to what the library's declarations call otherwise, and the words that the reader is told
CALLED_OTHERWISE: dict[str, dict[str, str]] = {
    "Orders.Deliver": {"Send1": "Send", "Send2": "Send_2", "Send3": "Send_3"},
    "Orders.Pay": {"Send1": "Send", "Send2": "Send_2"},
    "Release.Start": {"Switch": "Sw"},
}
OF_ORDERS = ("--safe=Log,Close,Dispose", "--job=Get,Log,Close")
# how many claims a document has at a time
MOST_CLAIMS = 250


def working_tasks(document: dict) -> dict[str, bool]:
    """The tasks that do a job, and whether it may fail."""
    return {
        task["name"]: statement.get("may_fail", False)
        for task in document["tasks"]
        for statement in statements(task.get("body", []))
        if "work" in statement
    }


def outcomes(program: Program, document: dict, tasks: list[str], ways: list[tuple[str, ...]]) -> set[tuple[str, ...]]:
    """The ways in which these tasks end in some run. There is one where the claim fails that a task begins which never does."""
    # (one task may be named twice: it ends in one way)
    possible = [way for way in ways if all(dict(zip(tasks, way))[task] == end for task, end in zip(tasks, way, strict=True))]
    claims = [
        {"given": [{"ended": task, "in": [end]} for task, end in dict(zip(tasks, way)).items()], "runs": "Never_"}
        for way in possible
    ]
    asked_of = {**document, "version": 3, "tasks": document["tasks"] + NEVER}
    parts = [{**asked_of, "claims": claims[at : at + MOST_CLAIMS]} for at in range(0, len(claims), MOST_CLAIMS)]
    told = [verdict for part in verdicts(program, parts, "--runs", "2000", "--depth", "3") for verdict in part]
    assert "unknown" not in told
    return {way for way, verdict in zip(possible, told, strict=True) if verdict == "fails"}


def read_declared(reader: Reader, names: list[str]) -> dict[str, dict]:
    """What is read of the methods that the library declares."""
    orders = [name.partition(".")[2] for name in names if name.startswith("Orders.")]
    found = {f"Orders.{name}": line for name, line in reader.read("Orders", *OF_ORDERS, *orders).items()}
    release = reader.read("Release", "--safe=Rollback,Notify", "Start")["Start"]
    return {**found, "Release.Start": {**release, "ends": "Release"}}


def test_declared_methods(reader, program):
    """The library's declaration of a method and what is read of it have the same outcomes."""
    declared = dict(line.split("\t") for line in called("mono", reader.folder / "Declared.exe").splitlines())
    read = read_declared(reader, list(declared))
    assert len(declared) == 10
    for name, text in declared.items():
        document, found = json.loads(text), read[name]
        own = working_tasks(document)
        names = CALLED_OTHERWISE.get(name, {})
        assert {names.get(task, task): may_fail for task, may_fail in own.items()} == working_tasks(found["document"]), name
        ends = [FINALS if may_fail else ("RanToCompletion", "Canceled") for may_fail in own.values()]
        ways = list(itertools.product(*ends, FINALS))
        whole = "Release" if name == "Release.Start" else name.partition(".")[2]
        as_declared = outcomes(program, document, [*own, whole], ways)
        as_read = outcomes(program, found["document"], [*(names.get(task, task) for task in own), found["ends"]], ways)
        counts = f"{len(document['tasks'])} tasks declared, {len(found['document']['tasks'])} read"
        print(f"{name}: {counts}; outcomes {len(as_declared)} of {len(ways)}, {len(as_read)} read")
        assert as_declared and as_declared == as_read, name


def test_compared_runs(reader, program, tmp_path):
    """A real run that the library recorded is one of the method's as it is read, and isn't with another end. The sources of both
    packages compile into one program."""
    for file in CECIL.glob("Mono.Cecil*.dll"):
        shutil.copyfile(file, tmp_path / file.name)
    cecil = ["-d:CECIL_0_9", f"-r:{tmp_path}/Mono.Cecil.dll", f"-r:{tmp_path}/Mono.Cecil.Mdb.dll"]
    library, own = sorted((TOP / "dotnet/src").glob("*.cs")), sorted((HOME / "src").rglob("*.cs"))
    files = [*library, *own, TOP / "dotnet/samples/Orders.cs", CORPUS / "Compared.cs"]
    compared = compile_csharp(tmp_path / "Compared.exe", *cecil, *files)
    told = dict(line.split("\t") for line in called("mono", compared, environment={"TASKGRAPH": str(program.path)}).splitlines())
    none = "the document has no run in which these end so: "
    assert told == {
        "none": "found",
        "Load": none + "Load Faulted, Save Canceled, Import RanToCompletion",
        "Save": none + "Load RanToCompletion, Save Faulted, Import RanToCompletion",
    }


# of each method that tempts to a wrong document: why it is refused
REFUSED = {
    "LateTask": "captured",
    "Many": "loop",
    "Attached": "attached",
    "Cold": "cold-task",
    "Custom": "await",
    "Beside": "list",
    "OnKeyStart": "callback",
}
# what is branched on, by the inputs of the document
INPUTS = {
    "LaterSet": ["on"],
    "SetElsewhere": ["ok"],
    "Maybe": ["b"],
    "Twice": ["flag", "flag_2"],
    "TwiceArg": ["f"],
    "Goto": ["b"],
    "Thrown": ["is_ArgumentException", "b", "is_ArgumentException_2"],
    "Oce": ["b"],
}
# what is taken for granted
ASSUMED = {"Field": "Field", "Handed": "HandedOver", "Again": "NotFollowed", "OnKey": "Callback"}
# the tasks that may stop by a token which a lambda has captured
CAPTURED = {"EachWithToken": ["Serve", "Serve_2"], "HandedWithToken": ["Guard"]}


def test_hostile_methods(reader):
    read = reader.read("Hostile")
    assert {name: it["refused"] for name, it in read.items() if "refused" in it} == REFUSED
    for name, inputs in INPUTS.items():
        assert read[name]["document"].get("inputs") == inputs, name
    for name, assumption in ASSUMED.items():
        assert assumption in read[name]["used"], name


def test_hostile_documents(reader):
    read = {name: it["document"] for name, it in reader.read("Hostile").items() if "document" in it}
    tasks = {name: {task["name"]: task for task in document["tasks"]} for name, document in read.items()}
    # a task that a job before it may prevent
    assert tasks["JobFirst"]["Undo"]["options"] == ["OnlyOnRanToCompletion", "DenyChildAttach"]
    # three tasks of a loop with a bound
    assert [task["name"] for task in read["Three"]["tasks"]][:3] == ["Check", "Check_2", "Check_3"]
    # the result of a task that may have failed is read: that throws
    assert {"throw": "Result"} in statements(tasks["Result"]["Undo"]["body"])
    # the exception of a job is thrown again behind the request
    assert tasks["CancelInCatch"]["Cancel_cts"]["after"] == "Load"


def with_token(found: dict) -> list[str]:
    return [task["name"] for task in found["document"]["tasks"] if "token" in task]


def test_captured_tokens(reader):
    read = reader.read("Hostile", *CAPTURED)
    assert {name: with_token(found) for name, found in read.items()} == CAPTURED


def test_layout_of_roslyn(reader):
    read = {name: found["document"] for name, found in reader.read("Roslyn", "Import", "Handle", "Update", "Lambdas").items()}
    jobs = {name: [job for task in document["tasks"] for job in work(task)] for name, document in read.items()}
    assert jobs == {
        "Import": ["load", "save"],
        "Handle": ["load", "save", "log", "close"],
        "Update": ["load", "save", "undo", "audit"],
        "Lambdas": ["check", "tell"],
    }
    lambdas = {task["name"]: task for task in read["Lambdas"]["tasks"]}
    assert lambdas["Check"]["body"] == [{"check": "stop"}, {"work": "check", "may_fail": True}]
    assert lambdas["Check"]["token"] == "stop"
    assert lambdas["Tell"]["after"] == "Check" and lambdas["Tell"]["options"] == ["OnlyOnFaulted"]


def test_older_wirings(reader):
    read = reader.read("Wiring")
    assert [name for name, found in read.items() if "refused" in found] == []
    chain = {task["name"]: task for task in read["Chain"]["document"]["tasks"]}
    assert {"when": "Faulted", "then": ["observe", {"throw": "Thrown"}]} in statements(chain["B"]["body"])


# jobs of the pieces of which their claims take it for granted that they throw nothing
SAFE_IN_PIECES = "--safe=LogError,CompleteAdding,IsApproved,Cached,Set,DryRun"


def test_pieces(reader, program):
    """Of seven methods as teams write them, the verdicts on what is believed of each. Each claim stands with whether it is true
    of the code, which was said before it was asked; docs/READER.md has the table, and explains where verdict and code differ."""
    pieces = json.loads((HOME / "tests/pieces.json").read_text(encoding="utf-8"))
    read = reader.read("Pieces", SAFE_IN_PIECES)
    assert sorted(read) == sorted([*pieces, "PostWithRetry"])
    documents = [{**read[name]["document"], "claims": [claim for _, _, claim, _ in claims]} for name, claims in pieces.items()]
    found = dict(zip(pieces, verdicts(program, documents, "--runs", "20000", "--depth", "3"), strict=True))
    assert found == {name: [verdict for _, _, _, verdict in claims] for name, claims in pieces.items()}
    page = (TOP / "docs/READER.md").read_text(encoding="utf-8")
    for name, claims in pieces.items():
        agree = sum(is_true == (verdict in ("holds", "empty")) and verdict != "unknown" for _, is_true, _, verdict in claims)
        row = rf"^\| `{name}` \| [^|]+ \| \d+ \| {len(read[name]['document']['tasks'])} \| {len(claims)} \| \d+ \| {agree} \|$"
        assert re.search(row, page, re.MULTILINE), row
    # what is false of the code never holds
    assert [
        name for name, claims in pieces.items() for _, is_true, _, verdict in claims if (is_true, verdict) == (False, "holds")
    ] == []


# jobs of the gallery of which its documents take it that they throw nothing
SAFE_IN_GALLERY = "--safe=Prepare,Log,Close,Confirm,Dispose"


def test_gallery(reader, program):
    """Each bug of docs/GALLERY.md is found in its compiled code, and isn't in the repaired one: of claims about both it was said
    before whether they hold of what is read."""
    bugs = tomllib.loads((TOP / "cases/verdicts/gallery.toml").read_text(encoding="utf-8"))["bug"]
    read = reader.read("Gallery", SAFE_IN_GALLERY)
    for bug, which in itertools.product(bugs, ("wrong", "repaired")):
        found = read[bug[which]]
        if which == "wrong" and "refused" in bug:
            assert found["refused"] == bug["refused"]
            continue
        claims = [said["claim"] for said in bug["read"]]
        (told,) = verdicts(program, [{**found["document"], "claims": claims}], "--runs", "20000", "--depth", "3")
        assert told == [said[which] for said in bug["read"]], bug[which]


def planted(file: pathlib.Path) -> dict:
    """A planted mistake: what it is, the tests that find it, the file, and the lines that it replaces and puts in."""
    told: dict = {"old": [], "new": []}
    for line in file.read_text(encoding="utf-8").splitlines():
        word, _, rest = line.partition(":")
        if word in ("old", "new"):
            told[word].append(rest)
        else:
            told[word] = rest.strip()
    return told


def find_in_wirings(reader, program, seen):
    read = read_wired(reader, FEW)
    return lost(program, read, {name: seen["wirings"][name] for name in read})


def find_in_methods(reader, program, seen):
    read = read_drawn(reader, FEW)
    return lost(program, read, {name: seen["methods"][name] for name in read})


def find_in_hostile(reader, _program, _seen):
    read = reader.read("Hostile", *INPUTS)
    return [name for name, inputs in INPUTS.items() if read[name].get("document", {}).get("inputs") != inputs]


def find_in_captured(reader, _program, _seen):
    read = reader.read("Hostile", *CAPTURED)
    return [name for name, tasks in CAPTURED.items() if with_token(read[name]) != tasks]


def find_in_markers(reader, _program, _seen):
    read = reader.read("Team", "Saga")["Saga"]["document"]
    return [task["name"] for task in read["tasks"] if "observe" in task.get("body", []) and not work(task)]


def find_in_waits(reader, _program, _seen):
    read = reader.read("Team", *WAITS)
    return [name for name, inputs in WAITS.items() if read[name]["document"].get("inputs") != inputs]


FINDERS = {
    "wirings": find_in_wirings,
    "methods": find_in_methods,
    "hostile": find_in_hostile,
    "captured": find_in_captured,
    "markers": find_in_markers,
    "waits": find_in_waits,
}


@pytest.mark.parametrize("file", sorted(PLANTED.iterdir()), ids=lambda file: file.name)
def test_planted_mistakes(reader, program, drawn_runs, wired_runs, tmp_path, file):
    mistake = planted(file)
    shutil.copytree(HOME / "src", tmp_path / "src")
    shutil.copytree(HOME / "command", tmp_path / "command")
    source = tmp_path / "src" / mistake["file"]
    text = source.read_text(encoding="utf-8")
    old, new = ("\n".join(mistake[part]) + "\n" for part in ("old", "new"))
    assert text.count(old) == 1
    source.write_text(text.replace(old, new), encoding="utf-8")
    (tmp_path / "out").mkdir()
    wrong = Reader(tmp_path / "out", tmp_path, reader.folder)
    for name in ("Drawn.cs", "Wired.cs"):
        shutil.copyfile(reader.folder / name, wrong.folder / name)
    find = FINDERS[mistake["found by"]]
    seen = {"methods": drawn_runs, "wirings": wired_runs}
    assert find(reader, program, seen) == []
    assert find(wrong, program, seen) != []


@pytest.fixture(scope="session")
def command(mono, program, tmp_path_factory):
    """The command, as dotnet/reader/build makes it, and an assembly with README's release."""
    folder = tmp_path_factory.mktemp("command")
    called(HOME / "build", folder)
    sources = sorted((TOP / "dotnet/src").glob("*.cs"))
    compile_csharp(folder / "Release.dll", "-target:library", *sources, TOP / "dotnet/samples/Release.cs")

    def call(*words: str) -> subprocess.CompletedProcess:
        environment = {**os.environ, "TASKGRAPH": str(program.path)}
        words = (str(folder / "taskgraph-csharp"), *words)
        return subprocess.run(words, cwd=folder, env=environment, capture_output=True, text=True, timeout=LIMIT, check=False)

    return call


def test_command_gives_the_bug_of_the_first_page(command, tmp_path):
    claims = tmp_path / "claims.json"
    claims.write_text('[{"given": [{"ended": "Release", "in": ["Faulted"]}], "runs": "Rollback"}]', encoding="utf-8")
    answer = command("Release.dll", "Release.Start", "--claims", str(claims), "--verify")
    assert answer.returncode == 1
    lines = answer.stdout.splitlines()
    assert lines[0].startswith("claim 1 fails: Rollback begins in each complete run")
    assert re.search(r"w1 drop Rollback +// Release\.cs:\d+ in Release\.Start$", answer.stdout, re.MULTILINE)
    assert "note: read from Release.Start" in answer.stderr


def test_command_writes_a_document(command, program):
    answer = command("Release.dll", "Release.Start")
    document = json.loads(answer.stdout)
    assert answer.returncode == 0 and document["note"].startswith("read from Release.Start")
    assert all(re.match(r"Release\.cs:\d+ in Release\.Start", task["note"]) for task in document["tasks"])
    assert program("draw", given=answer.stdout).exit == 0
    plain = json.loads(command("Release.dll", "Release.Start", "--no-notes").stdout)
    assert "note" not in plain and not any("note" in task for task in plain["tasks"])


def test_lines_of_the_first_page(command):
    """Each line of README.md that calls the command writes a document."""
    lines = re.findall(r"`taskgraph-csharp ([^`]+)`", (TOP / "README.md").read_text(encoding="utf-8"))
    assert lines
    for line in lines:
        words, _, file = line.partition(" > ")
        assert file.endswith(".json") and json.loads(command(*words.split()).stdout)["tasks"], line


def test_command_says_what_is_wrong(command):
    assert command("--help").returncode == 0
    assert command().returncode == 2
    assert command("Release.dll", "Release.Start", "--what").returncode == 2
    assert command("Nothing.dll", "Release.Start").returncode == 3
    assert command("Release.dll", "Release.Nothing").returncode == 3
    assert "Sample.Release.Start" in command("Release.dll", "--list").stdout.split()


def test_package_compiles_alone(tmp_path):
    if not (shutil.which("mcs") and LATER.is_dir()):
        pytest.skip("there is no Mono.Cecil 0.11: Debian has it in libmono-cecil-private-cil")
    called(TOP / "dotnet/pack", tmp_path)
    (file,) = tmp_path.glob("TaskGraph.Reader.*.nupkg")
    shutil.unpack_archive(file, tmp_path / "unpacked", "zip")
    sources = sorted((tmp_path / "unpacked/contentFiles").rglob("*.cs"))
    assert len(sources) == len(list((HOME / "src").rglob("*.cs")))
    compile_csharp(tmp_path / "alone.dll", "-target:library", f"-r:{LATER}/Mono.Cecil.dll", *sources)


def test_code_of_the_pages_compiles(reader, tmp_path):
    """The C# of the reader's pages, under the usings that they name."""
    pages = [TOP / "docs/READER.md", HOME / "README.md"]
    blocks = [
        it for page in pages for it in re.findall(r"^```csharp\n(.*?)^```$", page.read_text("utf-8"), re.MULTILINE | re.DOTALL)
    ]
    usings = [block for block in blocks if block.startswith("using")]
    calls = [block for block in blocks if block not in usings]
    assert (len(usings), len(calls)) == (1, 2)
    methods = "".join(f"public void M{at}() {{ {call} }}\n" for at, call in enumerate(calls))
    code = usings[0] + "public class Release { public void Start() { } }\npublic class Tests {\n" + methods + "}\n"
    (tmp_path / "Pages.cs").write_text(code, encoding="utf-8")
    compile_csharp(tmp_path / "Pages.dll", "-target:library", f"-r:{reader.tests}", tmp_path / "Pages.cs")


def test_page(reader):
    page = (TOP / "docs/READER.md").read_text(encoding="utf-8")
    words = [line.split("\t") for line in called("mono", reader.tests, "words").splitlines()]
    refusals = [line for line in words if line[0] == "refusal"]
    assert len(refusals) > 20
    for _, word, advice in refusals:
        assert re.search(rf"^\| `{word}` \| [^|]+ \| {re.escape(advice)} \|$", page, re.MULTILINE), word
    for _, sentence in (line for line in words if line[0] == "assumption"):
        assert f"\n- {sentence}\n" in page, sentence
