"""`verify` says of each claim what is so, in each of its four formats.

verdicts/claims.toml has claims of which it was worked out by hand whether they hold. Of claims about graphs that are drawn
by chance the verdicts agree with `analyse`, `check`, `refute` and `audit`, claim by claim. `check` accepts the trees of the
claims that hold as a certificate of these claims. The same words give the same bytes for every number of jobs. The JSON is
valid by schema/verify.schema.json and the JUnit by verdicts/junit.xsd, both say what the text says, and each run that is
given is one in which the claim fails.

As text, the lines for a claim can be read before the next one has its verdict. no_threads.c is what the program loads where
it is to make no thread.

The validators are Debian's python3-jsonschema and python3-lxml, which are installed where that can be done. Without the
first nothing is tested of the schema, and that has failed; without the second that test is skipped.
"""
import importlib
import json
import pathlib
import random
import re
import subprocess
import sys
import tomllib
import xml.etree.ElementTree

import pytest

import debian
from graphs import Drawn
from harness import HERE, TOP, Answer, Program, compact, examples, slug
from hostile import cost_of
from pipelines import Pipeline
from test_schema import jsonschema

YES, NO = 0, 1
FORMATS = ("text", "json", "junit", "html")
JOBS = ("1", "2", "8")
DEPTH = "6"
# how many graphs are drawn by chance, how many claims each has, and how many runs are tried for each
DRAWN, PIPELINES, CLAIMS, RUNS = 250, 100, 4, "300"
LIMIT = 300
# how many tasks a chain has, and how often the cost of one claim about it those of all may be
CHAIN, OFTEN = 512, 40
LINE = re.compile(r'claim (\d+)(?: "(.+)")? (holds|fails|empty|unknown): (.+)')
# why a claim is empty: the word of the JSON, and the line of the text
REASONS = {
    "NeverBegins": "{task} never begins",
    "NamesAllEnds": "it names each way to end",
    "NamesGivenEnds": "it names each way to end that is given",
    "NeverThrows": "there is never an exception to observe",
    "NeverEndsSo": "{task} never ends in a way that is given",
    "NeverEnds": "{task} never ends",
    "NeverKept": "no complete run keeps what is given",
}
# how many causes the text tells at most
MOST_TOLD = 20
# A requests B's token before it ends, so B never begins; but no certificate shows it, and no run refutes it. So all runs are
# made for the last claim, which take ten seconds and more.
SLOW = json.dumps(
    {
        "version": 1,
        "tokens": ["t"],
        "tasks": [
            {"name": "A", "kind": "root", "body": [{"cancel": "t"}]},
            {"name": "B", "kind": "then", "after": "A", "token": "t", "body": []},
        ],
        "claims": [{"final": "A", "in": ["RanToCompletion"]}, {"never": "A"}, {"never": "B"}],
    }
)
MOST_RUNS = "1000000"
# what is written of the claims of that document before the last one has its verdict
SOON = [
    "claim 1 holds: A ends RanToCompletion\n",
    "claim 2 fails: A never begins\n",
    "  w1 begin A\n",
    "  claim 2 fails here\n",
]
# where a tree has its branches
BRANCHES = ("yes", "no", "ran", "canceled", "faulted")
# two steps that may fail, each with what follows its success and its failure: which step a split is on is clear from the claim
SPLIT = {
    "version": 3,
    "tasks": [
        *({"name": name, "kind": "root", "body": [{"work": name, "may_fail": True}]} for name in ("A", "B")),
        *(
            {"name": f"{name}_{end}", "kind": "then", "after": name, "body": [], "options": [f"OnlyOn{end}"]}
            for name in ("A", "B")
            for end in ("RanToCompletion", "Faulted")
        ),
    ],
}
# claims about them, and the tree of each
PROVED = [
    (
        {"excludes": [f"{name}_RanToCompletion", f"{name}_Faulted"]},
        {"split_end": name, "ran": "least", "canceled": "least", "faulted": "least"},
    )
    for name in ("A", "B")
]
# the verdicts that are a failure for a reporter of tests
FAILURES = ("fails", "empty", "unknown")


def tables() -> list[dict]:
    """The documents of verdicts/claims.toml."""
    return tomllib.loads((HERE / "verdicts/claims.toml").read_text(encoding="utf-8"))["document"]


def bare(document: dict) -> dict:
    """The document without its claims, its certificate, its start and its journal."""
    return {name: it for name, it in document.items() if name not in ("claims", "certificate", "start", "journal")}


def worked_out(member: str = "verdict"):
    """Each document with its claims, and their verdicts or another member, where one has that; in another version where a
    version is named."""
    for table in tables():
        document = bare(json.loads((TOP / table["file"]).read_text(encoding="utf-8")))
        document["version"] = table.get("version", document["version"])
        text = json.dumps({**document, "claims": [claim["claim"] for claim in table["claims"]]})
        name = f"{table['file'].partition('.')[0]} {document['version']}"
        wanted = [claim.get(member) for claim in table["claims"]]
        if any(wanted):
            yield pytest.param(text, wanted, id=slug(name))


def verify(program: Program, *words: str, text: str) -> Answer:
    return program("verify", *words, given=text, limit=LIMIT)


def verdicts(program: Program, *words: str, text: str) -> list[dict]:
    """What the JSON says of each claim."""
    answer = verify(program, *words, "--as", "json", text=text)
    said = json.loads(answer.stdout)
    assert answer.stdout == compact(said)
    assert [claim["claim"] for claim in said["claims"]] == list(range(1, len(said["claims"]) + 1))
    assert said["sums"] == sums(said["claims"])
    assert answer.exit == (YES if said["sums"]["holds"] == said["sums"]["claims"] else NO)
    return said["claims"]


def sums(each: list[dict]) -> dict[str, int]:
    """How many claims there are, and how many of each verdict."""
    words = [entry["verdict"] for entry in each]
    return {"claims": len(words), **{word: words.count(word) for word in ("holds", *FAILURES)}}


def words_of(text: str) -> list[tuple[str | None, ...]]:
    """The number, the name or None, the verdict and the claim of each line that has one in the text format."""
    return [found.groups() for found in map(LINE.fullmatch, text.splitlines()) if found]


def quoted(said: dict) -> str:
    """The name of a claim as it stands behind its number."""
    return f' "{said["name"]}"' if "name" in said else ""


def alone(text: str, number: int) -> dict:
    """The document with one of its claims alone."""
    document = json.loads(text)
    return {**document, "claims": [document["claims"][number]]}


def check_run(program: Program, text: str, said: dict):
    """The run that is given is one of the graph, and the claim fails after its last event."""
    run = said["run"]
    start = {"start": {"inputs": run["inputs"]}} if run["inputs"] else {}
    document = {**alone(text, said["claim"] - 1), **start, "journal": run["journal"]}
    audit = program("audit", given=json.dumps(document))
    assert run["events"] == run["journal"].count("\n")
    assert (audit.exit, audit.stdout.splitlines()[1:]) == (NO, [f"claim 1 fails at {run['events']}"])


def height(tree: dict | str) -> int:
    """How many splits a tree has above its deepest leaf."""
    below = [height(tree[name]) for name in BRANCHES if name in tree] if isinstance(tree, dict) else []
    return 1 + max(below) if below else 0


def check_trees(program: Program, text: str, each: list[dict]):
    """The claims that hold have trees, and no other has; with these as its certificate `check` accepts the document of these
    claims alone. That is asked anew: the check searches nothing, and reads the trees as documents have them."""
    held = [said for said in each if said["verdict"] in ("holds", "empty")]
    assert held == [said for said in each if "tree" in said]
    trees = [said["tree"] for said in held]
    assert [height(tree) for tree in trees] == [said["splits"] for said in held]
    document = json.loads(text)
    claims = [document["claims"][said["claim"] - 1] for said in held]
    answer = program("check", given=json.dumps({**bare(document), "claims": claims, "certificate": trees}), limit=LIMIT)
    assert (answer.stdout, answer.exit) == ("accepted\n", YES)


def check_agrees(program: Program, text: str, said: dict):
    """`analyse`, `check` and `refute` say the same of the claim, asked alone."""
    document = json.dumps(alone(text, said["claim"] - 1))
    found = program("analyse", "--depth", DEPTH, "--whole", "--slim", given=document, limit=LIMIT)
    refuted = program("refute", "--claim", "1", "--runs", RUNS, given=document, limit=LIMIT)
    if said["verdict"] in ("holds", "empty"):
        assert program("check", given=found.stdout).stdout == "accepted\n"
        few = program("analyse", "--depth", str(said["splits"]), given=document, limit=LIMIT)
        assert (few.exit, refuted.exit) == (YES, YES)
        return
    assert (found.stdout, found.exit) == ("not found: claim 1\n", NO)
    if said["verdict"] == "fails":
        check_run(program, text, said)
    else:
        assert refuted.exit == YES


class JUnit:
    """The reader of JUnit's reports."""

    def __init__(self, etree):
        self.etree = etree
        self.schema = etree.XMLSchema(etree.parse(str(HERE / "verdicts/junit.xsd")))

    def read(self, text: str):
        """The suites of a report, which is valid."""
        suites = self.etree.fromstring(text.encode())
        self.schema.assertValid(suites)
        return suites


@pytest.fixture(scope="module")
def junit() -> JUnit:
    """The reader of JUnit's reports, by python3-lxml."""
    if sys.executable == debian.PYTHON and not debian.has_modules(debian.PYTHON, "lxml"):
        debian.install("python3-lxml")
        importlib.invalidate_caches()
    return JUnit(pytest.importorskip("lxml.etree", reason="python3-lxml isn't there and can't be installed"))


@pytest.fixture(scope="module")
def described():
    """The validator of the JSON."""
    module = jsonschema()
    assert module, "python3-jsonschema isn't there and can't be installed"
    schema = json.loads((TOP / "schema/verify.schema.json").read_text(encoding="utf-8"))
    module.Draft202012Validator.check_schema(schema)
    return module.Draft202012Validator(schema)


# characters that mean something to XML, or are easily taken for such that it has no place for; each is read as it is
KEPT = ("&amp;", "<", "]]>", "\"'", "\ufdd0", "\ufffd", "\ue000", "\U0001fffe", "\U0010ffff", "\u2028", "\ud7ff")
# what claims are called, and what a report says: U+FFFD where XML has no place for a character
NAMES = {
    **{name: name for name in KEPT},
    "\ufffe": "\ufffd",
    "\uffff": "\ufffd",
    "a\uffff\ufffe&\uffff<": "a\ufffd\ufffd&\ufffd<",
}


def test_junit_with_any_name(program):
    """The report is XML to any parser, whatever the claims are called."""
    claims = [{"name": name, "final": "A", "in": ["RanToCompletion"]} for name in NAMES]
    task = {"name": "A", "kind": "root", "body": []}
    answer = verify(program, "--as", "junit", text=json.dumps({"version": 3, "tasks": [task], "claims": claims}))
    cases = xml.etree.ElementTree.fromstring(answer.stdout.encode()).iter("testcase")
    wanted = [f'claim {number} "{name}": A ends RanToCompletion' for number, name in enumerate(NAMES.values(), 1)]
    assert [case.get("name") for case in cases] == wanted


@pytest.mark.parametrize("text, wanted", worked_out())
def test_worked_out(program, text: str, wanted: list[str]):
    each = verdicts(program, text=text)
    assert [entry["verdict"] for entry in each] == wanted
    for said in each:
        if said["verdict"] == "fails":
            check_run(program, text, said)
    check_trees(program, text, each)


def lines_below(text: str) -> list[list[str]]:
    """The lines that belong to each claim in the text format."""
    below: list[list[str]] = []
    for line in text.splitlines()[:-1]:
        if line.startswith("  "):
            below[-1].append(line.removeprefix("  "))
        else:
            below.append([])
    return below


@pytest.mark.parametrize("text, wanted", worked_out("says"))
def test_reasons(program, text: str, wanted: list[str | None]):
    """Why a claim is empty is said in the text, and by a word and its task in the JSON."""
    each = [said.get("empty") for said in verdicts(program, text=text)]
    below = lines_below(verify(program, text=text).stdout)
    for reason, lines, says in zip(each, below, wanted, strict=True):
        assert says == (REASONS[reason["why"]].format_map(reason) if reason else None)
        assert not reason or lines == [says]


@pytest.mark.drawn(DRAWN)
def test_drawn_graph(program, number: int):
    graph = Drawn(random.Random(number))
    text = json.dumps(graph.document(*(graph.claim() for _ in range(CLAIMS))))
    plain = program("check", given=text)
    if plain.stdout.startswith("unreadable:"):
        answer = verify(program, text=text)
        assert (answer.stdout, answer.exit) == (plain.stdout, plain.exit)
        return
    each = verdicts(program, "--runs", RUNS, text=text)
    check_trees(program, text, each)
    for said in each:
        check_agrees(program, text, said)


@pytest.mark.drawn(PIPELINES)
def test_trees_of_drawn_pipelines(program, number: int):
    """Of each of several claims that teams make of a pipeline."""
    pipeline = Pipeline(random.Random(number))
    text = json.dumps(pipeline.document(*(pipeline.claim() for _ in range(CLAIMS)), version=3))
    each = verdicts(program, "--runs", RUNS, text=text)
    check_trees(program, text, each)


@pytest.mark.parametrize("path", examples(), ids=lambda path: path.stem)
def test_trees_of_examples(program, path: pathlib.Path):
    text = path.read_text(encoding="utf-8")
    each = verdicts(program, "--runs", RUNS, text=text)
    check_trees(program, text, each)


@pytest.mark.parametrize("number", range(len(PROVED)))
def test_a_tree_of_another_claim_is_refused(program, number: int):
    """So that a document with the trees of its claims mixed up would be seen."""
    claims = [claim for claim, _ in PROVED]
    trees = [said["tree"] for said in verdicts(program, text=json.dumps({**SPLIT, "claims": claims}))]
    assert trees == [tree for _, tree in PROVED]
    turned = [trees[number - 1]]
    answer = program("check", given=json.dumps({**SPLIT, "claims": [claims[number]], "certificate": turned}))
    assert (answer.stdout.startswith("refused: "), answer.exit) == (True, NO)


@pytest.mark.parametrize("text, wanted", worked_out())
def test_jobs(program, text: str, wanted: list[str]):
    """The same bytes for every number of jobs, in each format."""
    for form in FORMATS:
        first, *others = (verify(program, "--as", form, "--jobs", jobs, "--runs", RUNS, text=text) for jobs in JOBS)
        assert all((other.stdout, other.exit) == (first.stdout, first.exit) for other in others), form


@pytest.mark.parametrize("text, wanted", worked_out())
def test_without_threads(bare_program, library, text: str, wanted: list[str]):
    """The same bytes where no thread can be made."""
    words = ("verify", "--jobs", "8", "--runs", RUNS)
    alone = bare_program(*words, given=text, environment={"LD_PRELOAD": library("no_threads.c")}, limit=LIMIT)
    beside = bare_program(*words, given=text, limit=LIMIT)
    assert (alone.stdout, alone.exit) == (beside.stdout, beside.exit)


def chain(claims: int) -> str:
    """Continuations behind each other, and so many claims that one begins only after the one before it is settled."""
    links = [{"name": f"T{number}", "kind": "then", "after": f"T{number - 1}", "body": []} for number in range(1, CHAIN)]
    after = [{"after": [f"T{number}", f"T{number + 1}"]} for number in range(claims)]
    return json.dumps({"version": 3, "tasks": [{"name": "T0", "kind": "root", "body": []}, *links], "claims": after})


@pytest.mark.parametrize("jobs", JOBS)
def test_verdicts_come_one_by_one(bare_program, jobs: str):
    words = [bare_program.path, "verify", "--jobs", jobs, "--runs", MOST_RUNS]
    with subprocess.Popen(words, stdin=subprocess.PIPE, stdout=subprocess.PIPE, text=True) as started:
        assert started.stdin and started.stdout
        started.stdin.write(SLOW)
        started.stdin.close()
        lines = [started.stdout.readline() for _ in SOON]
        is_over = started.poll() is not None
        started.kill()
    assert lines == SOON
    assert not is_over, "the last claim has its verdict before the others are read"


def test_many_claims(bare_program):
    """What many claims share is worked out once: each claim more costs a small part of the first."""
    words = ("verify", "--jobs", "1", "--runs", "0")
    one, all_claims = (cost_of(bare_program.path, words, chain(claims), LIMIT) for claims in (1, CHAIN - 1))
    assert (one.exit, all_claims.exit) == (YES, YES)
    assert all_claims.seconds < OFTEN * max(one.seconds, 0.01)


@pytest.mark.parametrize("text, wanted", worked_out())
def test_formats_agree(program, junit, text: str, wanted: list[str]):
    """The text, the JSON and the JUnit say the same of each claim."""
    each = verdicts(program, text=text)
    written = verify(program, text=text)
    assert words_of(written.stdout) == [
        (str(entry["claim"]), entry.get("name"), entry["verdict"], entry["text"]) for entry in each
    ]
    last = written.stdout.splitlines()[-1]
    assert last == ", ".join(f"{name} {count}" for name, count in sums(each).items())
    suites = junit.read(verify(program, "--as", "junit", text=text).stdout)
    (suite,) = suites
    cases = suite.findall("testcase")
    assert [each_case.get("name") for each_case in cases] == [
        f"claim {entry['claim']}{quoted(entry)}: {entry['text']}" for entry in each
    ]
    failed = [[part.get("type") for part in case] for case in cases]
    assert failed == [[entry["verdict"]] if entry["verdict"] in FAILURES else [] for entry in each]
    assert (suite.get("tests"), suite.get("failures")) == (str(len(each)), str(sum(map(len, failed))))


def cause_lines(causes: list[dict], word: str) -> list[str]:
    """The lines that tell of causes: of the last of them, and none where there is one alone."""
    lines = [f"  {word} {cause['event']}: {cause['says']}" for cause in causes[-MOST_TOLD:]]
    return ["how it came to this:", *lines] if len(lines) > 1 else []


@pytest.mark.parametrize("text, wanted", worked_out())
def test_causes(program, text: str, wanted: list[str]):
    """The causes are events of the run, in its order. The text has them below the run, and `audit --explain` tells the same."""
    below = lines_below(verify(program, text=text).stdout)
    for said, lines in zip(verdicts(program, text=text), below, strict=True):
        if said["verdict"] != "fails":
            continue
        run, causes = said["run"], said["causes"]
        places = [cause["event"] for cause in causes]
        assert places == sorted(set(places)) and all(0 < place <= run["events"] for place in places)
        assert all(place <= cause["led_to"] <= run["events"] for place, cause in zip(places, causes))
        told = cause_lines(causes, "event")
        assert lines[lines.index(f"claim {said['claim']} fails here") + 1 :] == told
        start = {"start": {"inputs": run["inputs"]}} if run["inputs"] else {}
        document = {**alone(text, said["claim"] - 1), **start, "journal": run["journal"]}
        audit = program("audit", "--explain", given=json.dumps(document))
        assert "".join(f"{line}\n" for line in cause_lines(causes, "line")) in audit.stderr


@pytest.mark.parametrize(
    "old, new",
    [
        (' tests="1"', ""),
        (' failures="1"', ' failures="one"'),
        (' hostname="localhost"', ' hostname=""'),
        ("<properties/>", ""),
        (' classname="claims"', ""),
        ("<failure type=", "<failure kind="),
        ("</failure>", "</failure><failure/>"),
        ("<system-out/>", ""),
        ("<testsuite ", "<suite "),
    ],
)
def test_junit_is_refused(program, junit, old: str, new: str):
    """The schema of JUnit's reports refuses one that is changed."""
    claims = {"claims": [{"never": "A"}]}
    document = json.dumps({"version": 1, "tasks": [{"name": "A", "kind": "root", "body": []}], **claims})
    text = verify(program, "--as", "junit", text=document).stdout
    junit.read(text)
    assert old in text
    with pytest.raises((junit.etree.DocumentInvalid, junit.etree.XMLSyntaxError)):
        junit.read(text.replace(old, new, 1))


def test_trees_are_described_as_in_documents(described):
    documents = json.loads((TOP / "schema/taskgraph.schema.json").read_text(encoding="utf-8"))
    same = ("tree", "row", "final", "name")
    assert [described.schema["$defs"][name] for name in same] == [documents["$defs"][name] for name in same]


@pytest.mark.parametrize("text, wanted", worked_out())
def test_schema(program, described, text: str, wanted: list[str]):
    described.validate(json.loads(verify(program, "--as", "json", text=text).stdout))
