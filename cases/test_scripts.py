"""The scripts of examples/ and of this folder, and the program's version, help and progress on a terminal."""
import contextlib
import json
import os
import pathlib
import pty
import re
import runpy
import subprocess

import pytest

import chance
import count_decided
import pages
from harness import COMMANDS, LIMIT, TOP, USAGE, Program

ONE_ROOT = TOP / "examples/one-root.json"
ASK, PIPELINE = (Program(TOP / "examples" / each_word) for each_word in ("ask", "pipeline"))


# ---- examples/ask

CLAIM = '{"never":"A"}'


def test_ask_replaces_the_claims(tmp_path):
    document = {"version": 1, "tasks": [], "claims": [1], "certificate": [2], "journal": "x", "start": {}}
    file = tmp_path / "document.json"
    file.write_text(json.dumps(document), encoding="utf-8")
    asked = json.loads(ASK(str(file), CLAIM).stdout)
    assert asked == {"version": 1, "tasks": [], "claims": [{"never": "A"}], "journal": "", "start": {}}


def test_ask_takes_a_journal():
    answer = ASK(str(ONE_ROOT), CLAIM, "--journal", given="w1 begin A\n")
    assert answer.exit == 0
    assert json.loads(answer.stdout)["journal"] == "w1 begin A\n"


@pytest.mark.parametrize("words", [(), (str(ONE_ROOT), CLAIM, "--other")], ids=["none", "another-option"])
def test_ask_refuses_other_words(words: tuple[str, ...]):
    assert ASK(*words).exit == USAGE


# ---- examples/pipeline


@pytest.mark.parametrize("shards, tasks", [(248, 1_000), (1, 12)])
def test_pipelines_have_four_tasks_a_shard(shards: int, tasks: int):
    assert len(json.loads(PIPELINE(str(shards)).stdout)["tasks"]) == tasks


def test_pipelines_keep_the_limits():
    tasks = json.loads(PIPELINE().stdout)["tasks"]
    assert max(len(task.get("of", [])) for task in tasks) <= 256
    assert sum(1 for task in tasks for statement in task.get("body", []) if "work" in statement) <= 256


@pytest.mark.parametrize("shards", ["0", "249", "two"])
def test_pipeline_refuses_other_numbers(shards: str):
    answer = PIPELINE(shards)
    assert (answer.stdout, answer.exit) == ("", USAGE)


# ---- the tests


def test_each_file_of_tests_is_run():
    tests = runpy.run_path(str(TOP / "test"))["TESTS"]
    run = {word for test in tests for word in test.command if word.endswith(".py")}
    folders = ("cases", ".ci", "ports", "dist", "dotnet")
    assert run == {f"{folder}/{path.name}" for folder in folders for path in (TOP / folder).glob("test_*.py")}


# ---- the version, help, and terminals


def test_the_version_is_that_of_the_file(program):
    assert program("--version").stdout == f"taskgraph {(TOP / 'VERSION').read_text()}"


@pytest.mark.parametrize("command", COMMANDS)
def test_the_example_of_a_command_works(program, command: str):
    (line,) = re.findall(r"(?m)^Example: (.*)$", program(command, "--help").stdout)
    assert command in line
    ended = subprocess.run(["sh", "-c", line], cwd=TOP, capture_output=True, text=True, timeout=LIMIT, check=False)
    assert ended.stdout and ended.returncode in (0, 1), ended


def read_to_end(leader: int) -> bytes:
    """What was written to a terminal, once no process has its other end: one read may give only what has got through so far."""
    read = b""
    with contextlib.suppress(OSError):
        while piece := os.read(leader, 10_000):
            read += piece
    return read


def on_terminal(program: Program, *words: str, stream: str, document: str | pathlib.Path = os.devnull) -> str:
    """What the program writes to a terminal that is its standard input, or its standard error while it reads a document."""
    leader, follower = pty.openpty()
    try:
        with open(document, "rb") as read, subprocess.Popen(
            [program.path, *words],
            stdin=follower if stream == "stdin" else read,
            stdout=subprocess.DEVNULL,
            stderr=follower if stream == "stderr" else subprocess.PIPE,
        ) as started:
            os.close(follower)
            if stream == "stdin":
                os.write(leader, b"\x04")
                return started.communicate(timeout=LIMIT)[1].decode()
            started.wait(timeout=LIMIT)
        return read_to_end(leader).decode()
    finally:
        os.close(leader)


def test_a_terminal_is_told_that_a_document_is_read(program):
    assert "standard input" in on_terminal(program, "check", stream="stdin")
    answer = program("check")
    assert (answer.stdout, answer.stderr, answer.exit) == ("unreadable: not JSON\n", "", 3)


def test_a_terminal_is_told_why_without_being_asked(program):
    text = on_terminal(program, "check", stream="stderr")
    asked = program("check", "--explain").stderr
    assert asked and text.replace("\r\n", "\n") == asked


@pytest.mark.parametrize(
    "words, progress",
    [
        ("run", r"[01] of 1 tasks have ended"),
        ("run --whole", r"[01] of 1 tasks have ended"),
        ("analyse", r"claim \d+: 0 leaves tried"),
        ("refute", r"claims with a verdict: \d+"),
        ("verify", r"claims with a verdict: \d+"),
    ],
)
def test_a_terminal_is_told_how_far_a_command_is(program, words: str, progress: str):
    text = on_terminal(program, *words.split(), stream="stderr", document=ONE_ROOT)
    assert re.fullmatch(rf"(\r{progress}\x1b\[K)+\r\x1b\[K", text)


# ---- pages

PAGE = "text\n\n```console\n$ a <<END | b\nin\nEND\nout\n$ c\n```\n\n```json\n{}\n```\n\n`check` says `accepted`.\n\nmore\n"


def test_pages_are_read_block_by_block():
    console, snippet = pages.blocks(PAGE)
    assert pages.commands(console.text) == [("a <<END | b\nin\nEND\n", "out\n"), ("c\n", "")]
    assert snippet == ("json", "{}\n", "`check` says `accepted`.")
    assert pages.SAYS.findall(snippet.below) == [("check", "accepted", "")]
    found = pages.SAYS.findall("`analyse --depth 1` finds a certificate.")
    assert found == [("analyse --depth 1", "", "finds a certificate")]


def test_snippets_stand_behind_the_version():
    assert pages.document('"tasks": []') == {"version": 3, "tasks": []}
    assert pages.document('"version": 2, "tasks": []') == {"version": 2, "tasks": []}
    assert pages.document('{"version": 1}') == {"version": 1}


def test_pages_are_read_part_by_part():
    text = "# One\n\nfirst\n\n## A `b`, c..d\n\n```console\n# no heading\n$ a\n```\n\n### E\n\nlast\n\n## F\n"
    found = pages.sections(text)
    assert [(section.level, section.anchor) for section in found] == [(1, "one"), (2, "a-b-cd"), (3, "e"), (2, "f")]
    assert [pages.is_asked(section.text) for section in found] == [True, True, False, False]
    assert found[2].text == "\nlast\n\n"
    assert pages.ANCHOR.findall("[a](#b), [c](d.md#e), [f](g.md), [h](https://i#j)") == [("", "b"), ("d.md", "e")]


def test_verdicts_of_a_page_are_read():
    said = "`verify` says: claim 1 holds, claim 2 fails."
    assert pages.VERDICTS.findall(said) == ["claim 1 holds, claim 2 fails"]
    assert pages.VERDICTS.findall(said.replace("fails", "found")) == pages.VERDICTS.findall(said.replace("1", "2")) == []
    # (a claim that is true of its one task, and one that isn't)
    given = pages.document('"tasks": [{"name": "A", "kind": "root", "body": []}], "claims": [{"runs": "A"}, {"never": "A"}]')
    assert pages.true_verdicts(given) == ["holds", "fails"]


def test_lines_of_the_output_page_stand_for_others():
    lines = [("claim N fails at P", 1), ("TREES", 0), ("run complete", 0), ("task NAME STATUS", 0), ("claim N empty: WORDS", 1)]
    known = pages.rows("".join(f"| `{line}` | {status} | x |\n" for line, status in lines))
    assert pages.ending("run complete\n", known) == (0, None)
    assert pages.ending("run complete\nclaim 2 fails at 14\n", known) == (1, None)
    assert pages.ending("task A Faulted A:WorkFailed(s) B:x\n", known) == (0, None)
    assert pages.ending("[1]\n", known) == (0, None)
    assert pages.ending("claim two\n", known) == (0, "claim two")
    assert pages.ending('claim 3 "one of them" empty: A never begins\n', known) == (1, None)
    assert pages.ending('claim 3 "one of them" fails at 2\n', known) == (0, 'claim 3 "one of them" fails at 2')


def test_a_wrong_page_fails(program, tmp_path):
    desk = pages.Desk(program, tmp_path)
    command = "./taskgraph check < examples/one-root.json\n"
    desk.check_shown(command, "accepted\n")
    with pytest.raises(AssertionError):
        desk.check_shown(command, "refused: shape claim 1\n")
    snippet = '"tasks": [{"name": "A", "kind": "root", "body": []}], "claims": [{"never": "A"}]'
    desk.check_said(snippet, "analyse", "not found: claim 1", "")
    for answer, finds in (("not found: claim 2", ""), ("", "finds a certificate")):
        with pytest.raises(AssertionError):
            desk.check_said(snippet, "analyse", answer, finds)


def in_sources(expression: str, *folders: str) -> set[str]:
    """What the expression finds in the sources of these folders below crates/."""
    sources = (source for folder in folders for source in TOP.glob(f"crates/{folder}/*.rt"))
    return {match for source in sources for match in re.findall(expression, source.read_text(encoding="utf-8"))}


ANSWERING = ("tpl_commands/src", "tpl_report/src")


def test_each_word_of_a_refusal_has_its_line():
    page = (TOP / "docs/OUTPUT.md").read_text(encoding="utf-8")
    words = in_sources(r'"([A-Z][a-z]\w+)"', *ANSWERING)
    words |= in_sources(r'#\[error\("([A-Z][a-z]\w+)"\)\]', "*/src/**")
    assert len(words) >= 20
    assert sorted(word for word in words if not re.search(rf"\b{word}\b", page)) == []


def test_each_line_in_the_code_is_on_the_page():
    lines = in_sources(r'"([^"{}]+)\\n"', *ANSWERING)
    assert "accepted" in lines
    assert sorted(line for line in lines if pages.ending(f"{line}\n", pages.known_rows())[1] is not None) == []


# ---- the claims that are counted

# the six kinds of claims, by their members
SAID = {"final", "after", "observed", "never", "excludes", "runs"}


@pytest.mark.parametrize("shape, kinds", [("graphs", SAID - {"runs"}), ("pipelines", SAID)])
def test_claims_that_are_counted_can_be_asked(program, shape: str, kinds: set[str]):
    """Each document is read; it has no tree for its claim."""
    drawn = dict(count_decided.documents(shape, 25, 0, 3))
    lines = program("check", "--each", given="".join(f"{json.dumps(item)}\n" for item in drawn.values())).stdout.splitlines()
    assert lines == [f"{number} 1 refused: shape claim 1" for number in range(1, 25 * count_decided.CLAIMS + 1)]
    assert {word for item in drawn.values() for word in item["claims"][0]} & SAID == kinds


def test_claims_that_are_counted_are_always_the_same():
    one, other = (json.dumps([*count_decided.documents("pipelines", 5, 7, 3)]) for _ in range(2))
    assert one == other != json.dumps([*count_decided.documents("pipelines", 5, 8, 3)])


# ---- the documents that both machines play


def test_the_documents_that_are_played_are_those_of_the_script():
    assert chance.PLAYED.read_text(encoding="utf-8") == chance.played()
