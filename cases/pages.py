"""What the pages show and say: fenced blocks with commands or documents, and the lines of docs/OUTPUT.md.

Two kinds of fenced blocks are run. A block `console` has commands, each behind `$ ` (with what stands between `<<END` and
END), and below each what it writes; the exit status is the one that docs/OUTPUT.md gives for these lines. A block `json`
is a document, or what stands in one behind its version, which is 3 where it doesn't say another; below it lines of this form
say what the commands answer:

    `analyse --depth 1` finds a certificate.
    `check` says `accepted`.
    `verify` says: claim 1 holds, claim 2 fails.

A certificate that is found has to be accepted by `check`. What `verify` says of claims is compared with all runs of the
document too (every_run.py).
"""
import functools
import json
import os
import pathlib
import re
import subprocess
from collections.abc import Iterator
from typing import NamedTuple

from every_run import Truth
from harness import LIMIT, TOP, Program

FENCE = re.compile(r"^```(\w*)\n(.*?)^```\n", re.MULTILINE | re.DOTALL)
SAYS = re.compile(r"`((?:check|analyse|run|audit)[^`]*)` (?:says `([^`]*)`|(finds a certificate))\.")
# what is said of each claim, and of one
VERDICTS = re.compile(r"`verify` says: (claim 1 (?:holds|fails)(?:, claim \d+ (?:holds|fails))*)\.$", re.MULTILINE)
LINK = re.compile(r"\]\((?!https?:|#)([^)#]+)")
# a link to a heading, of this page or of another one
ANCHOR = re.compile(r"\]\((?!https?:)([^)#]*)#([^)]+)\)")
HEADING = re.compile(r"^(#+) (.+)\n", re.MULTILINE)
# the documents that a console block hands to `verify`
HANDED = re.compile(r"^\$ \./taskgraph verify <<END\n(.*?)^END\n", re.MULTILINE | re.DOTALL)
# words in capitals, what each of them stands for, and a claim's name behind its number
PLACE = re.compile(r"[A-Z]{2,}|\b[NP]\b")
WORD, NAMED = '[^ "]+', '(?: ".+")?'
ROW = re.compile(r"^\| `([^`]+)` \| (\d) \|", re.MULTILINE)
# how a page says what a picture was made by; the texts of a picture, before Graphviz has drawn it and after
DRAWN = re.compile(r"^    (.+) \| dot -Tsvg > docs/pictures/(.+)$", re.MULTILINE)
OF_DOT = re.compile(r'\blabel="([^"]*)"|<td[^>]*>([^<]*)</td>')
OF_SVG = re.compile(r"<text[^>]*>([^<]*)</text>")
PROGRAM = "./taskgraph"
# how a command shows what it says on standard error too
ASIDE = "2>&1"


class Block(NamedTuple):
    """A fenced block: the word behind the fence, what stands in it, and the paragraph below."""

    kind: str
    text: str
    below: str


class Section(NamedTuple):
    """What stands below a heading, with the parts below it: its level, the heading, its anchor, and the text."""

    level: int
    head: str
    anchor: str
    text: str


class Row(NamedTuple):
    """A line of docs/OUTPUT.md: the heading under which it stands, the lines that it stands for, and the exit status."""

    head: str
    shape: re.Pattern
    exit: int


def pages() -> list[pathlib.Path]:
    """The pages of the repository."""
    folders = ("*.md", "docs/*.md", "examples/*.md", "schema/*.md", "cases/*.md")
    return [file for folder in folders for file in sorted(TOP.glob(folder))]


def blocks(text: str):
    """The fenced blocks of a page."""
    for block in FENCE.finditer(text):
        yield Block(block.group(1), block.group(2), text[block.end() :].lstrip("\n").split("\n\n")[0])


def anchor(head: str) -> str:
    """What a link to a heading says of it: its letters, digits and hyphens, in lower case."""
    return re.sub(r"[^\w -]", "", head.lower()).replace(" ", "-")


def sections(text: str) -> list[Section]:
    """The parts of a page, each with the parts below it."""
    # (what looks like a heading inside of a fenced block is none)
    plain = FENCE.sub(lambda block: " " * len(block.group()), text)
    heads = [(len(head[1]), head[2], head.start(), head.end()) for head in HEADING.finditer(plain)]
    found = []
    for place, (level, head, _, begin) in enumerate(heads):
        end = next((start for other, _, start, _ in heads[place + 1 :] if other <= level), len(text))
        found.append(Section(level, head, anchor(head), text[begin:end]))
    return found


def is_asked(text: str) -> bool:
    """A part of a page has a block that the tests run."""
    return any(block.kind == "console" or says_what_is_answered(block) for block in blocks(text))


def says_what_is_answered(block: Block) -> bool:
    """Below the block, which has a document, stands what a command answers to it."""
    return block.kind == "json" and bool(SAYS.search(block.below) or VERDICTS.search(block.below))


def shown_documents(text: str) -> Iterator[dict]:
    """The documents of a page: those of its json blocks of which an answer is told, and those that are handed to `verify`."""
    for block in blocks(text):
        if says_what_is_answered(block):
            yield document(block.text)
    yield from map(json.loads, HANDED.findall(text))


def verdicts(program: Program, given: dict) -> list[str]:
    """What `verify` says of each claim of a document."""
    return [claim["verdict"] for claim in json.loads(program("verify", "--as", "json", given=json.dumps(given)).stdout)["claims"]]


def true_verdicts(given: dict) -> list[str]:
    """What is so of each claim in all runs of a document."""
    truth = Truth(given)
    return ["holds" if truth.holds(claim) else "fails" for claim in given["claims"]]


def commands(block: str) -> list[tuple[str, str]]:
    """Each command of a console block, with what it writes."""
    found: list[list[str]] = []
    ends_with = None
    for line in block.splitlines(keepends=True):
        if ends_with is not None:
            found[-1][0] += line
            ends_with = None if line.rstrip() == ends_with else ends_with
        elif line.startswith("$ "):
            found.append([line[2:], ""])
            ends_with = "END" if "<<END" in line else None
        elif found:
            found[-1][1] += line
    return [(command, answer) for command, answer in found]


def pattern(line: str) -> re.Pattern:
    """The lines that a row of docs/OUTPUT.md stands for: its words in capitals stand for any word, and WORDS for several. A
    claim that is told in words may have a name behind its number."""
    if line == "TREES":
        return re.compile(r"\[.*\]")
    if line == "DOCUMENT":
        return re.compile(r"\{.*\}")
    if line.endswith("WORDS"):
        return re.compile(pattern(line.removesuffix("WORDS")).pattern.replace(WORD, f"{WORD}{NAMED}", 1) + ".+")
    carried = r"(?: [^ ]+:[^ ]+)*" if line.startswith("task ") else ""
    return re.compile(WORD.join(map(re.escape, PLACE.split(line))) + carried)


def rows(text: str) -> list[Row]:
    """The lines of docs/OUTPUT.md."""
    parts = re.split(r"^## `?([^`\n]*)`?\n", text, flags=re.MULTILINE)
    headed = zip(["", *parts[1::2]], parts[::2])
    return [Row(head, pattern(row.group(1)), int(row.group(2))) for head, part in headed for row in ROW.finditer(part)]


@functools.cache
def known_rows() -> list[Row]:
    """The lines of the page docs/OUTPUT.md as it is."""
    return rows((TOP / "docs/OUTPUT.md").read_text(encoding="utf-8"))


def ending(answer: str, known: list[Row], command: str = "") -> tuple[int, str | None]:
    """The exit status that belongs to these lines, and the first line that no row has, or None. Where two commands write
    such a line, it is the command's own that counts."""
    status = 0
    for line in answer.splitlines():
        fits = [row for row in known if row.shape.fullmatch(line)]
        if not fits:
            return status, line
        status = max(status, next((row.exit for row in fits if row.head == command), fits[0].exit))
    return status, None


def document(snippet: str) -> dict:
    """The document that a json block stands for."""
    # (of two members of one name the last counts)
    whole = snippet if snippet.lstrip().startswith("{") else '{"version": 3,' + snippet + "}"
    return json.loads(whole)


def drawn() -> dict[str, str]:
    """The pictures of docs/PICTURES.md, each with the command that draws it for Graphviz."""
    return {name: command for command, name in DRAWN.findall((TOP / "docs/PICTURES.md").read_text(encoding="utf-8"))}


def texts_of_dot(text: str) -> list[str]:
    """What is written at the nodes and edges of a graph for Graphviz, and in its legend."""
    return [line for label, cell in OF_DOT.findall(text) for line in (label or cell).split("\\n")]


def texts_of_svg(text: str) -> list[str]:
    """The same of a picture that Graphviz made."""
    return OF_SVG.findall(text)


class Desk:
    """Where the commands of pages are run: a folder with the program and the folders that pages name."""

    def __init__(self, program: Program, folder: pathlib.Path):
        self.program, self.folder, self.known = program, folder, known_rows()
        for name in ("examples", "docs", "schema"):
            (folder / name).symlink_to(TOP / name)
        (folder / "taskgraph").symlink_to(program.path)

    def shell(self, command: str) -> subprocess.CompletedProcess:
        """What a command line writes, and how it ends."""
        environment = {**os.environ, "TASKGRAPH": str(self.program.path)}
        return subprocess.run(
            ["bash", "-c", command],
            cwd=self.folder,
            env=environment,
            capture_output=True,
            text=True,
            errors="replace",
            timeout=LIMIT,
            check=False,
        )

    def check_shown(self, command: str, answer: str):
        """A console command answers as the page shows."""
        ended = self.shell(command)
        assert ended.stdout == answer, ended.stderr
        line = command.split("\n")[0]
        if re.search(rf"{re.escape(PROGRAM)} [^|]*(<<END|$)", line):
            *_, asked = re.findall(rf"{re.escape(PROGRAM)} (\w*)", line)
            status, unknown = ending(answer, self.known, asked)
            assert ended.returncode == status
            # (no row has what is said on standard error)
            assert unknown is None or ASIDE in line

    def check_said(self, snippet: str, words: str, answer: str, finds: str):
        """A command says of a snippet what the page says."""
        given = document(snippet)
        command, *_ = asked = words.split()
        wrote = self.program(*asked, given=json.dumps(given))
        if finds:
            assert wrote.exit == 0, wrote
            verdict = self.program("check", given=json.dumps({**given, "certificate": json.loads(wrote.stdout)}))
            assert (verdict.stdout, verdict.exit) == ("accepted\n", 0)
        else:
            assert (wrote.stdout, wrote.exit) == (f"{answer}\n", ending(f"{answer}\n", self.known, command)[0])
