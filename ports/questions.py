"""What the program for each system is asked, and whether its answers are those of the Linux program."""
import dataclasses
import functools
import json
import pathlib
import re
import shutil
import subprocess
import sys
import tempfile
from collections.abc import Iterator

from callers import Answer, Caller, Wine
from modules import TOP

sys.path.insert(0, str(TOP / "cases"))
import harness  # noqa: E402

from refused import digest  # noqa: E402  isort:skip

# what each example is asked
OF_EXAMPLES = (
    ("check",),
    ("check", "--explain"),
    ("analyse",),
    ("analyse", "--whole"),
    ("audit",),
    ("refute",),
    ("verify",),
    ("verify", "--as", "json"),
    ("verify", "--as", "junit"),
    ("verify", "--explain", "--jobs", "4"),
    ("draw",),
    ("draw", "--as", "dot"),
    ("trace",),
    ("run",),
    ("run", "--workers", "1"),
    ("run", "--workers", "8"),
)
# how often the examples stand in a text of many documents, and how many threads answer them
TIMES, JOBS = 20, ("1", "4", "16")
# how many threads make the runs that are audited, and how many such runs there are in all
WORKERS, RUNS = (2, 4, 8), 200


@dataclasses.dataclass(frozen=True)
class Question:
    """Words and standard input."""

    name: str
    words: tuple[str, ...]
    stdin: bytes

    @property
    def is_run(self) -> bool:
        return self.words[:1] == ("run",)

    @property
    def is_same_twice(self) -> bool:
        """Whether the program answers the same each time. A run by several threads differs from the next."""
        return not self.is_run or "--help" in self.words or ("--workers", "1") in zip(self.words, self.words[1:])


@functools.cache
def examples() -> dict[str, bytes]:
    """The documents of examples/, by their names."""
    return {file.stem: file.read_bytes() for file in harness.examples()}


def compact(text: bytes) -> bytes:
    """A document in one line."""
    return json.dumps(json.loads(text), separators=(",", ":")).encode() + b"\n"


def of_many() -> Iterator[Question]:
    """Many documents, each on a line, answered by several threads."""
    lines = b"".join(map(compact, examples().values()))
    for command, stdin in (("check", lines * TIMES), ("audit", lines * TIMES), ("verify", lines)):
        for jobs in JOBS:
            yield Question(f"{command} --each --jobs {jobs}", (command, "--each", "--jobs", jobs), stdin)


def questions() -> Iterator[Question]:
    """All of them: of the examples, of the cases of cases/, and of words that a command line could get wrong."""
    for name, text in examples().items():
        yield from (Question(f"{name}: {' '.join(words)}", words, text) for words in OF_EXAMPLES)
    yield from of_many()
    yield from (Question(str(case), case.words, case.stdin) for case in harness.all_cases())
    yield Question("no words", (), b"")
    yield Question("a word that isn't ASCII", ("chäck", "日本", "👍"), b"")
    yield Question("spaces, quotes and signs", ('a "b" c\\', "*", "", "%PATH%", "^&|<>"), b"")


def in_turn(commit: str, every: int) -> Iterator[Question]:
    """The questions that are asked for a commit: one in so many, of each sort."""
    return (question for question in questions() if int(digest(commit, question.name), 16) % every == 0)


def why_not_complete(ours: Caller, whole: Answer) -> str | None:
    """Why a run that is written with its document isn't a complete one, by the Linux program's audit."""
    if whole.exit:
        return f"it ends with {whole.exit}: {whole.stderr.decode(errors='replace')}"
    audited = ours(["audit"], whole.stdout)
    return None if audited.stdout.startswith(b"run complete\n") else f"the audit says {audited.stdout.decode(errors='replace')}"


def why_other(question: Question, expected: Answer, found: Answer) -> str | None:
    """Why an answer isn't the Linux program's, or None. Of a run by several threads the exit status is compared."""
    if question.is_same_twice:
        return None if found == expected else f"expected {expected}\nfound    {found}"
    return None if found.exit == expected.exit else f"it ends with {found.exit}, and not with {expected.exit}"


def why_no_run(question: Question, expected: Answer, ours: Caller, theirs: Caller) -> str | None:
    """Why one more run for a question isn't a complete one, or None: that of a question that gets another run each time."""
    if question.is_same_twice or expected.exit:
        return None
    whole = [] if "--whole" in question.words else ["--whole"]
    return why_not_complete(ours, theirs([*question.words, *whole], question.stdin))


def runnable(ours: Caller) -> list[bytes]:
    """The examples with a certificate, where one is found."""
    answers = [ours(["analyse", "--whole"], text) for text in examples().values()]
    return [answer.stdout for answer in answers if answer.exit == 0]


def of_runs(ours: Caller, theirs: Caller, count: int) -> Iterator[tuple[str, str | None]]:
    """So many runs by several threads, each audited by the Linux program: a name, and why it isn't a run, or None."""
    documents = runnable(ours)
    for number in range(count):
        workers = str(WORKERS[number % len(WORKERS)])
        answer = theirs(["run", "--whole", "--workers", workers], documents[number % len(documents)])
        yield f"run {number} by {workers} threads", why_not_complete(ours, answer)


# the pages with lines for cmd, and for PowerShell to hand to cmd
PAGES = ("README.md", "docs/FIRST-PIPELINE.md", "docs/SYSTEMS.md")
BATCH = re.compile(r"^```bat\n(.*?)^```$", re.M | re.S)
BY_CMD = re.compile(r'(?:^|`)cmd /c "(.*)"(?:$|`)', re.M)
# a line of a batch file that asks how the one above ended
IF_NOT = re.compile(r"if errorlevel 1 echo (.*)")


def lines_for_cmd() -> list[str]:
    """The lines of the pages, in their order. Each page has some."""
    found: list[str] = []
    for page in PAGES:
        text = (TOP / page).read_text(encoding="utf-8")
        lines = [line for block in BATCH.findall(text) for line in block.splitlines()] + BY_CMD.findall(text)
        if not lines:
            raise ValueError(f"{page} has no line for cmd")
        found += lines
    return found


def as_bash(line: str) -> str:
    """The same line for bash."""
    if found := IF_NOT.fullmatch(line):
        return f"[ $? -lt 1 ] || echo {found[1]}"
    return line.replace("\\", "/").replace("taskgraph ", "./taskgraph ")


def of_lines(program: pathlib.Path, theirs: Wine) -> Iterator[tuple[str, str | None]]:
    """The lines of the pages for cmd answer as those for bash do, and write the same files."""
    lines = lines_for_cmd()
    with tempfile.TemporaryDirectory(prefix="lines-") as name:
        ours, folder = pathlib.Path(name) / "ours", pathlib.Path(name) / "theirs"
        for place in (ours, folder):
            shutil.copytree(TOP / "examples", place / "examples")
        (ours / "taskgraph").symlink_to(program)
        shutil.copy2(theirs.program, folder / "taskgraph.exe")
        script = "\n".join(map(as_bash, lines))
        expected = subprocess.run(["bash", "-c", script], cwd=ours, capture_output=True, check=False).stdout
        (folder / "lines.bat").write_text("".join(f"@{line}\r\n" for line in lines), encoding="utf-8")
        # (cmd's own echo ends its lines as Windows does)
        found = theirs.batch(folder / "lines.bat").stdout.replace(b"\r\n", b"\n")
        is_same = found == expected and bool(expected)
        yield f"{len(lines)} lines for cmd", None if is_same else f"expected {expected!r}\nfound    {found!r}"
        report, other = (place / "report.xml" for place in (ours, folder))
        is_same = other.exists() and report.read_bytes() == other.read_bytes()
        yield "the file that a line for cmd writes", None if is_same else "its bytes differ"
