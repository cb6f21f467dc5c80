"""What the tests of this folder share: the cases of its TOML files, and the program, called with words and input."""
import argparse
import base64
import dataclasses
import functools
import json
import os
import pathlib
import re
import shlex
import subprocess
import tomllib
from collections.abc import Iterable, Iterator, Mapping

HERE = pathlib.Path(__file__).resolve().parent
TOP = HERE.parent
# where `rt` puts the proved program of a crate, and .ci/compile the unproved one and test programs
BUILT = ("crates/{0}/out/{0}", "crates/{0}/out/unproved", "tests/{0}/out/unproved")
PROGRAM, RUNS = "tpl_cli", "sessions"
COMMANDS = ("check", "analyse", "run", "audit", "refute", "verify", "draw", "trace")
# what a case may say
KEYS = {
    "name",
    "words",
    "stdin",
    "stdin_base64",
    "document",
    "changes",
    "repeated",
    "stdout",
    "contains",
    "stderr",
    "exit",
    "finds",
}
# how long an answer may take, in seconds
LIMIT = 120
# the exit status where the words are wrong
USAGE = 2
# a page of examples/ shows a claim of a document with a journal in which it fails
SHOWN = re.compile(
    r"^\$ examples/ask examples/(\S+\.json) '([^']*)' --journal <<END \| \./taskgraph audit\n"
    r"((?:.+\n)*?)END\nrun .+\nclaim 1 fails at (\d+)$",
    re.MULTILINE,
)


@dataclasses.dataclass(frozen=True)
class Answer:
    """How the program ended, what it wrote, and what it said on standard error."""

    exit: int
    stdout: str
    stderr: str


@dataclasses.dataclass(frozen=True)
class Program:
    """A program that answers to words and to standard input, in a folder where one is named."""

    path: pathlib.Path
    folder: pathlib.Path | None = None

    def __call__(
        self, *words: str, given: bytes | str = b"", limit: float = LIMIT, environment: Mapping[str, str] | None = None
    ) -> Answer:
        """Calls the program. Bytes that are no UTF-8 are kept, as single surrogates. One that takes longer is an error."""
        ended = subprocess.run(
            [self.path, *words],
            input=given.encode() if isinstance(given, str) else given,
            capture_output=True,
            cwd=self.folder,
            env={**os.environ, **(environment or {})},
            timeout=limit,
            check=False,
        )
        written, said = (item.decode(errors="surrogateescape") for item in (ended.stdout, ended.stderr))
        return Answer(ended.returncode, written, said)


def compact(value) -> str:
    """A JSON value as the program writes it: in one line, the members by their names."""
    return json.dumps(value, separators=(",", ":"), sort_keys=True, ensure_ascii=False) + "\n"


def whole_run(program: Program, document: dict, workers: int, limit: float = LIMIT) -> tuple[dict, str]:
    """The document with the run that `run --whole` makes of it, and its text, which differs in nothing else."""
    answer = program("run", "--whole", "--workers", str(workers), given=json.dumps(document), limit=limit)
    assert answer.exit == 0, answer.stdout
    ran = json.loads(answer.stdout)
    start: dict = {"inputs": {}, **document.get("start", {})}
    assert ran == {**document, "start": start, "journal": ran["journal"]}
    assert answer.stdout == compact(ran)
    return ran, answer.stdout


def built(name: str) -> pathlib.Path:
    """The program of this name that was built last, proved or not; where there is none, the place of the proved one."""
    places = [TOP / place.format(name) for place in BUILT]
    return max((place for place in places if place.exists()), key=os.path.getmtime, default=places[0])


def shared_library(folder: pathlib.Path, source: str) -> str:
    """Builds a C file of this folder, by the compiler beside `rt`, as a library to be loaded before the C library."""
    guide = subprocess.run(["rt", "doc"], stdout=subprocess.PIPE, check=True, text=True)
    tools = pathlib.Path(guide.stdout.strip()).parent / "toolchain/bin"
    target = ["--target=x86_64-unknown-linux-gnu", "-O1", "-fPIC"]
    made, library = folder / f"{source}.o", folder / f"{source}.so"
    subprocess.run([tools / "clang", *target, "-c", HERE / source, "-o", made], check=True)
    subprocess.run([tools / "ld.lld", "-shared", made, "-o", library], check=True)
    return str(library)


@dataclasses.dataclass(frozen=True)
class Case:
    """A case of a file: what the program is asked, and what it has to answer."""

    file: str
    name: str
    words: tuple[str, ...]
    stdin: bytes
    exit: int
    # None: it isn't compared
    stdout: str | None
    # lines that have to be written, and pieces of what has to be said on standard error; None: anything may be said
    contains: tuple[str, ...]
    stderr: tuple[str, ...] | None
    # the mistakes in a model of the rules that it is there to find
    finds: tuple[str, ...] = ()

    def __str__(self):
        return slug(f"{self.file}: {self.name}")

    @property
    def command(self) -> str:
        """The word of the command, or no text where the words don't begin with one."""
        return next((word for word in self.words[:1] if not word.startswith("-")), "")


def slug(name: str) -> str:
    """The words of a name with hyphens between them, as `pytest -k` reads it."""
    return re.sub(r"\W+", "-", name).strip("-")


def once_replaced(text: str, old: str, new: str) -> str:
    """The text with a part of it replaced, which has to stand in it once."""
    if text.count(old) != 1:
        raise ValueError(f"{old!r} stands {text.count(old)} times, and not once, in {text!r}")
    return text.replace(old, new)


def stdin_of(table: dict, documents: dict[str, str]) -> bytes:
    """What a case gives on standard input: its own text, or one of the file's documents with its changes, in which marks
    stand for what is repeated. What is no text is written in base 64."""
    if "stdin_base64" in table:
        return base64.b64decode(table["stdin_base64"])
    text = documents[table["document"]] if "document" in table else table["stdin"]
    for old, new in table.get("changes", ()):
        text = once_replaced(text, old, new)
    for row in reversed(table.get("repeated", ())):
        items = (row["text"].replace("#", str(number)) for number in range(row["times"]))
        text = once_replaced(text, row["mark"], row["between"].join(items))
    return text.encode()


def case_of(file: str, table: dict, documents: dict[str, str]) -> Case:
    """A table of a file as a case."""
    unknown = set(table) - KEYS
    if unknown:
        raise ValueError(f"{file}: {table['name']}: no case has {min(unknown)}")
    stdin = stdin_of(table, documents)
    words = tuple(shlex.split(table["words"]))
    said = tuple(table["stderr"]) if "stderr" in table else None
    written, lines = table.get("stdout"), tuple(table.get("contains", ()))
    return Case(file, table["name"], words, stdin, table["exit"], written, lines, said, tuple(table.get("finds", ())))


def files() -> list[str]:
    """The names of the files of cases, in order."""
    return sorted(path.stem for path in HERE.glob("*.toml"))


@functools.cache
def cases_of(file: str) -> tuple[Case, ...]:
    """The cases of a file."""
    whole = tomllib.loads((HERE / f"{file}.toml").read_text(encoding="utf-8"))
    return tuple(case_of(file, table, whole.get("documents", {})) for table in whole["case"])


def all_cases() -> list[Case]:
    """The cases of all files."""
    return [case for file in files() for case in cases_of(file)]


def case_named(file: str, name: str) -> Case:
    """The case of this name."""
    (found,) = (case for case in cases_of(file) if case.name == name)
    return found


def tell_kept(does: str, where: pathlib.Path, texts: Iterable[tuple[pathlib.Path, str]]) -> int:
    """The command of a script that makes the files of a folder: says which of them differ from these texts, or writes them
    anew. It is the exit status: 1 where one differs and is left so."""
    folder = where.relative_to(TOP)
    parser = argparse.ArgumentParser(description=f"{does} the examples by the rules, and says which files of {folder}/ differ.")
    parser.add_argument("--write", action="store_true", help="write these files anew")
    given = parser.parse_args()
    differ = [(kept, text) for kept, text in texts if not kept.exists() or kept.read_text(encoding="utf-8") != text]
    for kept, text in differ:
        print(kept.relative_to(TOP))
        if given.write:
            kept.write_text(text, encoding="utf-8")
    return int(bool(differ) and not given.write)


def examples() -> list[pathlib.Path]:
    """The documents of examples/."""
    return sorted((TOP / "examples").glob("*.json"))


@dataclasses.dataclass(frozen=True)
class Failing:
    """A document with one false claim, a journal in which that fails, and after how many events it does."""

    name: str
    document: dict
    place: int


def failing_runs() -> Iterator[Failing]:
    """The runs in which a claim fails that the pages of examples/ show."""
    for page in sorted((TOP / "examples").glob("*.md")):
        for file, claim, journal, place in SHOWN.findall(page.read_text(encoding="utf-8")):
            document = json.loads((TOP / "examples" / file).read_text(encoding="utf-8"))
            kept = {name: it for name, it in document.items() if name != "certificate"}
            asked = {**kept, "claims": [json.loads(claim)], "journal": journal}
            yield Failing(slug(f"{page.stem} {claim}"), asked, int(place))
