"""The files of docs/CI.md do what the page says, as far as a shell can: their steps are run one after another, as GitHub's
runner and Azure's agent run them, in a folder with the program's archive and some documents. The calls of ready-made
actions and tasks aren't run. The steps that load the image call a script in place of podman, which answers as it does with
the program itself.
"""
import itertools
import os
import re
import subprocess
import tarfile
import textwrap
import xml.etree.ElementTree
from pathlib import Path

import pytest

import pages
from harness import LIMIT, TOP, Answer, Program

YES, NO = 0, 1
PAGE = (TOP / "docs/CI.md").read_text(encoding="utf-8")
VERSION = (TOP / "VERSION").read_text(encoding="utf-8").strip()
STEP = re.compile(r"( *(?:- )?)(?:run|script): \|\n")
# how Azure's agent is told of a folder with programs; GitHub's runner reads a file
PREPENDED = re.compile(r"^##vso\[task\.prependpath\](.+)$", re.MULTILINE)
HOLDS = '{"version":1,"tasks":[{"name":"A","kind":"root","body":[]}],"claims":[{"final":"A","in":["RanToCompletion"]}]}'
FAILS = HOLDS.replace("RanToCompletion", "Faulted")
NO_DOCUMENT = "{"


def steps_of(text: str):
    """What a shell runs of a file: the lines below each key that stand further in than it."""
    lines = text.splitlines(keepends=True)
    for number, line in enumerate(lines, 1):
        key = STEP.fullmatch(line)
        if key:
            further_in = " " * (len(key[1]) + 1)
            yield textwrap.dedent(
                "".join(itertools.takewhile(lambda each_line: each_line.startswith(further_in), lines[number:]))
            )


def blocks_of_yaml(is_file: bool) -> list[str]:
    """The files of the page, or the steps that stand alone, which are further in."""
    return [block.text for block in pages.blocks(PAGE) if block.kind == "yaml" and block.text.startswith(" ") != is_file]


def files() -> dict[str, list[str]]:
    """The steps of each file of the page that a shell runs."""
    return {text.split("\n")[0]: list(steps_of(text)) for text in blocks_of_yaml(is_file=True)}


def with_container() -> list[tuple[str, str]]:
    """Of each system, the step that loads the image, and the one that verifies."""
    loads = [step for text in blocks_of_yaml(is_file=False) for step in steps_of(text)]
    return list(zip(loads, (verify for _, verify in files().values()), strict=True))


# what stands for podman: it takes the image's file, and runs the program with the words behind the image's name
PODMAN = """#!/bin/sh
case "$*" in
  "load -i tools/{image}-oci.tar") test -f "$3" && echo "Loaded image: docker.io/library/taskgraph:{version}" ;;
  "run -i --rm taskgraph:{version} "*) shift 4; exec {program} "$@" ;;
  *) exit 125 ;;
esac
"""


class Runner:
    """A folder with the archive and documents, in which steps are run."""

    def __init__(self, program: Program, folder: Path, documents: dict[str, str]):
        self.folder, self.paths = folder, folder / "paths"
        self.paths.touch()
        (folder / "tools").mkdir()
        name = f"taskgraph-{VERSION}-linux-x86_64"
        with tarfile.open(folder / "tools" / f"{name}.tar.gz", "w:gz") as archive:
            archive.add(program.path, f"{name}/taskgraph")
        (folder / "graphs").mkdir()
        for document, text in documents.items():
            (folder / "graphs" / f"{document}.json").write_text(text, encoding="utf-8")

    def take_container(self, program: Program):
        """The image's file stands in place of the archive, and podman is there."""
        image = f"taskgraph-{VERSION}"
        (archive,) = (self.folder / "tools").glob("*.tar.gz")
        archive.rename(self.folder / "tools" / f"{image}-oci.tar")
        podman = self.folder / "engine/podman"
        podman.parent.mkdir()
        podman.write_text(PODMAN.format(image=image, version=VERSION, program=program.path), encoding="utf-8")
        podman.chmod(0o755)
        self.paths.write_text(f"{podman.parent}\n", encoding="utf-8")

    def run(self, step: str) -> Answer:
        """Runs a step, with the folders that earlier ones named."""
        path = [*self.paths.read_text(encoding="utf-8").splitlines(), os.environ["PATH"]]
        environment = {**os.environ, "PATH": ":".join(path), "GITHUB_PATH": str(self.paths)}
        words = ["bash", "--noprofile", "--norc", "-eo", "pipefail", "-c", step]
        ended = subprocess.run(
            words, cwd=self.folder, env=environment, capture_output=True, text=True, timeout=LIMIT, check=False
        )
        with self.paths.open("a", encoding="utf-8") as paths:
            paths.writelines(f"{match}\n" for match in PREPENDED.findall(ended.stdout))
        return Answer(ended.returncode, ended.stdout, ended.stderr)

    def reports(self) -> dict[str, tuple[int, int]]:
        """How many tests each report has, and how many failed."""
        suites = {path.stem: xml.etree.ElementTree.parse(path).getroot()[0] for path in (self.folder / "reports").glob("*.xml")}
        return {name: (int(it.get("tests", "")), int(it.get("failures", ""))) for name, it in suites.items()}

    def pages(self) -> dict[str, str]:
        """The first line of each page for a browser."""
        return {path.stem: path.read_text(encoding="utf-8").split("\n")[0] for path in (self.folder / "reports").glob("*.html")}


OF_DOCUMENTS = pytest.mark.parametrize(
    "documents, status, reports",
    [
        ({"one": HOLDS}, YES, {"one": (1, 0)}),
        ({"one": HOLDS, "two": FAILS}, NO, {"one": (1, 0), "two": (1, 1)}),
        ({"one": NO_DOCUMENT, "two": HOLDS}, NO, {"two": (1, 0)}),
    ],
    ids=["all-hold", "one-fails", "one-is-no-document"],
)


@pytest.mark.parametrize("steps", files().values(), ids=files())
@OF_DOCUMENTS
def test_steps(bare_program, tmp_path: Path, steps: list[str], documents: dict[str, str], status: int, reports: dict):
    runner = Runner(bare_program, tmp_path, documents)
    unpack, verify = steps
    assert runner.run(unpack).exit == YES
    check_verified(runner, runner.run(verify), documents, status, reports)


@pytest.mark.parametrize("steps", with_container(), ids=files())
@OF_DOCUMENTS
def test_steps_with_the_container(bare_program, tmp_path: Path, steps, documents: dict[str, str], status: int, reports: dict):
    runner = Runner(bare_program, tmp_path, documents)
    runner.take_container(bare_program)
    load, verify = steps
    loaded = runner.run(load)
    assert (loaded.exit, loaded.stdout.splitlines()[0]) == (YES, f"Loaded image: docker.io/library/taskgraph:{VERSION}")
    check_verified(runner, runner.run(verify), documents, status, reports)


def check_verified(runner: Runner, answer: Answer, documents: dict[str, str], status: int, reports: dict):
    """The step that verifies ended so, named each document, and left these reports, with a page for a browser beside each."""
    assert answer.exit == status, answer
    assert all(f"graphs/{document}.json" in answer.stdout for document in documents)
    assert ("claim 1 fails" in answer.stdout) == (FAILS in documents.values())
    assert runner.reports() == reports
    assert runner.pages() == {name: "<!doctype html>" for name in reports}


def test_each(bare_program, tmp_path: Path):
    """The documents of a folder on lines."""
    runner = Runner(bare_program, tmp_path, {"one": HOLDS, "three": FAILS, "two": NO_DOCUMENT})
    (command,) = [block.text for block in pages.blocks(PAGE) if block.kind == "sh"]
    for unpack in files().values():
        assert runner.run(unpack[0]).exit == YES
    answer = runner.run(command)
    assert answer.exit == NO
    assert [line.split()[:2] for line in answer.stdout.splitlines() if "claims" in line or "unreadable" in line] == [
        ["1", "0"],
        ["2", "1"],
        ["3", "3"],
    ]


@pytest.mark.parametrize("page", ["README.md", "docs/CI.md", "docs/FIRST-PIPELINE.md"])
def test_archive_is_that_of_the_version(page: str):
    text = (TOP / page).read_text(encoding="utf-8")
    assert set(re.findall(r"taskgraph-(\S+?)-linux-x86_64", text)) == {VERSION}
    assert set(re.findall(r"taskgraph(?:-|:)([0-9][0-9.]*[0-9])", text)) == {VERSION}
