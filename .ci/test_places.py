"""Tests that CONTRIBUTING.md names what else to touch: each crate whose code, definitions or proofs tell the cases apart of
what is added, and only files that there are. And that ARCHITECTURE.md says where each crate and each command stands."""
import os
import re

import pytest

from crates import TOP, files_of, listed

# the crate that only plays what is fixed
PLAYS = {"tpl_examples"}
# how a text tells the cases apart, by one that all have to tell from the others
CASES = {
    "an option word": r"\blazy_cancellation\b",
    "a claim": r"\bProperty::Runs\b|\bProperty\.TheVariants\.\{[^}]*\bRuns\b",
    "a statement": r"\bStmt::[A-Z]|\bDraftStmt::[A-Z]|\bStatements\.\{[^}]*\bObserve\b",
}


def section():
    """What the page says of what else to touch."""
    with open(f"{TOP}/CONTRIBUTING.md", encoding="utf-8") as file:
        return file.read().partition("\n## What else to touch\n")[2].partition("\n## ")[0]


def paragraph(added):
    """What it says of one thing that is added."""
    return re.search(rf"(?m)^To add \*\*{added}\*\*.*$", section())[0]


def stated(name):
    """The files of a crate that say what it does and why: its code, its definitions and its proofs."""

    def part(path):
        return os.path.relpath(path, f"{TOP}/crates/{name}").split("/")[0]

    return [each_path for each_path in files_of(name) if part(each_path) in ("src", "specs", "proofs")]


def tells(name, cases):
    """Whether a crate's code, definitions or proofs tell the cases apart."""
    for path in stated(name):
        with open(path, encoding="utf-8") as file:
            if re.search(cases, file.read()):
                return True
    return False


@pytest.mark.parametrize("added", CASES)
def test_crates_are_named(added):
    telling = {crate for crate in listed() if tells(crate, CASES[added])} - PLAYS
    assert len(telling) > 5
    assert sorted(telling - set(re.findall(r"\btpl_\w+", paragraph(added)))) == []


def level(name):
    """How many crates the longest chain of those below a crate has, and the crate itself."""
    return 1 + max((level(library) for library in listed()[name] if library in listed()), default=0)


def test_each_crate_stands_in_the_drawing():
    """The drawing of ARCHITECTURE.md names each crate at its level. A line without a number belongs to the one above."""
    with open(f"{TOP}/docs/ARCHITECTURE.md", encoding="utf-8") as file:
        drawing = file.read().partition("```\nlevel\n")[2].partition("```")[0]
    drawn, number = {}, ""
    for line in drawing.splitlines():
        number = line[:5].strip() or number
        drawn.update(dict.fromkeys(re.findall(r"tpl_\w+", line), int(number)))
    assert drawn == {name: level(name) for name in listed()}


def promises():
    """The rows of PROOFS.md that name a clause and a file."""
    with open(f"{TOP}/docs/PROOFS.md", encoding="utf-8") as file:
        return re.findall(r"(?m)^\| .* \| (.*`.*) \| (.*`.*) \|$", file.read())


def test_there_are_promises():
    assert len(promises()) > 50


@pytest.mark.parametrize("clauses, files", promises())
def test_promises_stand_where_it_is_said(clauses, files):
    """Each file is there, and has a function, a type or a clause that is named beside it."""
    named = re.findall(r"`(?:\w+::)*(\w+)`", clauses)
    for path in re.findall(r"`([^`]+)`", files):
        with open(f"{TOP}/crates/{path}", encoding="utf-8") as file:
            text = file.read()
        name = os.path.splitext(os.path.basename(path))[0]
        assert name in named or any(re.search(rf"\b{word}\b", text) for word in named), path


def commands():
    """The rows of the table of commands: a crate, and what is said of its files."""
    with open(f"{TOP}/docs/ARCHITECTURE.md", encoding="utf-8") as file:
        return re.findall(r"(?m)^\| .* \| `(tpl_\w+)` \| (`src/.*) \|$", file.read())


def test_there_are_commands():
    assert len(commands()) > 9


@pytest.mark.parametrize("crate, said", commands())
def test_commands_stand_where_it_is_said(crate, said):
    """The files are there and have the functions that are named behind them."""
    for path, functions in re.findall(r"`(src/[\w/]+\.rt)`(?: \(([^)]*)\))?", said):
        with open(f"{TOP}/crates/{crate}/{path}", encoding="utf-8") as file:
            text = file.read()
        for function in re.findall(r"`(\w+)`", functions):
            assert f"fn {function}" in text, (path, function)


@pytest.mark.parametrize("added", CASES)
def test_files_are_there(added):
    """A file's name is that of one of the crate that was named last, of a page, or of one of the repository."""
    named, crate = re.findall(r"`([^`]+)`|(\bdocs/[\w-]+\.md)", paragraph(added)), ""
    assert named
    for code, page in named:
        path = page or code
        if code.startswith("tpl_"):
            crate, _, path = code.partition("/")
        if "/" in path and not page:
            assert any(os.path.exists(f"{TOP}/{item}{path}") for item in (f"crates/{crate}/", "")), (crate, path)
        elif page:
            assert os.path.exists(f"{TOP}/{page}"), page
