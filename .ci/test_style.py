"""All Python here is as Debian's checkers want it: pycodestyle, pyflakes, isort, black and mypy, each skipped where it isn't
installed."""
import os
import subprocess

import pytest

from crates import TOP

PYTHON = "/usr/bin/python3"
LONGEST = 130
# folders of what is made, and of what git keeps
LEFT_OUT = {".git", "__pycache__", "crates", "out"}
# the paragraphs of a page, a line each
PAGES = {".ci/trusted"}
# black puts a space before the colon of a slice, and begins a line with an operator
TAKEN = "E203,W503"


def is_python(path: str) -> bool:
    """The file is a Python script, by its name or its first line."""
    if path.endswith(".py"):
        return True
    with open(path, "rb") as file:
        return os.access(path, os.X_OK) and b"python3" in file.readline()


def scripts() -> list[str]:
    """The paths of all Python files, below the top."""
    found = []
    for folder, folders, files in os.walk(TOP):
        folders[:] = sorted(set(folders) - LEFT_OUT)
        found += [f"{folder}/{file}" for file in sorted(files)]
    return [os.path.relpath(path, TOP) for path in found if not os.path.islink(path) and is_python(path)]


def said(module: str, *words: str) -> str:
    """What a checker says of something, or nothing. Where it isn't installed, the test is skipped."""
    known = subprocess.run([PYTHON, "-c", f"import {module}"], stderr=subprocess.DEVNULL, check=False)
    if known.returncode:
        pytest.skip(f"{module} isn't installed")
    ran = subprocess.run([PYTHON, "-m", module, *words], cwd=TOP, capture_output=True, text=True, check=False)
    return ran.stdout + ran.stderr if ran.returncode else ""


def test_scripts_are_found():
    assert {"test", "prove", ".ci/test_style.py", "cases/harness.py"} <= set(scripts())


def test_pycodestyle():
    words = (f"--max-line-length={LONGEST}", f"--ignore={TAKEN}")
    assert said("pycodestyle", *words, *(path for path in scripts() if path not in PAGES)) == ""
    assert said("pycodestyle", f"--ignore={TAKEN},E501", *PAGES) == ""


def test_pyflakes():
    assert said("pyflakes", *scripts()) == ""


def test_isort():
    assert said("isort", "--check", *scripts()) == ""


def test_black():
    assert said("black", "--check", "--quiet", "--diff", *scripts()) == ""


@pytest.mark.parametrize("folder", ["cases/", ".ci/", "ports/"])
def test_mypy(folder):
    """Each folder by itself: files of two folders may have one name."""
    together = [path for path in scripts() if path.startswith(folder) and path.endswith(".py")]
    assert said("mypy", "--no-error-summary", *together) == ""
