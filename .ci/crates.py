"""The crates of crates.txt, the test programs of tests/programs.txt, and what each stands on."""
import functools
import os

TOP = os.path.dirname(os.path.dirname(os.path.realpath(__file__)))
# the folders of a crate that a check reads
PARTS = ("src", "specs", "proofs")
PROGRAM = "tpl_cli"


def uses_in(path):
    """The names at the heads of a list's lines, each with the libraries that its line names."""
    found = {}
    with open(path, encoding="utf-8") as file:
        for line in file:
            head, _, uses = line.partition("#")[0].partition(":")
            if head.strip():
                found[head.split()[0]] = uses.split()
    return found


@functools.lru_cache(maxsize=None)
def listed():
    """The crates of crates.txt, each with the libraries that its line names."""
    return uses_in(f"{TOP}/crates.txt")


@functools.lru_cache(maxsize=None)
def test_programs():
    """The test programs, which are compiled and never proved, each with the libraries that its line names."""
    path = f"{TOP}/tests/programs.txt"
    return uses_in(path) if os.path.isfile(path) else {}


def uses_of(name):
    """The libraries that the line of a crate or of a test program names."""
    return listed()[name] if name in listed() else test_programs()[name]


def folder_of(name):
    """The folder of a crate or of a test program."""
    return f"{TOP}/crates/{name}" if name in listed() else f"{TOP}/tests/{name}"


@functools.lru_cache(maxsize=None)
def below(name):
    """The repository's libraries below a crate or a test program, lowest first."""
    found = {}
    for library in uses_of(name):
        if library in listed():
            found.update(dict.fromkeys([*below(library), library]))
    return tuple(found)


def files_of(name):
    """The paths of a crate's files that a check reads, or of a test program's sources."""
    folders = (f"{folder_of(name)}/{part}" for part in PARTS)
    return [f"{at}/{file}" for folder in folders for at, _, files in os.walk(folder) for file in files]


def newest(names):
    """When a file of these crates or test programs, or a list of them, changed last."""
    lists = [item for item in (f"{TOP}/crates.txt", f"{TOP}/tests/programs.txt") if os.path.isfile(item)]
    return max(os.path.getmtime(path) for path in [*lists, *(path for name in names for path in files_of(name))])
