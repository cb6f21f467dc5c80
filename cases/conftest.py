"""The options and fixtures of the tests of this folder."""
import functools
import pathlib
from collections.abc import Iterator

import pytest

from chromium import Browser, browser, why_not_there
from harness import PROGRAM, RUNS, TOP, Program, built, shared_library

pytest.register_assert_rewrite("pages")


def pytest_addoption(parser):
    group = parser.getgroup("taskgraph")
    group.addoption("--program", type=pathlib.Path, help="the program; the script `taskgraph` at the top, if none is named")
    group.addoption("--runs", type=pathlib.Path, help="the test program of tests/sessions; the last that was built")
    group.addoption("--release", action="store_true", help="make the page of the program as a release has it")
    group.addoption("--first", type=int, default=0, metavar="N", help="the first number by which graphs are drawn by chance")
    group.addoption("--times", type=int, default=1, metavar="N", help="draw so many times as many graphs")


def pytest_configure(config):
    config.addinivalue_line("markers", "drawn(count): called so often, with a `number` by which something is drawn by chance")


def pytest_generate_tests(metafunc):
    drawn = metafunc.definition.get_closest_marker("drawn")
    if drawn:
        first, times = (metafunc.config.getoption(word) for word in ("--first", "--times"))
        metafunc.parametrize("number", range(first, first + drawn.args[0] * times))


@pytest.fixture(scope="session")
def program(pytestconfig) -> Program:
    """The program that is tested."""
    return Program((pytestconfig.getoption("--program") or TOP / "taskgraph").resolve())


@pytest.fixture(scope="session")
def bare_program(pytestconfig) -> Program:
    """The program itself, where the script `taskgraph` won't do: a library is loaded into it."""
    return Program((pytestconfig.getoption("--program") or built(PROGRAM)).resolve())


@pytest.fixture(scope="session")
def runs(pytestconfig) -> Program:
    """The test program that runs graphs by threads."""
    return Program((pytestconfig.getoption("--runs") or built(RUNS)).resolve())


@pytest.fixture(scope="session")
def library(tmp_path_factory):
    """Builds a C file of this folder as a library that the program loads before the C library; gives its path."""
    return functools.cache(functools.partial(shared_library, tmp_path_factory.mktemp("libraries")))


@pytest.fixture(scope="module")
def chromium() -> Iterator[Browser]:
    """The browser, installed if that can be."""
    if why := why_not_there():
        pytest.skip(why)
    with browser() as opened:
        yield opened
