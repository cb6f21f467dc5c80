"""The options of the tests of this folder, and the compiled tests that they share."""
import pathlib

import pytest

from mono import Suite, have_mono, library

TOP = pathlib.Path(__file__).resolve().parent.parent


def pytest_addoption(parser):
    group = parser.getgroup("taskgraph")
    group.addoption("--program", type=pathlib.Path, default=TOP / "taskgraph", help="the program (%(default)s)")
    group.addoption("--times", type=int, default=1, metavar="N", help="so many times as many runs")


@pytest.fixture(scope="session")
def suite(pytestconfig, tmp_path_factory):
    missing = have_mono()
    if missing:
        pytest.skip(missing)
    program, times = (pytestconfig.getoption(option) for option in ("--program", "--times"))
    return Suite(program.resolve(), tmp_path_factory.mktemp("library"), times)


@pytest.fixture(scope="session")
def tests(suite):
    return suite.compile("tests.exe", library())
