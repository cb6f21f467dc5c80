"""The options of the tests of this folder."""
import pathlib

PROVED = pathlib.Path(__file__).resolve().parent.parent / "crates/tpl_cli/out/tpl_cli"


def pytest_addoption(parser):
    group = parser.getgroup("taskgraph")
    group.addoption("--program", type=pathlib.Path, default=PROVED, help="the program that is packed (%(default)s)")
    group.addoption("--release", action="store_true", help="make all files as a release has them, and prove what that needs")
