"""Tests how the program is compiled, proved and chosen, with the prover: over a repository with a small program."""
import os
import re
import sys
import time

import pytest

from small_repository import called, create, root_of

SCRIPTS = ("taskgraph", "prove", ".ci/crates.py", ".ci/compile", ".ci/compiling.py")
LIBRARY = """//! A number.
#![tactic(auto)]

ghost use Rattle.std.specs.Prelude.{◌≡◌};

/// Forty-two.
pub fn answer() -> u64
    ensures { result ≡ 42 }
{
    42
}
"""
PROGRAM = """//! Writes a number.
#![tactic(auto)]

use low::answer;
use std::io;

fn main(rt: HostRuntime) -> io::Result<()> {
    println!(rt; "{}", answer())
}
"""
WRONG = LIBRARY.replace("    42\n", "    41\n")
SUFFIX = " (compiled, not proved on this machine)"


@pytest.fixture
def top(tmp_path):
    """A repository of a program over one library."""
    return create(tmp_path, {"low": ((), LIBRARY), "tpl_cli": (("low",), PROGRAM)}, SCRIPTS)


def test_from_the_sources_to_the_proved_program(top):
    # compiled, and told so once
    out, err, status = called(top, "taskgraph")
    assert (out, status) == ("42\n", 0), err
    assert re.fullmatch(r"taskgraph: compiling the program, .*\n", err)
    assert called(top, "taskgraph") == ("42\n", "", 0)
    assert called(top, "taskgraph", "--version") == (f"42{SUFFIX}\n", "", 0)
    # proved, and taken from then on
    _, err, status = called(top, "prove")
    assert status == 0, err
    assert called(top, "taskgraph", "--version") == ("42\n", "", 0)
    # a source that no longer keeps its contract is compiled, and never proved
    root_of(top, "low").write_text(WRONG)
    out, err, status = called(top, "taskgraph", "--version")
    assert (out, status) == (f"41{SUFFIX}\n", 0), err
    _, err, status = called(top, "prove")
    assert status == 1, err
    assert "the program isn't built" in err
    assert called(top, "taskgraph")[0] == "41\n"


def test_what_does_not_compile(top):
    root_of(top, "low").write_text(LIBRARY.replace("    42\n", "    forty_two\n"))
    out, err, status = called(top, "taskgraph")
    assert (out, status) == ("", 125), err
    assert "forty_two" in err
    assert err.endswith("./prove builds the proved one\n")


def test_a_machine_without_the_toolchain(top, monkeypatch):
    monkeypatch.setenv("PATH", f"{top}:/usr/bin:/bin")
    (top / "python3").symlink_to(sys.executable)
    out, err, status = called(top, "taskgraph")
    assert (out, status) == ("", 125), err
    assert "there is no command rattle" in err


def test_what_was_compiled_is_kept(top):
    program = top / "crates/tpl_cli/out/unproved"
    program.parent.mkdir()
    program.write_text("#!/bin/sh\necho kept\n")
    program.chmod(0o755)
    assert called(top, "taskgraph") == ("kept\n", "", 0)
    # a file that the program doesn't stand on may be newer
    other = top / "crates/other/src"
    other.mkdir(parents=True)
    (other / "lib.rt").write_text("")
    os.utime(other / "lib.rt", (time.time() + 60,) * 2)
    assert called(top, "taskgraph")[0] == "kept\n"
