"""What the shims answer, asked by a small program that is made and called for each system as the program is."""
import pathlib
import re
from collections.abc import Iterator

import pytest

import targets
from callers import MACHINES, Caller
from modules import LINUX, Source

SMALL = pathlib.Path(__file__).resolve().parent / "small.c"
FLAGS = ("-std=gnu11", "-O1", "-ffreestanding", "-fPIE", "-fno-strict-aliasing", "-fno-discard-value-names")
NAMES = ("musl", "arm64", "windows", "wasm")
# the numbers of errors are Linux's on each system
EBADF, ETIMEDOUT = 9, 110
YES = 40
# a signal ends the program as a shell shows it: 128 and the number of SIGABRT, SIGILL, SIGTRAP or SIGSEGV
ABORTED, ILLEGAL, TRAPPED, OUT_OF_BOUNDS = 134, 132, 133, 139
# where there are no signals every such end is the first of these
TRAPS = {"musl": ILLEGAL, "arm64": TRAPPED}
FULL = {"musl": OUT_OF_BOUNDS, "arm64": OUT_OF_BOUNDS}
NONE, TOO_LONG = 41, 42


def compiled(room: pathlib.Path) -> Source:
    """The small program's module and object file, for Linux x86-64."""
    words = [targets.toolchain("clang"), f"--target={LINUX}", *FLAGS, SMALL]
    module, made = room / "small.ll", room / "small.o"
    # (as it is lowered: each system's program is optimised from there)
    targets.call(*words, "-Xclang", "-disable-llvm-passes", "-S", "-emit-llvm", "-o", module)
    targets.call(*words, "-c", "-o", made)
    # (the toolchain's modules have names for all values, and name no features of a processor)
    text = re.sub(r' "(target-features|tune-cpu)"="[^"]*"', "", module.read_text(encoding="utf-8"))
    module.write_text(re.sub(r"%(\d+)\b", r"%r\1", text), encoding="utf-8")
    return Source(module, made, LINUX, "")


@pytest.fixture(scope="module", params=NAMES)
def system(request) -> str:
    return request.param


@pytest.fixture(scope="module")
def small(system, tmp_path_factory) -> Iterator[Caller]:
    """The small program for a system."""
    target, machine = targets.TARGETS[system], MACHINES[system]
    if lacking := [*target.lacks(), *machine.lacks()]:
        pytest.skip(f"{', '.join(lacking)} can't be had here")
    room = tmp_path_factory.mktemp(system)
    target.make(compiled(room), room, room / target.program)
    with machine.caller(room / target.program) as caller:
        yield caller


def test_a_status_is_kept(small):
    assert small(["3"], b"").exit == 3


def test_an_abort(small):
    assert small(["abort"], b"").exit == ABORTED


def test_a_trap(small, system):
    assert small(["trap"], b"").exit == TRAPS.get(system, ABORTED)


def test_a_stack_that_is_full(small, system):
    assert small(["s"], b"").exit == FULL.get(system, ABORTED)


def test_the_stack_has_8_megabytes(small):
    assert small(["d"], b"").exit == YES


def test_bytes_stay_as_they_are(small):
    text = b"a\nb\r\nc\x1a\0\xff" * 1000
    answer = small(["copy"], text)
    assert (answer.exit, answer.stdout, answer.stderr) == (YES, text, b"")


def test_words(small):
    """One that doesn't fit has its length refused, and so has one that isn't there."""
    assert [small(words, b"").exit for words in (["länge"], ["12345678"], ["123456789"], [])] == [6, 8, TOO_LONG, NONE]


def test_memory_is_given_or_refused(small):
    assert small(["memory"], b"").exit == YES


def test_what_is_not_open_can_not_be_written(small):
    assert small(["x"], b"").exit == EBADF


def test_nothing_here_is_a_terminal(small):
    assert small(["is"], b"").exit == YES


@pytest.fixture
def with_threads(small, system) -> Caller:
    if not MACHINES[system].has_threads:
        pytest.skip(f"{system} has one thread")
    return small


def test_a_stack_of_a_thread_that_is_full(with_threads, system):
    assert with_threads(["S"], b"").exit == FULL.get(system, ABORTED)


def test_the_stack_of_a_thread_has_8_megabytes(with_threads):
    assert with_threads(["D"], b"").exit == YES


def test_a_thread_wakes_another(with_threads):
    assert with_threads(["wait"], b"").exit == YES


def test_a_wait_that_is_over(with_threads):
    assert with_threads(["vain"], b"").exit == ETIMEDOUT


def test_the_recipe_for_macos_links(tmp_path):
    """Nothing here can run what comes of it: a Mach-O file for 64 bits."""
    made = tmp_path / "small"
    targets.TARGETS["macos"].make(compiled(tmp_path), tmp_path, made)
    assert made.read_bytes()[:4] == b"\xcf\xfa\xed\xfe"
