"""What hostile.py asks: dear documents, a small stack, a full file, and valgrind."""
import pytest

import hostile


@pytest.mark.parametrize("dear", hostile.DEAR, ids=lambda letter: f"{letter.words[0]}, {letter.name}")
def test_cost(bare_program, dear):
    assert hostile.dearness(bare_program.path, dear) is None


def test_each_command_has_a_stack():
    """docs/OUTPUT.md names one for each command, at most 2.1 MB."""
    stacks = hostile.needed_stacks()
    assert {stack[0] for stack in stacks} == set(hostile.COMMANDS)
    assert max(stacks.values()) <= 2100


@pytest.mark.parametrize("words, size", hostile.needed_stacks().items(), ids=str)
@pytest.mark.parametrize("name", hostile.SHORT)
def test_small_stack(bare_program, words, size, name):
    assert hostile.overflow(bare_program.path, words, size, name) is None


@pytest.mark.parametrize("command", hostile.COMMANDS)
def test_full_file(command):
    assert hostile.unwritten(hostile.PROGRAM, command) is None


@pytest.fixture(scope="session")
def valgrind():
    if not hostile.has_valgrind():
        pytest.skip("valgrind isn't installed and can't be")


@pytest.mark.usefixtures("valgrind")
@pytest.mark.parametrize("command", hostile.COMMANDS)
@pytest.mark.parametrize("file", hostile.small_examples(), ids=lambda letter: letter.name)
def test_valgrind_finds_nothing(bare_program, command, file):
    assert hostile.strays(bare_program.path, command, file) is None
