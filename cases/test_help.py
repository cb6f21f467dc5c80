"""The least and the most that help names for an option are the least and the most that the program takes; and where an option
or a command is wrong, what helps names those that there are."""
import re

import pytest

from harness import COMMANDS, USAGE

# a line of help about an option for a number: the least that it may be, if that is said, and the most
LIMITS = re.compile(r"^ +--(\w+) <N> .*?(?:(\d+) to|at most) (\d+)", re.MULTILINE)
# a line of help about an option
OPTION = re.compile(r"^ +(?:-\w, )?--(\w+)\b", re.MULTILINE)
# what helps where an option belongs to other commands
ONLY = re.compile(r"^  tip: '--(\w+)' is taken only by (.+)$", re.MULTILINE)
# words that name no command, by the command that helps
MEANT = {
    "verify": "validate lint test assert ask prove certify solve search report html json junit",
    "analyse": "prove certify solve search",
    "check": "validate lint",
    "draw": "show graph plot view render dot mermaid",
    "run": "simulate execute exec play",
    "refute": "falsify disprove fuzz",
    "--explain": "explain why",
    "--version": "version",
}


@pytest.mark.parametrize("command", COMMANDS)
def test_help_names_the_limits_of_numbers(program, command):
    said = program(command, "--help").stdout
    limits = LIMITS.findall(said)
    assert len(limits) == said.count("<N>")
    # some options are taken only with this one
    beside = ["--each"] if "--each" in said else []
    for option, least, most in limits:
        first, last = int(least or 0), int(most)
        taken = {
            number: program(command, *beside, f"--{option}={number}").exit != USAGE
            for number in (first - 1, first, last, last + 1)
        }
        assert taken == {first - 1: False, first: True, last: True, last + 1: False}, option


def test_tips_name_the_commands_that_have_an_option(program):
    has = {command: set(OPTION.findall(program(command, "--help").stdout)) for command in COMMANDS}
    common = set.intersection(*has.values())
    assert common == {"explain", "help"}
    for option in set.union(*has.values()) - common:
        owners = [command for command in COMMANDS if option in has[command]]
        for command in set(COMMANDS) - set(owners):
            answer = program(command, f"--{option}")
            ((named, said),) = ONLY.findall(answer.stderr)
            assert (answer.exit, answer.stdout, named) == (USAGE, "", option)
            assert re.sub(r", | and ", " ", said) == " ".join(f"'{owner}'" for owner in owners)


@pytest.mark.parametrize("meant, word", [(meant, word) for meant, words in MEANT.items() for word in words.split()])
def test_tips_name_the_command_that_is_meant(program, meant, word):
    answer = program(word)
    (first, *_) = [line for line in answer.stderr.splitlines() if line.startswith("  tip: ")]
    assert (answer.exit, answer.stdout) == (USAGE, "")
    assert re.search(rf"'{meant}\b", first)
