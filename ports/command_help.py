#!/usr/bin/env python3
"""Writes the program's manual page and its completions for shells, from what its help says.

The files are taskgraph.1, taskgraph.bash, _taskgraph (zsh), taskgraph.fish and taskgraph.ps1 (PowerShell).
"""
import argparse
import dataclasses
import pathlib
import re
import subprocess
import sys
from collections.abc import Iterator

TOP = pathlib.Path(__file__).resolve().parent.parent
# a line of help about an option: its letter, its word, what stands for its value, and what is said of it
OPTION = re.compile(r"^ +(?:-(\w), )?--([\w-]+)(?: <(\w+)>)? +(\S.*)$", re.M)
COMMAND = re.compile(r"^  (\w+) +(\S.*)$", re.M)
# the words that an option takes, where what is said of it ends with them
WORDS = re.compile(r": ([\w-]+(?:, [\w-]+)* or [\w-]+)(?: \[default: \w+\])?$")
# a line of the table of exit statuses on the page of what the program writes
STATUS = re.compile(r"^\| (\d+) \| (.+) \|$", re.M)


@dataclasses.dataclass(frozen=True)
class Option:
    letter: str
    word: str
    value: str
    about: str

    @property
    def words(self) -> list[str]:
        """The words that it takes, if it takes only some."""
        found = WORDS.search(self.about)
        return re.split(", | or ", found[1]) if found else []

    @property
    def forms(self) -> list[str]:
        return [*([f"-{self.letter}"] if self.letter else []), f"--{self.word}"]


@dataclasses.dataclass(frozen=True)
class Command:
    """The program itself, which has no name here, or one of its commands."""

    name: str
    about: str
    options: tuple[Option, ...]
    example: str


@dataclasses.dataclass(frozen=True)
class Help:
    """What the program says of itself."""

    version: str
    whole: Command
    commands: tuple[Command, ...]


def command_of(name: str, text: str) -> Command:
    """A command by its help: what it does in the first line, its options, and an example in the last line."""
    about = text.split("\n", 1)[0]
    example = re.search(r"^Example: \./(.*)$", text, re.M)
    options = tuple(Option(*found) for found in OPTION.findall(text.partition("Options:\n")[2]))
    return Command(name, about, options, example[1] if example else "")


def help_of(program: pathlib.Path) -> Help:
    """What a program says of itself."""

    def said(*words: str) -> str:
        return subprocess.run([program, *words], stdin=subprocess.DEVNULL, capture_output=True, text=True, check=True).stdout

    whole = said("--help")
    listed = whole.partition("Commands:\n")[2].partition("\n\n")[0]
    commands = [command_of(name, said(name, "--help")) for name, _ in COMMAND.findall(listed) if name != "help"]
    return Help(said("--version").split()[1], command_of("", whole), tuple(commands))


# ---- the manual page


def roff(text: str) -> str:
    """A text as roff takes it."""
    text = text.replace("\\", "\\e").replace("-", "\\-").replace("'", "\\(aq").replace("`", "")
    return f"\\&{text}" if text.startswith((".", "\\(aq")) else text


def roff_of_options(options: tuple[Option, ...]) -> Iterator[str]:
    for option in options:
        forms = ", ".join(f"\\fB{roff(form)}\\fR" for form in option.forms)
        value = f" \\fI{option.value}\\fR" if option.value else ""
        yield f".TP\n{forms}{value}\n{roff(option.about)}"


def manual(said: Help) -> Iterator[str]:
    """The manual page, section by section."""
    yield f'.TH TASKGRAPH 1 "" "taskgraph {said.version}" "User Commands"'
    yield f".SH NAME\ntaskgraph \\- {roff(said.whole.about[0].lower() + said.whole.about[1:].partition(';')[0])}"
    yield ".SH SYNOPSIS\n.B taskgraph\n.I COMMAND\n.RI [ OPTIONS ]\n<\n.I document.json"
    yield f".SH DESCRIPTION\n{roff(said.whole.about)}"
    yield ".SH OPTIONS"
    yield from roff_of_options(said.whole.options)
    yield ".SH COMMANDS"
    for command in said.commands:
        yield f".SS {command.name}\n{roff(command.about)}."
        yield from roff_of_options(command.options)
    yield ".SH EXIT STATUS"
    for status, means in STATUS.findall((TOP / "docs/OUTPUT.md").read_text(encoding="utf-8").partition("\n## ")[0]):
        yield f".TP\n.B {status}\n{roff(means)}"
    yield ".SH EXAMPLES"
    for command in said.commands:
        yield f".nf\n{roff(command.example)}\n.fi"
    yield ".SH SEE ALSO\nThe pages README.md and docs/OUTPUT.md of the archive."


# ---- completions

BASH = """# taskgraph: completion for bash
_taskgraph() {{
    local word=${{COMP_WORDS[COMP_CWORD]}} before=${{COMP_WORDS[COMP_CWORD - 1]}} command=${{COMP_WORDS[1]}} words=
    if [ "$COMP_CWORD" -eq 1 ]; then
        words='{first}'
    else
        case "$command $before" in
{values}
        *)
            case "$command" in
{commands}
            help) words='{names}' ;;
            esac
            ;;
        esac
    fi
    mapfile -t COMPREPLY < <(compgen -W "$words" -- "$word")
}}
complete -o default -F _taskgraph taskgraph
"""


def forms_of(command: Command) -> str:
    return " ".join(form for option in command.options for form in option.forms)


def names_of(said: Help) -> str:
    return " ".join([*(command.name for command in said.commands), "help"])


def for_bash(said: Help) -> str:
    values = []
    for command in said.commands:
        for option in command.options:
            if option.value:
                values.append(f"        '{command.name} --{option.word}') words='{' '.join(option.words)}' ;;")
    commands = [f"            {command.name}) words='{forms_of(command)}' ;;" for command in said.commands]
    first = f"{names_of(said)} {forms_of(said.whole)}"
    return BASH.format(first=first, names=names_of(said), values="\n".join(values), commands="\n".join(commands))


ZSH = """#compdef taskgraph
# taskgraph: completion for zsh
_taskgraph() {{
    local -a commands
    commands=(
{commands}
    )
    if (( CURRENT == 2 )); then
        _describe command commands
        _arguments {whole}
        return
    fi
    local command=$words[2]
    shift words
    (( CURRENT -= 1 ))
    case $command in
{cases}
    help) _describe command commands ;;
    esac
}}
_taskgraph "$@"
"""


def zsh_text(text: str) -> str:
    """A text between single quotation marks, as _arguments and _describe take it."""
    return re.sub(r"([:\[\]])", r"\\\1", text).replace("'", "'\\''")


def zsh_of(option: Option) -> str:
    values = f":{option.value.lower()}:({' '.join(option.words)})" if option.value else ""
    return " ".join(f"'{form}{'=' if option.value else ''}[{zsh_text(option.about)}]{values}'" for form in option.forms)


def for_zsh(said: Help) -> str:
    about = [*((command.name, command.about) for command in said.commands), ("help", "Says what a command does")]
    commands = "\n".join(f"        '{name}:{zsh_text(text)}'" for name, text in about)
    cases = [f"    {command.name}) _arguments {' '.join(map(zsh_of, command.options))} ;;" for command in said.commands]
    return ZSH.format(commands=commands, whole=" ".join(map(zsh_of, said.whole.options)), cases="\n".join(cases))


def fish_text(text: str) -> str:
    return text.replace("\\", "\\\\").replace("'", "\\'")


def fish_of(option: Option, where: str) -> str:
    letter = f" -s {option.letter}" if option.letter else ""
    value = f" -x -a '{' '.join(option.words)}'" if option.value else ""
    return f"complete -c taskgraph -n '{where}'{letter} -l {option.word}{value} -d '{fish_text(option.about)}'"


def for_fish(said: Help) -> str:
    lines = ["# taskgraph: completion for fish", "complete -c taskgraph -f"]
    for command in said.commands:
        lines.append(f"complete -c taskgraph -n __fish_use_subcommand -a {command.name} -d '{fish_text(command.about)}'")
    lines.append("complete -c taskgraph -n __fish_use_subcommand -a help -d 'Says what a command does'")
    lines.append(f"complete -c taskgraph -n '__fish_seen_subcommand_from help' -a '{names_of(said)}'")
    lines += [fish_of(option, "__fish_use_subcommand") for option in said.whole.options]
    for command in said.commands:
        lines += [fish_of(option, f"__fish_seen_subcommand_from {command.name}") for option in command.options]
    return "\n".join([*lines, ""])


POWERSHELL = """# taskgraph: completion for PowerShell
Register-ArgumentCompleter -Native -CommandName taskgraph, taskgraph.exe -ScriptBlock {{
    param($word, $line, $place)
    $before = @($line.CommandElements | Where-Object {{ $_.Extent.EndOffset -lt $place }} | ForEach-Object {{ "$_" }})
    $commands = [ordered]@{{
{commands}
        'help' = @({names})
    }}
    $values = @{{
{values}
    }}
    $command = if ($before.Count -gt 1) {{ $before[1] }} else {{ '' }}
    $found = if ($before.Count -lt 2) {{ @($commands.Keys) + @({whole}) }}
        elseif ($values.ContainsKey("$command $($before[-1])")) {{ $values["$command $($before[-1])"] }}
        else {{ $commands[$command] }}
    $found | Where-Object {{ $_ -like "$word*" }} | ForEach-Object {{
        [System.Management.Automation.CompletionResult]::new($_, $_, 'ParameterValue', $_)
    }}
}}
"""


def quoted(words: list[str]) -> str:
    return ", ".join(f"'{word}'" for word in words)


def for_powershell(said: Help) -> str:
    commands = [f"        '{command.name}' = @({quoted(forms_of(command).split())})" for command in said.commands]
    values = [
        f"        '{command.name} --{option.word}' = @({quoted(option.words)})"
        for command in said.commands
        for option in command.options
        if option.value
    ]
    whole, names = quoted(forms_of(said.whole).split()), quoted(names_of(said).split())
    return POWERSHELL.format(commands="\n".join(commands), values="\n".join(values), whole=whole, names=names)


def files(said: Help) -> dict[str, str]:
    """Each file by its name."""
    return {
        "taskgraph.1": "\n".join(manual(said)) + "\n",
        "taskgraph.bash": for_bash(said),
        "_taskgraph": for_zsh(said),
        "taskgraph.fish": for_fish(said),
        "taskgraph.ps1": for_powershell(said),
    }


def main() -> int:
    parser = argparse.ArgumentParser(description=__doc__, formatter_class=argparse.RawDescriptionHelpFormatter)
    parser.add_argument("program", type=pathlib.Path, metavar="PROGRAM")
    parser.add_argument("folder", type=pathlib.Path, metavar="FOLDER")
    given = parser.parse_args()
    for name, text in files(help_of(given.program.resolve())).items():
        (given.folder / name).write_text(text, encoding="utf-8")
    return 0


if __name__ == "__main__":
    sys.exit(main())
