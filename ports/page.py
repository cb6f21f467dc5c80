#!/usr/bin/env python3
"""Writes the page that has the program in it: one file, which needs no server and no network."""
import argparse
import base64
import json
import pathlib
import sys
from collections.abc import Iterator

sys.dont_write_bytecode = True
from archives import gzipped  # noqa: E402
from command_help import Help, help_of  # noqa: E402

HERE = pathlib.Path(__file__).resolve().parent
TOP = HERE.parent
PARTS = HERE / "page"
# what can be asked, beside the styles of `verify`: the page has one thread
ASKED = ("check --explain", "analyse --whole", "refute", "audit --explain", "draw", "draw --as dot", "trace")


def described(schema: object) -> Iterator[tuple[str, str]]:
    """Each member that a schema describes, with what it says of it."""
    if isinstance(schema, dict):
        for name, member in schema.get("properties", {}).items():
            if isinstance(member, dict) and "description" in member:
                yield name, member["description"]
        for value in schema.values():
            yield from described(value)
    elif isinstance(schema, list):
        for value in schema:
            yield from described(value)


def described_words() -> dict[str, list[str]]:
    """What the schema says of each member, each sentence once."""
    schema = json.loads((TOP / "schema/taskgraph.schema.json").read_text(encoding="utf-8"))
    found: dict[str, list[str]] = {}
    for name, text in described(schema):
        if text not in found.setdefault(name, []):
            found[name].append(text)
    return found


def commands(said: Help) -> dict[str, list[str]]:
    """The words of each command that can be asked, first the style of `verify` that is for people to look at."""
    verify = next(command for command in said.commands if command.name == "verify")
    styles = next(option for option in verify.options if option.word == "as").words
    pages = ["verify --as html"] if "html" in styles else []
    verifies = [*pages, "verify --explain", *(f"verify --as {style}" for style in styles if style not in ("html", "text"))]
    asked = {words: words.split() + ["--jobs", "1"] for words in verifies}
    return {**asked, **{words: words.split() for words in ASKED}}


def as_script(name: str, value: object) -> str:
    """A value as a constant of the script. The sign < could end the script."""
    return f"const {name} = {json.dumps(value, ensure_ascii=False)};".replace("<", "\\u003c")


def page(program: bytes, said: Help, kind: str) -> str:
    """The page of a program for WASI, by what the same program says of itself; it is the proved one, or the unproved one."""
    examples = {file.stem: file.read_text(encoding="utf-8") for file in sorted((TOP / "examples").glob("*.json"))}
    data = {"EXAMPLES": examples, "COMMANDS": commands(said), "WORDS": described_words()}
    parts = {
        "VERSION": said.version,
        "KIND": kind,
        "STYLE": (PARTS / "page.css").read_text(encoding="utf-8").strip(),
        "WORKER": (PARTS / "worker.js").read_text(encoding="utf-8").strip(),
        "SCRIPT": (PARTS / "page.js").read_text(encoding="utf-8").strip(),
        "DATA": "\n".join(as_script(name, value) for name, value in data.items()),
        "PROGRAM": base64.b64encode(gzipped(program)).decode(),
    }
    text = (PARTS / "page.html").read_text(encoding="utf-8")
    for name, value in parts.items():
        text = text.replace(f"@{name}@", value)
    return text


def main() -> int:
    parser = argparse.ArgumentParser(description=__doc__, formatter_class=argparse.RawDescriptionHelpFormatter)
    parser.add_argument("wasm", type=pathlib.Path, metavar="PROGRAM.wasm")
    parser.add_argument("program", type=pathlib.Path, metavar="PROGRAM", help="the same program for this machine")
    parser.add_argument("page", type=pathlib.Path, metavar="PAGE.html")
    given = parser.parse_args()
    kind = "unproved" if given.program.name == "unproved" else "proved"
    text = page(given.wasm.read_bytes(), help_of(given.program.resolve()), kind)
    given.page.write_text(text, encoding="utf-8")
    return 0


if __name__ == "__main__":
    sys.exit(main())
