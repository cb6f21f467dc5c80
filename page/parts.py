"""The page's text: what stands before the answer, between the answer and the data, and behind the data."""

import base64
import hashlib
import os
import re

FOLDER = os.path.dirname(os.path.realpath(__file__))
# the scripts, in the order in which they come
SCRIPTS = (
    *("words", "document", "play", "causes", "audit", "groups", "layers", "elements", "choice"),
    *("graph", "view", "paint", "lanes", "claims", "cases", "details", "task", "print", "page"),
)
ANSWER, DATA = "@ANSWER@", "@DATA@"
# the source that is made of the parts
SOURCE = os.path.join(os.path.dirname(FOLDER), "crates/tpl_page/src/template.rt")
SAYS = {
    "HEAD": "What stands before the answer: the page's head with its style, and the body without what scripts add.",
    "MIDDLE": "What stands between the answer and the data.",
    "TAIL": "What stands behind the data: the scripts.",
}


def read(name: str) -> str:
    with open(f"{FOLDER}/{name}", encoding="utf-8") as file:
        return file.read()


def lines_of(text: str) -> list[str]:
    """The lines of the text without those that are a remark or empty, and without what they are indented by. (No text of the
    page goes over lines: no template of a script, and no `pre` but for what is put in.)"""
    is_remark = re.compile(r"//|/\*.*\*/$").match
    return [line.strip() for line in text.splitlines() if line.strip() and not is_remark(line.strip())]


def squeezed(line: str) -> str:
    """A script's line without the blanks around its signs. What stands in quotes stays as it is, and so does a line that has a
    template inside another."""
    if re.search(r"\$\{[^}]*`", line):
        return line
    signs = r'("(?:[^"\\]|\\.)*"|`[^`]*`)|\s*([{}()\[\],;:=<>?&|])\s*'
    return re.sub(signs, lambda found: found[1] or found[2], line)


def joined(lines: list[str]) -> str:
    """The lines as one text. No line break stands behind a sign from which the next line goes on, or before one that closes; nor
    does a sign stand there that parts what comes before from what comes after."""
    return re.sub(r"[,;]?\n(?=[})\]])|(?<=[{(\[,;:=>?&|])\n", "", "\n".join(lines))


def script() -> str:
    """All scripts as one, which leaves no name behind."""
    lines = [squeezed(line) for name in SCRIPTS for line in lines_of(read(f"scripts/{name}.js"))]
    return joined(['"use strict";', "(() => {", *lines, "})();", ""])


def style() -> str:
    signs = re.compile(r":\s+|\s*([{};,])\s*")
    return joined([signs.sub(lambda found: found[1] or ":", line) for line in lines_of(read("style.css"))])


def checksum(text: str) -> str:
    """The text's checksum, as a Content-Security-Policy names it."""
    return "sha256-" + base64.b64encode(hashlib.sha256(text.encode()).digest()).decode()


def parts() -> tuple[str, str, str]:
    """The head, the middle and the tail."""
    rules, program = style(), script()
    known = {"@STYLE-HASH@": checksum(rules), "@SCRIPT-HASH@": checksum(program), "@STYLE@": rules, "@SCRIPT@": program}
    template = "\n".join([*lines_of(read("template.html")), ""])
    # (one pass, so that what is put in is never looked at again)
    whole = re.sub("|".join(known), lambda found: known[found[0]], template)
    head, rest = whole.split(ANSWER)
    middle, tail = rest.split(DATA)
    return head, middle, tail


def source() -> str:
    """The source of the crate tpl_page that has the parts."""
    named = zip(SAYS.items(), parts())
    constants = [f"/// {says}\npub(crate) const {name}: &str = {literal(text)};\n" for (name, says), text in named]
    return "\n".join(["//! The parts of the page. Made by page/make of the files of page/: change those.\n", *constants])


def literal(text: str) -> str:
    """The text as a raw literal of Rattle."""
    fence = next(fence for fence in ("#" * count for count in range(1, 9)) if f'"{fence}' not in text)
    return f'r{fence}"{text}"{fence}'
