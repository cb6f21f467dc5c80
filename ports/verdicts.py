#!/usr/bin/env python3
"""Has the toolchain prove the program for arm64, and prints the verdict. `rt ci` prints the one for Linux x86-64.

The program's crate is proved, over the libraries that ./prove or `rt ci` has proved; a verdict that is kept, and newer than
each source, is taken. With --write it is put into docs/PROOFS.md, in the place of the one for the same target.
"""
import argparse
import re
import sys

sys.dont_write_bytecode = True
import modules  # noqa: E402
from modules import ARM64, LINUX, TOP, VERDICT, NotKept, compiling  # noqa: E402

PAGE = TOP / "docs/PROOFS.md"
TARGET = re.compile(r" target=(\S+)")
QUOTED = re.compile(rf"^  {VERDICT}.*\n", re.M)
# what the page says while it has no verdict for a target
NONE = " There is none yet for `{}` of this version."


def target_of(verdict: str) -> str:
    """The target that a verdict names."""
    found = TARGET.search(verdict)
    if not found:
        raise ValueError(f"this verdict names no target: {verdict}")
    return found[1]


def with_verdict(text: str, verdict: str) -> str:
    """The page with a verdict, in the place of the one for the same target, or behind the others."""
    target, quoted = target_of(verdict), list(QUOTED.finditer(text))
    if not quoted:
        raise ValueError("the page quotes no verdict")
    own = [line for line in quoted if target_of(line[0]) == target]
    start, end = own[0].span() if own else (quoted[-1].end(), quoted[-1].end())
    return f"{text[:start]}  {verdict}\n{text[end:]}".replace(NONE.format(target), "")


def main() -> int:
    parser = argparse.ArgumentParser(description=__doc__, formatter_class=argparse.RawDescriptionHelpFormatter)
    parser.add_argument("--write", action="store_true", help="put it into docs/PROOFS.md")
    parser.add_argument("targets", nargs="*", default=[ARM64], metavar="TARGET", help=f"{LINUX} or {ARM64}, the usual one")
    given = parser.parse_args()
    text = PAGE.read_text(encoding="utf-8")
    for target in given.targets:
        try:
            verdict = modules.proved(target).verdict
        except (compiling.NotCompiled, NotKept) as why:
            print(f"ports/verdicts.py: {why}", file=sys.stderr)
            return 1
        print(verdict)
        text = with_verdict(text, verdict)
    if given.write:
        PAGE.write_text(text, encoding="utf-8")
    return 0


if __name__ == "__main__":
    sys.exit(main())
