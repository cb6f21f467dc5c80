#!/usr/bin/env python3
"""Writes the file `stdout` of the program: each question of each file is answered as expected."""
import pathlib

HERE = pathlib.Path(__file__).parent


def questions(file):
    """The lines of a file that ask something, counted from 1."""
    lines = (HERE / file).read_text(encoding="utf-8").split("\n")[:-1]
    return [number for number, line in enumerate(lines, 1) if not line.startswith(("=> ", "@ ", "#"))]


def main():
    files = [line.split(" ")[1] for line in (HERE / "files").read_text(encoding="ascii").splitlines()]
    checks = [f"{file}, line {number}: as expected" for file in files for number in questions(file)]
    text = "".join(f"{line}\n" for line in [*checks, f"{len(checks)} checks, 0 failed"])
    (HERE.parent / "stdout").write_text(text, encoding="ascii")


if __name__ == "__main__":
    main()
