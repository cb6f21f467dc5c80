#!/usr/bin/env python3
"""Counts what `check` costs: instructions beside those of a plain program that only reads the same bytes by Rust's
serde_json, and the most memory that it takes. With --explained, what each command costs with and without --explain; with
--least, what `check` costs in version 3 with the rows of each leaf and without them.

It wants Debian's packages valgrind and librust-serde-json-dev, and cargo; with --explained or --least, valgrind alone.
Instructions hardly differ from run to run, so one run is enough. It is a measurement and no test: nothing fails where a
number is large.
"""
import argparse
import json
import pathlib
import re
import subprocess
import sys
import tempfile

from documents import COUNTED, LONGEST, sized, text_of
from harness import HERE, PROGRAM, built
from hostile import cost_of

# where Debian's packages put the sources of Rust's crates
REGISTRY = "/usr/share/cargo/registry"
# how long an answer may take, in seconds of a processor
PATIENCE = 600
# each command as it is counted with and without --explain: by one thread, with few tries
EXPLAINED = {
    "check": ["check"],
    "analyse": ["analyse", "--depth", "1"],
    "verify": ["verify", "--jobs", "1", "--depth", "0", "--runs", "10"],
    "audit": ["audit"],
    "trace": ["trace"],
    "draw": ["draw"],
    "refute": ["refute", "--runs", "10"],
    "run": ["run", "--workers", "1"],
}


def plain_program(folder):
    """Builds the plain program, and returns its path."""
    words = ["cargo", "build", "--release", "--offline", "--quiet", "--target-dir", folder]
    words += ["--config", 'source.crates-io.replace-with="debian"']
    words += ["--config", f'source.debian.directory="{REGISTRY}"']
    try:
        subprocess.run([*words, "--manifest-path", str(HERE / "plain_reader" / "Cargo.toml")], check=True)
    finally:
        (HERE / "plain_reader" / "Cargo.lock").unlink(missing_ok=True)
    return f"{folder}/release/plain"


def instructions(words, given):
    """How many instructions a program needs with this file as its standard input."""
    with open(given, "rb") as stdin:
        done = subprocess.run(
            ["valgrind", "--tool=callgrind", "--callgrind-out-file=/dev/null", *words],
            stdin=stdin,
            stdout=subprocess.DEVNULL,
            stderr=subprocess.PIPE,
            text=True,
            check=False,
        )
    return int(re.search(r"Collected : (\d+)", done.stderr).group(1))


def peak(words, given):
    """The most memory that a program takes with this file as its standard input, in bytes."""
    program, *others = map(str, words)
    return cost_of(program, others, given.read_text(encoding="utf-8"), PATIENCE).memory


def small_objects():
    """Documents as long as may be that are all small objects."""
    base = {"version": 1, "tasks": [{"name": "a", "kind": "root", "body": []}], "claims": [{"never": "a"}]}
    row = {"ends": [], "runs": True}
    yield "trees", {**base, "certificate": []}, '"certificate":[', {"rows": []}
    yield "claims", {**base, "claims": []}, '"claims":[', {"never": "a"}
    yield "rows", {**base, "certificate": [{"rows": []}]}, '"rows":[', row
    yield "objects", {**base, "certificate": []}, '"certificate":[', {"": 0}


def filled(document, place, element):
    """The text of the document with as many of the element at the place as fit."""
    text, one = (json.dumps(item, separators=(",", ":")) for item in (document, element))
    at = text.index(place) + len(place)
    return text[:at] + ",".join([one] * ((LONGEST - len(text)) // (len(one) + 1))) + text[at:]


def small_texts():
    """The texts of documents as long as may be that are all small objects, by name."""
    return {name: filled(document, place, element) for name, document, place, element in small_objects()}


def counted_texts():
    """The texts of the counted documents, by name."""
    return {name: text_of(sized(counted)) for name, counted in COUNTED.items()}


def written(texts, folder):
    """Writes each text, and gives its name, its file and how long it is."""
    for name, text in texts.items():
        file = pathlib.Path(folder, f"{name}.json")
        file.write_text(text, encoding="utf-8")
        yield name, file, file.stat().st_size


def tell_explained(named, folder):
    """Says of each command what it costs on each counted document and on one of 16 MB, without and with --explain."""
    for name, file, _ in written({**counted_texts(), "rows": small_texts()["rows"]}, folder):
        for command, words in EXPLAINED.items():
            ways = [[named, *words], [named, *words, "--explain"]]
            (plainly, explained), (least, most) = ([count(way, file) for way in ways] for count in (instructions, peak))
            said = f"instructions {plainly} and {explained}, ratio {explained / plainly:.2f}, memory {least} and {most}"
            print(f"{name}: {command}: {said}", flush=True)


def without_rows(tree):
    """The same tree, whose leaves leave their rows out."""
    if "rows" in tree:
        return "least"
    return {name: without_rows(it) if isinstance(it, dict) else it for name, it in tree.items()}


def as_version_3():
    """The texts of the counted documents as documents of version 3, with rows and without them, by name."""
    for name, counted in COUNTED.items():
        document = {**sized(counted), "version": 3}
        yield name, text_of(document)
        least = [without_rows(item) for item in document.get("certificate", [])]
        yield f"{name} without rows", text_of({**document, "certificate": least})


def tell_least(named, folder):
    """Says what `check` costs on each counted document in version 3, with the rows of its leaves and without them."""
    for name, file, size in written(dict(as_version_3()), folder):
        print(f"{name}: {size} bytes, check {instructions([named, 'check'], file)}", flush=True)


def tell_checked(named, folder):
    """Says what `check` costs on each counted document, and what memory on those that are all small objects."""
    plain = plain_program(folder)
    for name, file, size in written(counted_texts(), folder):
        least, ours = instructions([plain, file], file), instructions([named, "check"], file)
        memory = peak([named, "check"], file)
        print(f"{name}: {size} bytes, plain {least}, check {ours}, ratio {ours / least:.2f}, memory {memory}")
    for name, file, size in written(small_texts(), folder):
        memory = peak([named, "check"], file)
        print(f"{name}: {size} bytes, memory {memory}, {memory / size:.1f} for each byte")


def main() -> int:
    parser = argparse.ArgumentParser(description=__doc__, formatter_class=argparse.RawDescriptionHelpFormatter)
    parser.add_argument("--program", type=pathlib.Path, default=built(PROGRAM), help="the program (%(default)s)")
    what = parser.add_mutually_exclusive_group()
    explained = "counts each command with and without --explain"
    what.add_argument("--explained", action="store_const", const=tell_explained, help=explained)
    what.add_argument("--least", action="store_const", const=tell_least, help="counts version 3 with rows and without them")
    given = parser.parse_args()
    with tempfile.TemporaryDirectory() as folder:
        (given.explained or given.least or tell_checked)(given.program, folder)
    return 0


if __name__ == "__main__":
    sys.exit(main())
