"""Mono, which compiles and runs the library of this folder for its tests."""
import concurrent.futures
import json
import os
import pathlib
import shutil
import subprocess

HERE = pathlib.Path(__file__).resolve().parent
TOP = HERE.parent
# in seconds; a machine that is busy may take fifty times as long as another one
LONGEST_WAIT = 600


class Failure(Exception):
    """What goes wrong before anything is tested."""


def processors():
    return len(os.sched_getaffinity(0))


def have_mono():
    """Why Mono can't be had, or None. Installs it where this may be done."""
    if shutil.which("mcs") and shutil.which("mono"):
        return None
    if not shutil.which("apt-get") or os.geteuid() != 0:
        return "mcs and mono are not installed, and can't be installed here"
    for words in (["update"], ["install", "-y", "mono-mcs", "mono-runtime"]):
        quiet = {**os.environ, "DEBIAN_FRONTEND": "noninteractive"}
        if subprocess.run(["apt-get", *words], env=quiet, stdin=subprocess.DEVNULL, capture_output=True, check=False).returncode:
            return f"apt-get {' '.join(words)} failed"
    return None if shutil.which("mcs") and shutil.which("mono") else "apt-get installed no mcs and mono"


def compiled(target, *sources):
    """Compiles a program as C# 7."""
    words = ["mcs", "-langversion:7", "-warn:4", "-warnaserror", "-optimize+", f"-out:{target}", *map(str, sources)]
    made = subprocess.run(words, stdin=subprocess.DEVNULL, capture_output=True, text=True, check=False)
    if made.returncode:
        raise Failure(f"{target} can't be compiled:\n{made.stdout}{made.stderr}")
    return target


def library():
    return sorted((HERE / "src").glob("*.cs"))


class Suite:
    """The compiled tests, and the program that they ask."""

    def __init__(self, program, folder, times):
        self.program, self.folder, self.times = program, pathlib.Path(folder), times
        # the library takes several words too, and any locale
        self.environment = {**os.environ, "LC_ALL": "C", "TASKGRAPH": f"env LC_ALL=C {program}"}

    def compile(self, name, sources):
        others = (path for part in ("tests", "samples") for path in sorted((HERE / part).glob("*.cs")))
        return compiled(self.folder / name, *sources, *others)

    def ran(self, program, *words, given=""):
        """What a compiled program writes."""
        ended = subprocess.run(
            ["mono", str(program), *map(str, words)],
            input=given,
            env=self.environment,
            capture_output=True,
            text=True,
            timeout=LONGEST_WAIT * self.times,
            check=False,
        )
        if ended.returncode:
            raise Failure(f"{program.name} {' '.join(map(str, words))} ended with {ended.returncode}: {ended.stderr[-2000:]}")
        return ended.stdout

    def asked(self, words, document):
        """What the program says of a document, and its exit status."""
        ended = subprocess.run(
            [self.program, *words], input=json.dumps(document).encode(), capture_output=True, timeout=LONGEST_WAIT, check=False
        )
        return ended.stdout.decode(), ended.returncode

    def of_each(self, runs, *words):
        """What the program says of the document of each run."""
        with concurrent.futures.ThreadPoolExecutor(processors()) as pool:
            return list(pool.map(lambda run: self.asked(words, run["document"]), runs))

    def audited(self, runs):
        return self.of_each(runs, "audit")


def lines(text):
    return [json.loads(line) for line in text.splitlines()]


def hold(found):
    """Something was looked at, and nothing is wrong with it."""
    found = list(found)
    assert found
    assert [f"{what}: {why}" for what, why in found if why is not None] == []
