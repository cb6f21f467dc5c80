"""A small repository in a folder of its own, with the scripts of this one: for tests of the scripts with the prover."""
import pathlib
import shutil
import subprocess
from collections.abc import Iterable

TOP = pathlib.Path(__file__).resolve().parent.parent


def create(folder: str | pathlib.Path, crates: dict[str, tuple], scripts: Iterable[str]) -> pathlib.Path:
    """Makes a repository of these crates, each with the crates that it uses and the text of its root, by its name."""
    top = pathlib.Path(folder)
    for script in scripts:
        (top / script).parent.mkdir(parents=True, exist_ok=True)
        shutil.copy(TOP / script, top / script)
    (top / "crates.txt").write_text("".join(f"{name}: {' '.join(uses)}\n" for name, (uses, _) in crates.items()))
    (top / "HANDLES").write_text("Handles allowed: none.\n")
    for name, (_, text) in crates.items():
        for word in ("src", "specs", "proofs"):
            (top / f"crates/{name}/{word}").mkdir(parents=True)
        for word in ("specs", "proofs"):
            (top / f"crates/{name}/{word}/Lib.antt").write_text("")
        root_of(top, name, "fn main" in text).write_text(text)
    return top


def root_of(top: pathlib.Path, name: str, is_program: bool = False) -> pathlib.Path:
    """The file at the root of a crate's sources."""
    return top / f"crates/{name}/src/{'main' if is_program else 'lib'}.rt"


def called(top: pathlib.Path, *words: str) -> tuple[str, str, int]:
    """What a command says on standard output and standard error, and its exit status."""
    line = [str(top / words[0]), *words[1:]]
    ran = subprocess.run(line, stdin=subprocess.DEVNULL, capture_output=True, text=True, check=False)
    return ran.stdout, ran.stderr, ran.returncode


def git(top: pathlib.Path, *words: str) -> None:
    subprocess.run(["git", "-C", top, "-c", "user.name=a", "-c", "user.email=a@b", *words], check=True)
