"""The files of a release: `dist/make` makes them twice alike, and what is unpacked answers with an empty environment.

What this machine can't make is left out, but with --release.
"""
import hashlib
import io
import json
import os
import pathlib
import shutil
import subprocess
import sys
import tarfile
import tempfile
import zipfile
from collections.abc import Callable, Iterator

import pytest

HERE = pathlib.Path(__file__).resolve().parent
TOP = HERE.parent
sys.path.insert(0, str(TOP / "cases"))
import debian  # noqa: E402

VERSION = (TOP / "VERSION").read_text(encoding="utf-8").strip()
NAME = f"taskgraph-{VERSION}-linux-x86_64"
MADE = ("*.tar", "*.tar.gz", "*.zip", "*.deb", "*.wasm", "*.html", "*.nupkg", "SHA256SUMS")
# what an archive has beside the program
PARTS = {"CHANGELOG.md", "CONTRIBUTING.md", "LICENSE", "README.md", "VERSION"}
PARTS |= {"completions", "docs", "examples", "man", "pages", "schema"}
ONE_ROOT = '[{"rows":[{"before":[],"chain":[],"ends":["RanToCompletion"],"past":[],"runs":true}]}]\n'


def made(program: pathlib.Path, is_release: bool) -> str:
    """What `dist/make` says of the files that it makes anew."""
    for file in (file for pattern in MADE for file in HERE.glob(pattern)):
        file.unlink()
    words = [HERE / "make", *([] if is_release else ["--some"]), program]
    return subprocess.run(words, stdin=subprocess.DEVNULL, stdout=subprocess.PIPE, text=True, check=True).stdout


@pytest.fixture(scope="module")
def sums(pytestconfig) -> tuple[str, str]:
    """What is said of the files, which are made twice."""
    program, is_release = pytestconfig.getoption("--program").resolve(), pytestconfig.getoption("--release")
    return made(program, is_release), made(program, is_release)


@pytest.fixture(scope="module")
def folder(sums, tmp_path_factory) -> pathlib.Path:
    """The unpacked archive for this machine."""
    room = tmp_path_factory.mktemp("archive")
    with tarfile.open(HERE / f"{NAME}.tar.gz") as archive:
        archive.extractall(room)
    assert os.listdir(room) == [NAME]
    return room / NAME


def answer(words: list[str | pathlib.Path], document: str, folder: pathlib.Path = TOP) -> tuple[str, int]:
    """What a command answers to an example, with an empty environment, and its exit status."""
    given = (TOP / "examples" / document).read_bytes()
    ran = subprocess.run(words, input=given, stdout=subprocess.PIPE, cwd=folder, env={}, check=False)
    return ran.stdout.decode(), ran.returncode


def test_files_are_the_same_twice(sums):
    first, second = sums
    assert second
    assert first == second


def test_checksums_fit(sums):
    lines = (HERE / "SHA256SUMS").read_text(encoding="utf-8").splitlines()
    assert lines
    for line in lines:
        checksum, name = line.split("  ")
        assert hashlib.sha256((HERE / name).read_bytes()).hexdigest() == checksum, name


@pytest.mark.parametrize(
    "command, document, text, status",
    [
        ("check", "one-root.json", "accepted\n", 0),
        ("check", "either-or.json", "refused: shape claim 1\n", 1),
        ("check", "blue-green-wrong.json", "accepted\n", 0),
        ("analyse", "one-root.json", ONE_ROOT, 0),
    ],
)
def test_unpacked_program(folder, command, document, text, status):
    assert answer(["./taskgraph", command], document, folder) == (text, status)


def test_parts_of_the_archive(folder):
    assert set(os.listdir(folder)) == {*PARTS, "taskgraph"}


def test_parts_of_the_archive_for_windows(sums):
    path = HERE / f"taskgraph-{VERSION}-windows-x86_64.zip"
    if not path.exists():
        pytest.skip("this machine can't make the program for Windows")
    with zipfile.ZipFile(io.BytesIO(path.read_bytes())) as archive:
        assert {name.split("/")[1] for name in archive.namelist()} == {*PARTS, "taskgraph.exe"}


@pytest.mark.skipif(os.geteuid() != 0, reason="only root may change the root")
def test_program_in_an_empty_root(folder, tmp_path):
    """There is no library there that a program could load."""
    shutil.copy(folder / "taskgraph", tmp_path)
    chroot = shutil.which("chroot") or "/usr/sbin/chroot"
    assert answer([chroot, tmp_path, "/taskgraph", "check"], "one-root.json") == ("accepted\n", 0)


@pytest.fixture
def podman() -> Iterator[Callable[..., str]]:
    """Calls podman, over images and containers of the test's own; gives what it says."""
    if not shutil.which("podman"):
        debian.install("podman")
    if os.geteuid() != 0 or not shutil.which("podman"):
        pytest.skip("podman can't be had here, or not as root")
    # (podman takes no long paths)
    with tempfile.TemporaryDirectory(prefix="podman-") as room:
        how = ["podman", "--root", f"{room}/images", "--runroot", f"{room}/containers", "--storage-driver", "vfs"]

        def call(*words: str | pathlib.Path) -> str:
            ran = subprocess.run([*how, *words], stdin=subprocess.DEVNULL, stdout=subprocess.PIPE, text=True, check=True)
            return ran.stdout.strip()

        yield call
        call("image", "unmount", "--all")


@pytest.mark.parametrize("processor, system", [("amd64", "linux-x86_64"), ("arm64", "linux-arm64")])
def test_podman_takes_the_image(sums, podman, processor, system):
    """It has the program of the archive for that processor, and nothing else."""
    file = HERE / f"taskgraph-{VERSION}-oci.tar"
    if not file.exists():
        pytest.skip("this machine can't make the programs for both processors")
    assert podman("load", "-q", "-i", file) == f"Loaded image: docker.io/library/taskgraph:{VERSION}"
    image = podman("pull", "-q", "--arch", processor, f"oci-archive:{file}")
    (config,) = json.loads(podman("inspect", image))
    assert (config["Os"], config["Architecture"], config["Config"]["Entrypoint"]) == ("linux", processor, ["/taskgraph"])
    root = pathlib.Path(podman("image", "mount", image))
    with tarfile.open(HERE / f"taskgraph-{VERSION}-{system}.tar.gz") as archive:
        packed = archive.extractfile(f"taskgraph-{VERSION}-{system}/taskgraph")
        assert packed and (root / "taskgraph").read_bytes() == packed.read()
    assert [entry.name for entry in root.iterdir()] == ["taskgraph"]
    assert (root / "taskgraph").stat().st_mode & 0o777 == 0o755


def test_debian_package(sums, tmp_path):
    package = HERE / f"taskgraph_{VERSION}_amd64.deb"
    subprocess.run(["dpkg-deb", "-x", package, tmp_path], check=True)
    assert answer([tmp_path / "usr/bin/taskgraph", "check"], "one-root.json") == ("accepted\n", 0)
    asked = subprocess.run(["dpkg-deb", "-f", package, "Version"], stdout=subprocess.PIPE, text=True, check=True)
    assert asked.stdout == f"{VERSION}\n"
