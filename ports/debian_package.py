#!/usr/bin/env python3
"""Writes a Debian package of the static program, with its manual page and completions, without Debian's tools.

The same program gives the same bytes. `apt install ./taskgraph_VERSION_amd64.deb` takes it; it depends on nothing.
"""
import argparse
import hashlib
import pathlib
import sys
import tarfile
from collections.abc import Iterable, Iterator

from archives import EXECUTABLE, MOMENT, READABLE, Member, gzipped, tar
from command_help import files, help_of

TOP = pathlib.Path(__file__).resolve().parent.parent
BLOCK = 1024
CONTROL = """Package: taskgraph
Version: {version}
Architecture: {architecture}
Maintainer: the taskgraph authors <taskgraph@localhost>
Installed-Size: {size}
Section: devel
Priority: optional
Description: checks, proves and runs graphs of .NET tasks
 A pipeline of .NET tasks is written down as a document. taskgraph takes every
 order of events into account: a false claim about the pipeline gets a run in
 which it fails, and a true one a certificate that it holds in every run.
"""


def with_folders(members: Iterable[Member]) -> Iterator[Member]:
    """The same, each behind the folders above it that have not come before."""
    seen: set[str] = set()
    for path, data, mode in members:
        for folder in reversed(list(map(str, pathlib.PurePosixPath(path).parents))):
            if folder not in seen:
                seen.add(folder)
                yield "./" if folder == "." else f"./{folder}/", None, EXECUTABLE
        yield f"./{path}", data, mode


def tar_gz(members: Iterable[Member]) -> bytes:
    """Files and the folders above them, of root, each by its path, in a compressed archive."""
    return gzipped(tar(with_folders(members), owner="root", form=tarfile.GNU_FORMAT))


def ar_of(members: Iterable[tuple[str, bytes]]) -> bytes:
    """An ar archive of files."""
    out = b"!<arch>\n"
    for name, data in members:
        out += f"{name:<16}{MOMENT:<12}{0:<6}{0:<6}{0o100644:<8o}{len(data):<10}`\n".encode() + data + b"\n" * (len(data) % 2)
    return out


def contents(program: pathlib.Path, said: dict[str, str]) -> dict[str, tuple[bytes, int]]:
    """Each file of the package, by its path, with its mode."""
    packed = gzipped(said["taskgraph.1"].encode())
    texts = {
        "usr/share/bash-completion/completions/taskgraph": said["taskgraph.bash"],
        "usr/share/doc/taskgraph/copyright": (TOP / "LICENSE").read_text(encoding="utf-8"),
        "usr/share/fish/vendor_completions.d/taskgraph.fish": said["taskgraph.fish"],
        "usr/share/zsh/vendor-completions/_taskgraph": said["_taskgraph"],
    }
    found = {path: (text.encode(), READABLE) for path, text in texts.items()}
    found["usr/bin/taskgraph"] = (program.read_bytes(), EXECUTABLE)
    found["usr/share/man/man1/taskgraph.1.gz"] = (packed, READABLE)
    changes = gzipped((TOP / "CHANGELOG.md").read_bytes())
    found["usr/share/doc/taskgraph/changelog.gz"] = (changes, READABLE)
    return dict(sorted(found.items()))


def package(program: pathlib.Path, said: dict[str, str], version: str, architecture: str) -> bytes:
    """The package of a program, with the files that its help gives."""
    packed = contents(program, said)
    size = sum(-(-len(data) // BLOCK) for data, _ in packed.values())
    sums = "".join(f"{hashlib.md5(data).hexdigest()}  {path}\n" for path, (data, _) in packed.items())
    control = CONTROL.format(version=version, architecture=architecture, size=size)
    described = tar_gz([("control", control.encode(), READABLE), ("md5sums", sums.encode(), READABLE)])
    data = tar_gz((path, content, mode) for path, (content, mode) in packed.items())
    return ar_of([("debian-binary", b"2.0\n"), ("control.tar.gz", described), ("data.tar.gz", data)])


def main() -> int:
    parser = argparse.ArgumentParser(description=__doc__, formatter_class=argparse.RawDescriptionHelpFormatter)
    parser.add_argument("program", type=pathlib.Path, metavar="PROGRAM", help="the static program for x86-64")
    parser.add_argument("out", type=pathlib.Path, metavar="OUT.deb")
    given = parser.parse_args()
    version = (TOP / "VERSION").read_text(encoding="utf-8").strip()
    given.out.write_bytes(package(given.program, files(help_of(given.program.resolve())), version, "amd64"))
    return 0


if __name__ == "__main__":
    sys.exit(main())
