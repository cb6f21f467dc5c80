"""The wrong bodies that were refused already: the file refused.txt beside this one, a line 'CRATE EDIT CHECKSUM' for each.

A wrong body that was refused needs no second try while nothing that its refusal rests on has changed: the toolchain's
logic, the scripts that try it, the edit, all files of its crate, and the sources and definitions of the crates below. The
checksum is over all of these, but for lines that are comments: no proof reads them. A tenth of them, another one with each
commit, is tried all the same.

The list is in the history since the gate begins with a clone of it, and would try every wrong body without one. It is one
file, which no diff shows (.gitattributes). Git merges two by putting all their lines into one: so an edit may have several
lines, and is known if one of them has its checksum.
"""
import functools
import hashlib
import os
import subprocess

from crates import TOP, below, files_of, listed

HERE = os.path.dirname(os.path.realpath(__file__))
LIST = f"{HERE}/refused.txt"
SCRIPTS = ("crates.py", "edits.py", "refused.py", "wrong")
# of the files of a crate below, what a proof above it reads
STATED = ("src", "specs")
# how a line begins that is a comment, by the ending of its file
COMMENTS = {".rt": b"//", ".antt": b"--"}
# how many hexadecimal digits of a checksum are written
DIGITS = 32
# one in so many is tried although it is on the list
SAMPLE = 10


def digest(*parts):
    """A checksum over parts, each of which is text or bytes."""
    found = hashlib.sha256()
    for each_part in parts:
        part = each_part.encode() if isinstance(each_part, str) else each_part
        found.update(len(part).to_bytes(8, "little") + part)
    return found.hexdigest()[:DIGITS]


def bytes_of(path):
    with open(path, "rb") as file:
        return file.read()


def read_by_a_proof(path):
    """The bytes of a file of a crate without the lines that are comments."""
    comment = COMMENTS.get(os.path.splitext(path)[1])
    lines = bytes_of(path).splitlines(keepends=True)
    return b"".join(line for line in lines if comment is None or not line.lstrip().startswith(comment))


@functools.lru_cache(maxsize=None)
def of_files(name, parts):
    """The checksum of a crate's files in these folders."""
    top = f"{TOP}/crates/{name}/"
    files = sorted(path for path in files_of(name) if path.removeprefix(top).split("/")[0] in parts)
    return digest(*(part for path in files for part in (path.removeprefix(top), read_by_a_proof(path))))


@functools.lru_cache(maxsize=None)
def of_tools():
    """The checksum of what tries the edits: the toolchain's logic, which its version names last, and the scripts."""
    version = subprocess.run(["rt", "version"], stdout=subprocess.PIPE, text=True, check=True).stdout
    return digest(version.split()[-1], *(bytes_of(f"{HERE}/{script}") for script in SCRIPTS))


@functools.lru_cache(maxsize=None)
def of_crate(name):
    """The checksum of all that the refusals of a crate's edits rest on, but the edits."""
    lines = [" ".join(listed()[crate]) for crate in [*below(name), name]]
    stated = (of_files(crate, STATED) for crate in below(name))
    return digest(of_tools(), of_files(name, ("src", "specs", "proofs")), *lines, *stated)


def checksum(name, edit):
    """The checksum of all that the refusal of an edit rests on."""
    return digest(of_crate(name), *(part for change in edit.changes for part in change))


def rows():
    """The lines of the list, each as its words."""
    if not os.path.isfile(LIST):
        return []
    with open(LIST, encoding="utf-8") as file:
        return [tuple(line.split()) for line in file]


@functools.lru_cache(maxsize=None)
def commit():
    """The commit's id, or nothing outside of a repository."""
    words = ["git", "-C", TOP, "rev-parse", "HEAD"]
    return subprocess.run(words, capture_output=True, text=True, check=False).stdout.strip()


def is_in_sample(name, edit):
    """The edit of this name is of the tenth that is tried with this commit all the same."""
    return int(digest(commit(), name, edit), 16) % SAMPLE == 0


def kept(name, edits):
    """The names of those of a crate's edits that need no second try with this commit."""
    known = set(rows())
    found = [edit for edit in edits if (name, edit.name, checksum(name, edit)) in known]
    return {edit.name for edit in found if not is_in_sample(name, edit.name)}


def write(name, refused):
    """Writes a crate's part of the list: these of its edits were refused."""
    others = {row for row in rows() if row[0] != name}
    found = sorted({*others, *((name, edit.name, checksum(name, edit)) for edit in refused)})
    with open(LIST, "w", encoding="utf-8") as file:
        file.writelines(f"{' '.join(row)}\n" for row in found)
