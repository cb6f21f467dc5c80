"""Archives that have the same bytes for the same files: in the order in which they are given, and with one time for all."""
import gzip
import io
import tarfile
from collections.abc import Iterable

# the time of every file: the first day of 2026
MOMENT = 1767225600
READABLE, EXECUTABLE = 0o644, 0o755
# a file by its path, with its mode; a folder has no content
Member = tuple[str, bytes | None, int]


def tar(members: Iterable[Member], owner: str = "", form: int = tarfile.USTAR_FORMAT) -> bytes:
    """A tar archive, in which everything has the same owner: root by its number, whatever its name here."""
    out = io.BytesIO()
    with tarfile.open(fileobj=out, mode="w", format=form) as archive:
        for path, data, mode in members:
            info = tarfile.TarInfo(path)
            info.type = tarfile.DIRTYPE if data is None else tarfile.REGTYPE
            info.mode, info.mtime, info.size, info.uname, info.gname = mode, MOMENT, len(data or b""), owner, owner
            archive.addfile(info, io.BytesIO(data or b""))
    return out.getvalue()


def gzipped(data: bytes) -> bytes:
    return gzip.compress(data, 9, mtime=0)
