"""How tools/release packs files: by the same bytes each time, whoever does it, when and where."""
import gzip
import hashlib
import io
import os
import tarfile
from typing import NamedTuple


class File(NamedTuple):
    """The bytes of a file and its mode, or what a link leads to."""

    data: bytes
    mode: int = 0o644
    is_link: bool = False


def read_tree(folder):
    found = {}
    for path in sorted(folder.rglob("*")):
        if path.is_symlink():
            found[path.relative_to(folder).as_posix()] = File(os.readlink(path).encode(), is_link=True)
        elif path.is_file():
            found[path.relative_to(folder).as_posix()] = File(path.read_bytes(), 0o755 if os.access(path, os.X_OK) else 0o644)
    return found


def sha256(data):
    return hashlib.sha256(data).hexdigest()


def packed(files, date):
    """A tar of files and of their folders, in the order of their paths."""
    out = io.BytesIO()
    folders = {path[:at] for path in files for at, sign in enumerate(path) if sign == "/"}
    with tarfile.open(fileobj=out, mode="w", format=tarfile.GNU_FORMAT) as tar:
        for path in sorted([*files, *folders]):
            entry, file = tarfile.TarInfo(path), files.get(path, File(b"", 0o755))
            entry.mtime, entry.mode, entry.uname, entry.gname = date, file.mode, "root", "root"
            if path in folders:
                entry.type = tarfile.DIRTYPE
            elif file.is_link:
                entry.type, entry.linkname, entry.mode = tarfile.SYMTYPE, file.data.decode(), 0o777
            else:
                entry.size = len(file.data)
            tar.addfile(entry, io.BytesIO(file.data))
    return out.getvalue()


def gzipped(data):
    out = io.BytesIO()
    with gzip.GzipFile(filename="", mode="wb", fileobj=out, mtime=0) as file:
        file.write(data)
    return out.getvalue()


def packed_by_ar(members, date):
    """An archive by `ar`, of names and what they have."""
    out = b"!<arch>\n"
    for name, data in members.items():
        out += b"%-16s%-12d%-6d%-6d%-8o%-10d`\n" % (name.encode(), date, 0, 0, 0o100644, len(data)) + data + b"\n" * (len(data) % 2)
    return out
