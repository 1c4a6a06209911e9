"""`publish`: the canonical text of each auction, once, in a folder. Each is written beside its place, and gets its name once it is whole. Nothing
that is there is replaced."""
from __future__ import annotations

import contextlib
import errno
import os
import pathlib
import secrets
import stat
from typing import Any, Dict, Iterable, Iterator, List, NamedTuple, Optional, Union

from yinchaku._auction import Auction
from yinchaku._calls import sizes_row, unopened
from yinchaku._files import ONE, files_below
from yinchaku._library import STEPS, TOTAL
from yinchaku._tables import PublishRow
from yinchaku._texts import Rounding, bytes_of, limits_of, path_of, prices_of
from yinchaku.errors import CatsError

AnyPath = Union["os.PathLike[str]", "os.PathLike[bytes]"]

# Why a text cannot be written, as the program prints it. Other reasons have no words there.
UNWRITTEN = {
    errno.EEXIST: ": it exists already", errno.EACCES: ": permission denied", errno.EPERM: ": permission denied", errno.EROFS: ": permission denied",
    errno.ENOSPC: ": no space", errno.EDQUOT: ": no space", errno.ENOTDIR: ": not a folder",
}


class Place(NamedTuple):
    """A file, and the path of its text below the folder of all texts."""

    file: pathlib.Path
    text: pathlib.PurePath


def publish(
    paths: Union[AnyPath, Iterable[AnyPath]], folder: Union[str, AnyPath], steps: int = STEPS, *, total: Optional[int] = TOTAL,
    round: Rounding = False, all: bool = False,
) -> Iterator[PublishRow]:
    """Writes the canonical text of each auction once into a folder, which is made if it is not there. The text of a file below a folder that is named
    has the file's path below that folder; that of a file that is named itself has the file's own name. With `all` there is a text for each file.
    The text of a file is written when its row is taken, so a loop over all rows writes all. Nothing is replaced, and no link below the folder is
    followed.

    ValueError: two files whose texts would have one path, or one whose text would not be below the folder. FileExistsError: a path at which something
    is. NotADirectoryError: what is at the folder's path is none. Then nothing is written. A file that is refused, or whose text cannot be written, has
    a row that says why, and the others go on.

    >>> import pathlib, tempfile
    >>> folder = pathlib.Path(tempfile.mkdtemp())
    >>> for name, bid in ("one", b"0 3 0 #"), ("other", b"0 3.0 0 #"), ("refused", b"0 1e3 0 #"):
    ...     _ = (folder / name).write_bytes(b"goods 1\\nbids 1\\ndummy 0\\n" + bid + b"\\n")
    >>> for row in publish([folder / "one", folder / "other", folder / "refused"], folder / "texts"):
    ...     print(row.file.name, row.text, row.same_as and row.same_as.name, row.fault)
    one one None None
    other None one None
    refused None None line 4: NotANumber
    """
    limits_of(steps, total)
    prices_of(round)
    places, root = list(places_of(paths)), os.fsdecode(path_of(folder))
    refuse_misplaced(places)
    refuse_taken(places, pathlib.Path(root))
    make_root(root)
    return rows_of(places, pathlib.Path(root), steps, total, round, all)


def places_of(paths: Union[AnyPath, Iterable[AnyPath]]) -> Iterator[Place]:
    given: Any = paths
    for one in [given] if isinstance(given, ONE) else given:
        if not isinstance(one, os.PathLike):
            raise TypeError(f"what is published is an os.PathLike, and no {type(one).__name__}: its text has its name")
        path = pathlib.Path(os.fsdecode(path_of(one)))
        if path.is_dir():
            yield from (Place(file, file.relative_to(path)) for file in files_below(path))
        else:
            yield Place(path, pathlib.PurePath(path.name))


def refuse_misplaced(places: List[Place]) -> None:
    """ValueError: a text would not be below the folder, or one of two would be at the path of the other, or below it."""
    files: Dict[pathlib.PurePath, pathlib.Path] = {}
    for file, text in places:
        if text.name in ("", ".."):
            raise ValueError(f"cannot write the text of {str(file)!r}: it would not be below the folder")
        if text in files:
            raise ValueError(f"cannot write the text of {str(file)!r}: it would be at that of {str(files[text])!r}")
        files[text] = file
    for file, text in places:
        above = next((folder for folder in text.parents if folder in files), None)
        if above is not None:
            raise ValueError(f"cannot write the text of {str(file)!r}: it would be below that of {str(files[above])!r}")


def refuse_taken(places: List[Place], root: pathlib.Path) -> None:
    """FileExistsError: something is at the path of a text."""
    for _, text in places:
        if is_taken(root / text):
            raise FileExistsError(errno.EEXIST, "cannot write: it exists already", str(root / text))


def is_taken(path: pathlib.Path) -> bool:
    """Whether something has this path, be it a link that leads nowhere, or that cannot be known."""
    try:
        os.lstat(path)
    except (FileNotFoundError, NotADirectoryError):
        return False
    except OSError:
        pass
    return True


def make_root(root: str) -> None:
    """Makes the folder of all texts, and those above it, if they are not there."""
    try:
        os.makedirs(root, exist_ok=True)
    except (FileExistsError, NotADirectoryError):
        raise NotADirectoryError(errno.ENOTDIR, "cannot write: not a folder", root) from None


def rows_of(
    places: List[Place], root: pathlib.Path, steps: int, total: Optional[int], round: Rounding, all: bool
) -> Iterator[PublishRow]:
    first_files: Dict[bytes, pathlib.Path] = {}
    for file, text in places:
        # a file is read once: a FIFO has nothing the second time
        try:
            content = bytes_of(file)
        except OSError as error:
            yield PublishRow._make([file, *[None] * 7, unopened(error)])
            continue
        try:
            auction = Auction(content, round=round)
            canonical = auction.normalise(steps, total=total)
        except CatsError:
            sizes = sizes_row(content, limits_of(steps, total), prices_of(round))
            yield PublishRow(file, None, None, sizes.goods, sizes.bids, None, None, None, sizes.fault)
            continue
        first, is_first = first_files.get(canonical.text), canonical.text not in first_files
        first_files.setdefault(canonical.text, file)
        fault = reason_unwritten(root, text, canonical.text) if is_first or all else None
        zeroed = sum(change.price == "0" for change in auction.changes)
        yield PublishRow(
            file, pathlib.Path(text) if (is_first or all) and fault is None else None, first, auction.goods, len(auction.bids), len(canonical.bids),
            len(auction.changes), zeroed, fault,
        )


def reason_unwritten(root: pathlib.Path, path: pathlib.PurePath, text: bytes) -> Optional[str]:
    """Writes a text below the folder where nothing is, or says why it cannot be written."""
    try:
        for folder in reversed(list(path.parents)[:-1]):
            make_folder(root / folder)
        write_new(root / path, text)
    except OSError as error:
        return f"cannot write{UNWRITTEN.get(error.errno or 0, '')}"
    return None


def make_folder(folder: pathlib.Path) -> None:
    """Makes a folder, unless it is there. It may not be a link to one."""
    try:
        folder.mkdir()
    except OSError:
        if not os.path.lexists(folder):
            raise
        if not stat.S_ISDIR(folder.lstat().st_mode):
            raise NotADirectoryError(errno.ENOTDIR, "not a folder", str(folder)) from None


def write_new(path: pathlib.Path, text: bytes) -> None:
    """Writes a file. It gets its name as a second one, which is refused if something has it: a new name would replace that."""
    draft = path.with_name(f".cats-publish-{secrets.token_hex(8)}")
    with open(draft, "xb") as file:
        try:
            file.write(text)
            file.flush()
            os.fsync(file.fileno())
            os.link(draft, path)
        finally:
            with contextlib.suppress(OSError):
                draft.unlink()
