"""Many texts: those that are given, and in the place of a folder the files below it."""
from __future__ import annotations

import mmap
import os
import pathlib
from typing import Any, Iterable, Iterator, List, Tuple, TypeVar, Union

from yinchaku._texts import HasText, TextOrPath, path_given

# A text as the caller has it.
Given = TypeVar("Given", bound=TextOrPath)

# What is one text, and not many.
ONE: Tuple[type, ...] = (bytes, bytearray, memoryview, mmap.mmap, os.PathLike, HasText)


def texts_in(texts: Union[Given, Iterable[Given]]) -> Iterator[Union[Given, pathlib.Path]]:
    """Each text. A folder is the files below it."""
    given: Any = texts
    for text in [given] if isinstance(given, ONE) else given:
        path = None if isinstance(text, HasText) else path_given(text)
        if path is not None and path.is_dir():
            yield from files_below(path)
        else:
            yield text


def files_below(folder: pathlib.Path) -> Iterator[pathlib.Path]:
    """The files below a folder, in the order of the bytes of their paths, as the program takes them: no link below it is followed, and what is no
    file is left out. What cannot be looked at is one of them, so that it is refused."""
    found: List[str] = []
    left = [os.fspath(folder)]
    while left:
        path = left.pop()
        try:
            with os.scandir(path) as entries:
                for entry in entries:
                    if entry.is_dir(follow_symlinks=False):
                        left.append(entry.path)
                    elif entry.is_file(follow_symlinks=False):
                        found.append(entry.path)
        except OSError:
            found.append(path)
    return map(pathlib.Path, sorted(found, key=os.fsencode))
