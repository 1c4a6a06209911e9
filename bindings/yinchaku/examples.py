"""Where the pages for users and the examples are: `python3 -m yinchaku.examples` prints the folder.

The lines of the pages run there, as it has `examples/ladder.cats` and so on. A wheel has it in this package, and the other files of a release put it at
`share/doc/cats`. In a checkout it is the top of the repository.
"""
from __future__ import annotations

import pathlib

__all__ = ["folder"]


def folder() -> pathlib.Path:
    """The folder in which `examples`, `docs` and `README.md` are."""
    here = pathlib.Path(__file__).resolve().parent
    places = [here / "doc", *(it / "share/doc/cats" for it in here.parents), *here.parents]
    for place in places:
        if (place / "examples/ladder.cats").is_file():
            return place
    raise FileNotFoundError(f"no folder of examples is in {places[0]}, or beside the folders above it")


if __name__ == "__main__":
    print(folder())
