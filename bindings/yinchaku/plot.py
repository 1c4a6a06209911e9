"""Pictures of auctions, by matplotlib: `pip install 'yinchaku[plot]'`, or Debian's package python3-matplotlib.

Each function takes a text, as all of the package do, or rows. It draws on the axes `ax`, or on new ones, and returns them. Of a text the limits `steps`
and `total`, and `round`, are as those of `explain`. Each is a command too, which writes the same bytes of SVG each time:

    python -m yinchaku.plot bids FILE -o bids.svg
"""
from __future__ import annotations

import argparse
import os
import pathlib
import sys
from typing import Any, Callable, Dict, Iterable, List, NoReturn, Optional, Sequence, Tuple, TypeVar, Union

from yinchaku import _calls
from yinchaku._auction import Auction
from yinchaku._bids import Bid
from yinchaku._drawing import BLACK, BLUE, GREEN, GREY, HEIGHT, ORANGE, PURPLE, SKY, VERMILION, WHITE, WIDTH, Style
from yinchaku._drawing import axes_of, draw_boxes, draw_counts, draw_diagonal, draw_matrix, draw_points, part, use_whole_numbers, with_legend
from yinchaku._files import ONE
from yinchaku._library import STEPS, TOTAL, Status
from yinchaku._tables import Difference, Reason, SizesRow
from yinchaku._texts import Rounding, TextOrPath, path_given
from yinchaku.errors import CatsError, StepLimit, WantOfMemory, shown_path

__all__ = ["bids", "goods", "difference", "sizes", "conflicts"]

# By how much the columns of two kinds of bids are apart.
SHIFT = 0.12

# The most bids of a matrix.
MOST_BIDS = 2_000

# Statuses of the command beside those of the library: a file cannot be read or written, and matplotlib is missing.
UNREADABLE, LACKS_TOOL = 5, 70

Row = TypeVar("Row")

# By the reason in a row of `explain`.
REASONS = {
    "keep": Style("kept", BLUE, "o"),
    "zero": Style("dropped: zero", BLACK, "x"),
    "same": Style("dropped: same", ORANGE, "s"),
    "inside": Style("dropped: inside", GREEN, "^"),
    "packing": Style("dropped: packing", VERMILION, "D"),
}

# By the kind of a difference, and whether there is a price on the left and on the right.
SIDES = {
    ("or", True, True): Style("OR, on both", BLUE, "o"),
    ("or", True, False): Style("OR, left only", ORANGE, ">"),
    ("or", False, True): Style("OR, right only", GREEN, "^"),
    ("xor", True, True): Style("XOR, on both", BLACK, "x"),
    ("xor", True, False): Style("XOR, left only", VERMILION, "<"),
    ("xor", False, True): Style("XOR, right only", PURPLE, "v"),
}

# Of folders, in turn: of 42 that follow one another no two are alike.
COLOURS, MARKERS = (BLUE, ORANGE, GREEN, VERMILION, SKY, PURPLE, BLACK), ("o", "s", "^", "D", "v", "P")

# The cells of the matrix of conflicts, and their colours.
NONE, SHARE, BIDDER, ITSELF = range(4)
CELLS = (WHITE, BLUE, ORANGE, GREY)


# ---- the pictures

def bids(
    given: Union[TextOrPath, Iterable[Reason]], ax: Any = None, *, steps: int = STEPS, total: Optional[int] = TOTAL, round: Rounding = False
) -> Any:
    """The price of each bid against its number of goods: kept bids, and dropped ones by reason, side by side. Rows are those of `explain`."""
    rows = rows_of(given, lambda text: _calls.explain(text, steps, total=total, round=round))
    ax = axes_of(ax)
    there = [reason for reason in REASONS if any(row.reason == reason for row in rows)]
    for place, reason in enumerate(there):
        shift = SHIFT * (place - (len(there) - 1) / 2)
        draw_points(ax, [(len(row.goods) + shift, float(row.price)) for row in rows if row.reason == reason], REASONS[reason])
    use_whole_numbers(ax.xaxis)
    ax.set(xlabel="goods in the bid (number)", ylabel="price (in the file's unit)")
    return with_legend(ax)


def goods(
    given: Union[TextOrPath, Iterable[Reason]], ax: Any = None, *, steps: int = STEPS, total: Optional[int] = TOTAL, round: Rounding = False
) -> Any:
    """How many bids have each good: of all bids, and of those that the canonical text has. Rows are those of `explain`, of which the goods go up to the
    last that a bid has."""
    text: Any = given
    auction = Auction(text, round=round) if is_text(text) else None
    rows = rows_of(auction or text, lambda it: _calls.explain(it, steps, total=total))
    many = auction.goods if auction else 1 + max((row.goods[-1] for row in rows), default=-1)
    ax = axes_of(ax)
    kept = [row for row in rows if row.kept is not None]
    draw_counts(ax, counts(rows, many), f"before: all bids ({len(rows):,})", ORANGE, "//")
    draw_counts(ax, counts(kept, many), f"after: kept bids ({len(kept):,})", BLUE)
    ax.set(xlim=(-0.5, max(many, 1) - 0.5))
    ax.set_ylim(bottom=0)
    use_whole_numbers(ax.xaxis, ax.yaxis)
    ax.set(xlabel="good (its number)", ylabel="bids that have it (number)")
    return with_legend(ax)


def difference(
    left: Union[TextOrPath, Iterable[Difference]], right: Optional[TextOrPath] = None, ax: Any = None, *, steps: int = STEPS,
    total: Optional[int] = TOTAL, round: Rounding = False,
) -> Any:
    """The bundles on which bidders' prices differ: the price on the left against that on the right, at 0 if there is none. Rows, without `right`, are
    those of `diff`."""
    if is_text(left) == (right is None):
        raise TypeError("a difference is of two texts, or of the rows of `diff` alone")
    other: Any = right
    rows = rows_of(left, lambda text: _calls.diff(text, other, steps, total=total, round=round))
    ax = axes_of(ax)
    points = [(side_of(row), (float(row.left or 0), float(row.right or 0))) for row in rows if row.kind != "goods"]
    draw_diagonal(ax, [point for _, point in points], "equal prices")
    for side, style in SIDES.items():
        draw_points(ax, [point for its_side, point in points if its_side == side], style)
    if not rows:
        ax.text(0.5, 0.5, "the same auction", transform=ax.transAxes, ha="center")
    ax.set(xlabel=f"price on the left{name_of(left)}, 0 if none", ylabel=f"price on the right{name_of(right)}, 0 if none")
    others = [row for row in rows if row.kind == "goods"]
    return with_legend(ax, f"{others[0].left} goods on the left, {others[0].right} on the right" if others else None)


def sizes(
    given: Union[TextOrPath, Iterable[TextOrPath], Iterable[SizesRow]], ax: Any = None, *, steps: int = STEPS, total: Optional[int] = TOTAL,
    round: Rounding = False,
) -> Any:
    """Two pictures of many files: a box for each folder on the shares of kept bids; and the rows times columns of each problem, after against before. A
    row is a good or an XOR bidder, and a column a bid. Rows given are those of `sizes`; what is refused is left out. `ax` is a pair, as is the answer."""
    rows = size_rows(given, lambda texts: _calls.sizes(texts, steps, total=total, round=round))
    left, right = axes_of(ax, 2)
    groups = by_folder([row for row in rows if row.kept is not None])
    draw_boxes(left, {name: [100 * (row.kept or 0) / row.bids for row in group if row.bids] for name, group in groups.items()})
    left.set(xlabel="folder (files)", ylabel="kept bids (% of a file's bids)", ylim=(-5, 105))
    with_legend(left)
    points = {name: [(cells_before(row), cells_after(row)) for row in group] for name, group in groups.items()}
    everywhere = [point for group in points.values() for point in group]
    draw_diagonal(right, everywhere, "as before")
    for place, (name, group) in enumerate(points.items()):
        draw_points(right, group, Style(name, COLOURS[place % len(COLOURS)], MARKERS[place % len(MARKERS)]))
    if everywhere:
        scale = "log" if all(map(all, everywhere)) else "symlog"
        right.set(xscale=scale, yscale=scale)
    right.set(xlabel="rows \u00d7 columns before (number of cells)", ylabel="rows \u00d7 columns after (number of cells)")
    with_legend(right, is_beside=True)
    return left, right


def conflicts(
    given: Union[TextOrPath, Iterable[Bid], Iterable[Reason]], ax: Any = None, *, steps: int = STEPS, total: Optional[int] = TOTAL, round: Rounding = False
) -> Any:
    """Which bids of the canonical text share goods, as a matrix in its order, of at most 2,000 bids. Rows are those of `explain`, of which the kept
    ones are drawn, or bids, which are drawn in their order."""
    rows = in_order(rows_of(given, lambda text: _calls.explain(text, steps, total=total, round=round)))
    if len(rows) > MOST_BIDS:
        raise ValueError(f"a matrix is of at most {MOST_BIDS:,} bids, and not of {len(rows):,}: slice `auction.normalise().bids`")
    matrix = conflict_matrix(rows)
    ax = axes_of(ax)
    draw_matrix(ax, matrix, CELLS)
    use_whole_numbers(ax.xaxis, ax.yaxis)
    ax.set(xlabel="bid (number in the canonical text)", ylabel="bid (number in the canonical text)")
    shared, others = (sum(row.count(cell) for row in matrix) // 2 for cell in (SHARE, BIDDER))
    labels = {SHARE: f"share a good (pairs: {shared:,})", BIDDER: f"only of one XOR bidder (pairs: {others:,})", ITSELF: "the bid itself"}
    for cell, label in labels.items():
        ax.fill([], [], facecolor=CELLS[cell], label=label)
    return with_legend(ax)


# ---- what is drawn

def is_text(given: Any) -> bool:
    """Whether it is one text, and no rows. A `str` is refused where it is read."""
    return isinstance(given, (*ONE, str))


def rows_of(given: Any, answer: Callable[[Any], Iterable[Row]]) -> List[Row]:
    """The rows that are given, or those of a text."""
    return list(answer(given) if is_text(given) else given)


def size_rows(given: Any, answer: Callable[[Any], Iterable[SizesRow]]) -> List[SizesRow]:
    """The rows that are given, or those of texts."""
    found = [given] if is_text(given) else list(given)
    return list(answer(found)) if any(map(is_text, found)) else found


def counts(rows: Iterable[Reason], many: int) -> List[int]:
    """How many rows have each of so many goods."""
    found = [0] * many
    for row in rows:
        for good in row.goods:
            found[good] += 1
    return found


def side_of(row: Difference) -> Tuple[str, bool, bool]:
    return row.kind, row.left is not None, row.right is not None


def cells_before(row: SizesRow) -> int:
    """Rows times columns: at most, as the LP text has no row for what fewer than two bids have."""
    return ((row.goods or 0) + (row.xor_bidders or 0)) * (row.bids or 0)


def cells_after(row: SizesRow) -> int:
    return ((row.goods or 0) + (row.kept_xor or 0)) * (row.kept or 0)


def by_folder(rows: Iterable[SizesRow]) -> Dict[str, List[SizesRow]]:
    """The rows by the folders of their files, which are named from the folder that all are below."""
    folders = [(os.path.dirname(os.path.abspath(row.file)) if row.file else "", row) for row in rows]
    whole = os.path.commonpath([folder for folder, _ in folders if folder] or ["/"])
    found: Dict[str, List[SizesRow]] = {}
    for folder, row in sorted(folders, key=lambda it: os.fsencode(it[0])):
        name = shown(os.path.relpath(folder, whole)) if folder else "no file"
        found.setdefault(name, []).append(row)
    return {shown(os.path.basename(whole) or whole): found["."]} if list(found) == ["."] else found


def in_order(rows: Sequence[Any]) -> List[Tuple[int, Optional[int]]]:
    """The goods of each bid, as bits, and its dummy good: of kept bids in canonical order, if these are rows of `explain`."""
    if any(isinstance(row, Reason) for row in rows):
        rows = sorted((row for row in rows if row.kept is not None), key=lambda row: int(row.kept))
    return [(sum(1 << good for good in row.goods), row.dummy) for row in rows]


def conflict_matrix(rows: Sequence[Tuple[int, Optional[int]]]) -> List[List[int]]:
    """For each two bids whether they share a good, or else are of one XOR bidder."""
    matrix = [[SHARE if here & there else BIDDER if own is not None and own == other else NONE for there, other in rows] for here, own in rows]
    for place, row in enumerate(matrix):
        row[place] = ITSELF
    return matrix


def shown(path: str) -> str:
    """A path as the program prints it, in which matplotlib finds no formula; and no name that begins with `_`, which no legend has."""
    return ("./" if path.startswith("_") else "") + shown_path(pathlib.Path(path)).replace("$", r"\$")


def name_of(given: Any) -> str:
    path = path_given(given) if is_text(given) else None
    return f" ({shown(path.name)})" if path else ""


# ---- the command

class Parser(argparse.ArgumentParser):
    """Prints what is wrong on a command line, and ends with the program's status for that."""

    def error(self, message: str) -> NoReturn:
        self.print_usage(sys.stderr)
        self.exit(int(Status.WRONG_USAGE), f"{message}\n")


# By the name of a picture: what draws it, and how many files it is of, or None of any number.
KINDS: Dict[str, Tuple[Callable[..., Any], Optional[int]]] = {
    "bids": (bids, 1), "goods": (goods, 1), "difference": (difference, 2), "sizes": (sizes, None), "conflicts": (conflicts, 1),
}


def parsed(words: Optional[Sequence[str]]) -> argparse.Namespace:
    parser = Parser(prog="python -m yinchaku.plot", description="Draws a picture of bid files.", allow_abbrev=False)
    parser.add_argument("kind", choices=KINDS, metavar="KIND", help=", ".join(KINDS))
    parser.add_argument("files", nargs="+", type=pathlib.Path, metavar="FILE", help="one, of `difference` two, of `sizes` any files and folders")
    parser.add_argument("-o", "--output", required=True, metavar="PICTURE", help="what is written: .svg, .png, .pdf")
    parser.add_argument("--round", action="store_true", help="read prices as they are rounded to the nearest millionth")
    parser.add_argument("--steps", type=int, default=STEPS, metavar="N", help="the most steps of one search (default: 1000000)")
    total = "the most steps of all searches of a file (default: 50000000)"
    parser.add_argument("--total-steps", type=int, dest="total", default=TOTAL, metavar="N", help=total)
    given = parser.parse_args(words)
    wanted = KINDS[given.kind][1]
    if wanted and len(given.files) != wanted:
        parser.error(f"{given.kind} is of {wanted} file{'s' * (wanted > 1)}, and not of {len(given.files)}")
    return given


def draw(given: argparse.Namespace, ax: Any) -> int:
    """Draws what a command line says, and reports the files that `sizes` leaves out: the greatest of their statuses."""
    limits = {"steps": given.steps, "total": given.total, "round": given.round}
    if given.kind != "sizes":
        KINDS[given.kind][0](*given.files, ax, **limits)
        return 0
    rows = list(_calls.sizes(given.files, **limits))
    sizes(rows, ax)
    refused = [row for row in rows if row.fault]
    for row in refused:
        print(f"{shown_path(row.file or pathlib.Path())}: {row.fault}", file=sys.stderr)
    return max((status_of_row(row) for row in refused), default=0)


def status_of_row(row: SizesRow) -> int:
    begins = {"cannot open": UNREADABLE, "want of memory": Status.WANT_OF_MEMORY}
    begins.update({"step limit": Status.STEP_LIMIT, "total step limit": Status.STEP_LIMIT})
    return next((int(status) for text, status in begins.items() if (row.fault or "").startswith(text)), int(Status.REFUSED))


def picture(given: argparse.Namespace) -> int:
    """Makes the picture of a command line, of which all that it shows is of the files: no setting of the user, and no time."""
    many = 2 if given.kind == "sizes" else 1
    settings = {"svg.hashsalt": "yinchaku", "svg.fonttype": "none"}
    undated = {".svg": {"Date": None}, ".pdf": {"CreationDate": None}}
    with part("style").context(["default", settings]):
        figure = part("figure").Figure(figsize=(WIDTH * many, HEIGHT))
        status = draw(given, figure.subplots(1, many))
        if many > 1:
            figure.subplots_adjust(wspace=0.3)
        figure.savefig(given.output, bbox_inches="tight", dpi=150, metadata=undated.get(pathlib.Path(given.output).suffix.lower()))
    return status


def main(words: Optional[Sequence[str]] = None) -> int:
    """The command: its status is the program's for what is wrong, which is one line on standard error."""
    given = parsed(words)
    try:
        return picture(given)
    except StepLimit as error:
        status, fault = int(Status.STEP_LIMIT), f"{error}; {error.hint}"
    except WantOfMemory as error:
        status, fault = int(Status.WANT_OF_MEMORY), str(error)
    except CatsError as error:
        status, fault = int(Status.REFUSED), str(error)
    except OSError as error:
        status, fault = UNREADABLE, str(error)
    except ValueError as error:
        status, fault = int(Status.WRONG_USAGE), str(error)
    except ImportError as error:
        status, fault = LACKS_TOOL, str(error)
    print(fault, file=sys.stderr)
    return status


if __name__ == "__main__":
    sys.exit(main())
