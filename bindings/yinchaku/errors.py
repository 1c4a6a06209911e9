"""The exceptions of the package, and how the line of a fault becomes one."""
from __future__ import annotations

import os
import pathlib
import re
from typing import Any, Callable, Match, NamedTuple, Optional, Tuple

from yinchaku._library import Status

# The line of a step limit, by a call that names the bid, as the program prints it.
HEAVY = re.compile(r"(?:(first|second): )?(total )?step limit of (\d+) at bid (\d+): ([\d,]*)(?:,\.\. \((\d+) goods\))?")

# That of any other fault.
FAULT = re.compile(r"(?:(first|second): )?(?:line (\d+): (\w+)|step limit at ([\d,]*)|(good|bid) (\d+) out of range|(want of memory)|(\w+))")


# A number of so many digits is in no file. Of a longer one, which Python may refuse to print, less is shown.
LONG_DIGITS = 40
LONG = 10**LONG_DIGITS


def shown(number: int) -> str:
    """A number, or a power of 2 that a long one is beyond."""
    if abs(number) <= LONG:
        return str(number)
    power = number.bit_length() - 1
    return f"2**{power} or more" if number > 0 else f"-2**{power} or less"


# What is escaped in a path, beside bytes that are not UTF-8: a backslash, what controls lines, terminals or the direction of writing, and what
# has no width.
ESCAPED = re.compile("[\\\\\x00-\x1f\x7f-\x9f\xad\u061c\u200b-\u200f\u2028-\u202e\u2060-\u206f\ufeff]")


def shown_path(path: pathlib.Path) -> str:
    """A path as the program prints it."""
    return ESCAPED.sub(escaped, str(path)).encode("utf-8", "surrogateescape").decode("utf-8", "backslashreplace")


def escaped(found: Match[str]) -> str:
    names = {"\n": r"\n", "\t": r"\t", "\\": r"\\"}
    return names.get(found[0]) or "".join(f"\\x{byte:02x}" for byte in found[0].encode())


class Place(NamedTuple):
    """Where a fault is in its line, and what helps: fields of RefusedText."""

    column: Optional[int]
    word: Optional[int]
    text: Optional[bytes]
    hint: Optional[str]


NO_PLACE = Place(None, None, None, None)


class HeavyBid(NamedTuple):
    """The first bid on a bundle whose search is over a limit: its number, how many goods it has, and the limit that is met, of one search or of all
    together."""

    bid: int
    goods_count: int
    limit: int
    is_total: bool


class CatsError(Exception):
    """Why a call gave no answer. `which` is `first` or `second` if it is about one of two texts, and else None. `path` is that of the file, with
    which the text begins, or None if the text was bytes. `source` is the one of the texts of `duplicates` that it is about, as it was given,
    and else None."""

    def __init__(self, message: str, which: Optional[str] = None) -> None:
        super().__init__(f"{which}: {message}" if which else message)
        self.which = which
        self.path: Optional[pathlib.Path] = None
        self.source: object = None
        self._message = message
        self._words: Tuple[Any, ...] = (message, which)

    def __str__(self) -> str:
        before = shown_path(self.path) if self.path else self.which
        return f"{before}: {self._message}" if before else self._message

    def __reduce__(self) -> Tuple[Any, ...]:
        """For `pickle`, `copy` and pools of processes: it is made again of the words that it was made of."""
        return type(self), self._words, self.__dict__


class RefusedText(CatsError):
    """A text is not a bid file, or is longer than is read: the fault has a `kind`, and a `line` if it belongs to one. `column` is its place in the
    line, in bytes from 1, as editors count, and `word` the number of its word, from 1. `text` has the bytes of that word, none at the end of the
    line or text. `hint` says what helps. These four are looked up in the text when one is first read, and are None if the text is too long. `row` is
    the row of `from_bids`, from 0, that the line was written of, and else None."""

    def __init__(self, kind: str, line: Optional[int] = None, which: Optional[str] = None) -> None:
        super().__init__(f"line {line}: {kind}" if line is not None else kind, which)
        self.kind = kind
        self.line = line
        self.row: Optional[int] = None
        self._words = (kind, line, which)
        # how the call that raises it looks the place up
        self._find: Optional[Callable[[], Place]] = None
        self._place = NO_PLACE

    def __str__(self) -> str:
        """With a path its place, as that of the program's `fault`. Without memory the column is not looked up."""
        if self.path is None or self.line is None:
            return super().__str__()
        try:
            column = self.column
        except MemoryError:
            column = None
        return f"{shown_path(self.path)}:{self.line}:{'' if column is None else f'{column}:'} {self.kind}"

    @property
    def column(self) -> Optional[int]:
        return self._found().column

    @property
    def word(self) -> Optional[int]:
        return self._found().word

    @property
    def text(self) -> Optional[bytes]:
        return self._found().text

    @property
    def hint(self) -> Optional[str]:
        return self._found().hint

    def _found(self) -> Place:
        find = self._find
        if find:
            self._place = find()
            self._find = None
        return self._place

    def __reduce__(self) -> Tuple[Any, ...]:
        """The place is looked up, and goes with it in the place of the text."""
        self._found()
        return super().__reduce__()


class StepLimit(CatsError):
    """The search on a bundle takes more steps than `steps`, or than are left of `total`. `bundle` has the goods, rising, and `count` is their
    number. If `explain` or `diff` raises it, `bid` is the number of the first bid of the OR bidder on the bundle, and `bundle` has the first 20
    goods if there are more; else `bid` is None. `hint` says what helps."""

    hint = "a search may take more with a greater `steps`, and all of them with a greater `total`"

    def __init__(self, bundle: Tuple[int, ...], which: Optional[str] = None, heavy: Optional[HeavyBid] = None) -> None:
        super().__init__(step_limit_text(bundle, heavy), which)
        self.bundle = bundle
        self.bid = heavy.bid if heavy else None
        self.count = heavy.goods_count if heavy else len(bundle)
        self._words = (bundle, which, heavy)


def step_limit_text(bundle: Tuple[int, ...], heavy: Optional[HeavyBid]) -> str:
    """The line of a step limit."""
    goods = ",".join(map(str, bundle))
    if heavy is None:
        return f"step limit at {goods}"
    total = "total " if heavy.is_total else ""
    rest = f",.. ({heavy.goods_count} goods)" if heavy.goods_count > len(bundle) else ""
    return f"{total}step limit of {heavy.limit} at bid {heavy.bid}: {goods}{rest}"


class NoSuchGood(CatsError):
    """A bundle has a good that the file does not have: `good`."""

    def __init__(self, good: int) -> None:
        super().__init__(f"good {shown(good)} out of range")
        self.good = good
        self._words = (good,)


class NoSuchBid(CatsError):
    """A bid was named that the file does not have: `bid`."""

    def __init__(self, bid: int) -> None:
        super().__init__(f"bid {shown(bid)} out of range")
        self.bid = bid
        self._words = (bid,)


class WrongSolution(CatsError):
    """A solution is not one of this auction, or has no known layout. `path` is that of the solution. `hint` says what helps."""

    hint = "with `canonical=True` it is read as one of the canonical text, and else as one of the file"


class WantOfMemory(CatsError, MemoryError):
    """Memory was refused."""


def bundle_of(goods: str) -> Tuple[int, ...]:
    """The goods of a line."""
    return tuple(int(good) for good in goods.split(",") if good)


def heavy_error_of(which: Optional[str], total: Optional[str], limit: str, bid: str, goods: str, count: Optional[str]) -> StepLimit:
    """The exception for a step limit whose line names the bid."""
    bundle = bundle_of(goods)
    return StepLimit(bundle, which, HeavyBid(int(bid), int(count) if count else len(bundle), int(limit), bool(total)))


def error_of(status: int, printed: bytes) -> CatsError:
    """The exception for a status and the line of its fault, which may be none if memory was refused."""
    line = printed.decode("ascii", "replace") or ("want of memory" if status == Status.WANT_OF_MEMORY else "")
    heavy = HEAVY.fullmatch(line)
    if heavy:
        return heavy_error_of(*heavy.groups())
    found = FAULT.fullmatch(line)
    if not found:
        return CatsError(f"status {status}: {printed!r}")
    which, number_of_line, kind, bundle, lacking, number, want, kind_alone = found.groups()
    if want:
        return WantOfMemory(want, which)
    if lacking:
        return NoSuchGood(int(number)) if lacking == "good" else NoSuchBid(int(number))
    if bundle is not None:
        return StepLimit(bundle_of(bundle), which)
    return RefusedText(kind or kind_alone, int(number_of_line) if number_of_line else None, which)
