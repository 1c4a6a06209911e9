"""Bids, and the lines of a bid file that spell them, by docs/FORMAT.md."""
from __future__ import annotations

from decimal import Decimal
from operator import index
from typing import Any, Iterable, List, NamedTuple, Optional, Tuple, Union

from yinchaku.errors import LONG, LONG_DIGITS, shown


class Bid(NamedTuple):
    """A bid of a file: its number, its price, its real goods, rising, and its dummy good, or None. Dummy goods are counted from 0 here."""

    number: int
    price: Decimal
    goods: Tuple[int, ...]
    dummy: Optional[int] = None


Price = Union[Decimal, int]
Goods = Iterable[int]

# What a bid may be written from: a Bid, or a tuple of the same, without a dummy good or without a number.
BidLike = Union[
    Tuple[int, Price, Goods, Optional[int]], Tuple[int, Price, Goods], Tuple[Price, Goods, Optional[int]], Tuple[Price, Goods],
]

# The lines before those of the bids: goods, bids, dummy.
HEADER_LINES = 3

# What pandas has in the place of None.
MISSING = ("nan", "<NA>")


def plain(number: int) -> int:
    """The value of a number as a plain int, whatever its class says of it."""
    return int.__index__(index(number))


# ---- reading: only of texts that the library has accepted, so no rule of the format is tested here

def bid_lines(text: bytes) -> List[bytes]:
    """The lines of the bids, by number."""
    significant = [line for line in text.split(b"\n") if is_significant(line)]
    return sorted(significant[HEADER_LINES:], key=number_of)


def is_significant(line: bytes) -> bool:
    """Whether a line has a word and is no comment. Outside comments there are no blanks in a text but those that `bytes.strip` knows."""
    return line.lstrip()[:1] not in (b"", b"%")


def number_of(line: bytes) -> int:
    return int_of(line.split(None, 1)[0])


def int_of(word: bytes) -> int:
    """The value of digits. There may be many leading zeros, and Python takes at most 4,300 digits."""
    return int(word.lstrip(b"0") or b"0")


def price_of(word: bytes) -> Decimal:
    """The exact price, with as many places as the program prints of it."""
    whole, _, places = word.decode("ascii").partition(".")
    whole, places = whole.lstrip("0") or "0", places.rstrip("0")
    return Decimal(f"{whole}.{places}" if places else whole)


def bid_of(line: bytes, goods: int) -> Bid:
    """The bid of a line, of a file with so many goods: a number, a price, real goods and perhaps a dummy good in any order, and `#`."""
    number, price, *bundle, _ = line.split()
    numbers = sorted(map(int_of, bundle))
    dummy = numbers.pop() - goods if numbers[-1] >= goods else None
    return Bid(int_of(number), price_of(price), tuple(numbers), dummy)


# ---- writing: the library tests what was written

class Written(NamedTuple):
    """A text with a line for each row, in this order, behind those of the header; and the row with the greatest dummy good, or None."""

    text: bytes
    greatest: Optional[int]


def written(goods: int, bids: Iterable[BidLike]) -> Written:
    """The text of these bids. A row without a number has the one that it is counted by."""
    goods, dummies, greatest, lines = plain(goods), 0, None, []
    for at, row in enumerate(bids):
        try:
            number, price, bundle, dummy = parts_of(row, at)
            words = [word_of(plain(number)), price_word(price), *good_words(bundle, goods)]
            if dummy is not None and not is_missing(dummy):
                dummy = plain(dummy)
                if dummy < 0:
                    raise ValueError(f"{shown(dummy)} is no dummy good: these are counted from 0")
                if dummy >= dummies:
                    dummies, greatest = dummy + 1, at
                words.append(word_of(goods + dummy))
        except (TypeError, ValueError) as error:
            kind = TypeError if isinstance(error, TypeError) else ValueError
            raise kind(f"row {at}: {error}") from None
        lines.append("\t".join([*words, "#\n"]))
    head = f"goods {word_of(goods)}\nbids {len(lines)}\ndummy {word_of(dummies)}\n"
    return Written((head + "".join(lines)).encode("ascii"), greatest)


def is_missing(dummy: Any) -> bool:
    return not isinstance(dummy, int) and str(dummy) in MISSING


def parts_of(row: BidLike, at: int) -> Tuple[int, Price, Goods, Optional[int]]:
    """The number, the price, the goods and the dummy good of a row. Of three parts the last may be the goods, or the dummy good."""
    words: Any = tuple(row)
    if len(words) == 2:
        words = (at, *words, None)
    elif len(words) == 3:
        has_number = isinstance(words[2], Iterable) and not isinstance(words[2], (int, str))
        words = (*words, None) if has_number else (at, *words)
    if len(words) != 4:
        raise ValueError(f"a bid is a number, a price, goods and a dummy good, or lacks the first or the last, and this has {len(words)} parts")
    number, price, goods, dummy = words
    return number, price, goods, dummy


def word_of(number: int) -> str:
    """A number as it is written. In the place of one that is too long for any file is a shorter one, which the library refuses alike."""
    return str(max(-LONG, min(number, LONG)))


def price_word(price: Price) -> str:
    """The exact price without an exponent. In the place of one that begins too far from the point for any file is one digit nearer to it, which the
    library judges alike."""
    if not isinstance(price, Decimal):
        try:
            return word_of(plain(price))
        except TypeError:
            raise TypeError(f"a price is a decimal.Decimal or an int, and not a {type(price).__name__}") from None
    price = Decimal(price)
    place = price.adjusted()
    if abs(place) > LONG_DIGITS:
        price = Decimal((int(price.is_signed()), (int(bool(price)),), LONG_DIGITS if place > 0 else -LONG_DIGITS))
    return format(price, "f")


def good_words(bundle: Goods, goods: int) -> List[str]:
    """The real goods, rising."""
    rising = sorted(map(plain, bundle))
    if rising and rising[-1] >= goods:
        raise ValueError(f"the good {shown(rising[-1])} is not below {shown(goods)}, the number of goods")
    return list(map(word_of, rising))
