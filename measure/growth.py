"""Measures the program on inputs that are made to hurt, each at several sizes, so that growth is seen.

    growth.py PROGRAM [WORD]

With a word, only inputs whose name has it. Times are processor seconds. The growth is how often the time of a byte is that of the
size before, left out where that took less than 50 ms: near 1 for a time that is linear in the bytes. What a run held is reported as at
least some 15 MiB, which this script holds itself.
"""
import os
import random
import sys
import tempfile
from functools import partial
from itertools import combinations, islice
from multiprocessing import Process, set_start_method
from typing import Callable, NamedTuple

import distributions
from process import MEBIBYTE, measure

PROGRAM = sys.argv[1]
WORD = sys.argv[2] if len(sys.argv) > 2 else ""

GOODS, BIDS = 4096, 65_536

# So many bidders of so many bids each are the most bids of a file.
SIDE = 256

# What represents the file's path in a command.
FILE = "FILE"


class Input(NamedTuple):
    """What makes the pieces of a file of a size, the sizes, and the commands that are measured on it."""

    name: str
    pieces: Callable
    sizes: tuple
    commands: tuple


def header(goods, bids, dummy):
    return f"goods {goods}\nbids {bids}\ndummy {dummy}\n"


def bid(number, price, goods):
    return f"{number}\t{price}\t" + "\t".join(map(str, goods)) + "\t#\n"


# Files for the reader: where one thing is in another order, or as large as can be.


def bundles_of(count, many):
    """Random bundles of so many goods."""
    chosen = random.Random(1)
    return [sorted(chosen.sample(range(GOODS), many)) for _ in range(count)]


def reverse(items):
    return items[::-1]


def shuffled(items):
    return random.Random(2).sample(items, len(items))


def by_number(order, count):
    """Bids of five goods, in an order of their numbers."""
    lines = [bid(number, 1 + number % 1000, goods) for number, goods in enumerate(bundles_of(count, 5))]
    return [header(GOODS, count, 0), *order(lines)]


def by_goods(order, count):
    """Bids of 300 goods, which are in an order."""
    lines = (bid(number, 1 + number % 1000, order(goods)) for number, goods in enumerate(bundles_of(count, 300)))
    return [header(GOODS, count, 0), *lines]


def one_bid(count):
    return [header(GOODS, 1, 0), bid(0, 1, range(count))]


def whole_bids(are_xor, count):
    """Bids on all goods: of one OR bidder, or each of an XOR bidder of its own."""
    goods = "\t" + "\t".join(map(str, range(GOODS)))
    yield header(GOODS, count, count * are_xor)
    for number in range(count):
        yield f"{number}\t{number}{goods}" + f"\t{GOODS + number}" * are_xor + "\t#\n"


def dummies(count):
    """So many dummy goods, of which the last is used."""
    return [header(1, 1, count), bid(0, 1, [0, count])]


def repeated(piece, count):
    """A piece of a mebibyte, so many times."""
    return (piece for _ in range(count))


# Bundles with their prices, for one OR bidder or one XOR bidder.


def on_one_bundle(count):
    return ((price, range(5)) for price in range(count))


def on_one_good(count):
    return ((price, [0]) for price in range(count))


def nested(count):
    """Bundles each of which is inside the next, dearer one."""
    return ((1 + size, range(size + 1)) for size in range(count))


def apart(count):
    """Bundles of which no two share a good, as many as there are goods; each has more than one bid where there are more bids."""
    return ((1 + at // GOODS, [at % GOODS]) for at in range(count))


def sharing_a_good(count):
    """Different bundles that all hold one good, at one price."""
    return ((7, [0, *pair]) for pair in islice(combinations(range(1, GOODS), 2), count))


def near_halves(count):
    """Different bundles of 9 to 11 of 20 goods, the larger ones dearer: no bid makes another needless, and each shares goods with nearly
    all."""
    halves = [half for size in (9, 10, 11) for half in combinations(range(20), size)]
    return ((len(half), half) for half in shuffled(halves)[:count])


def one_bidder(family, is_xor, count):
    """A file of the bids of a family."""
    dummy = [GOODS] * is_xor
    lines = (bid(number, price, [*goods, *dummy]) for number, (price, goods) in enumerate(family(count)))
    return [header(GOODS, count, len(dummy)), *lines]


def single_bidders(count):
    """Bidders that have one bid each, and these alike."""
    return [header(1, count, count), *(bid(number, 1, [0, 1 + number]) for number in range(count))]


def like_bidders(count):
    """Bidders with 256 bids each, and these alike."""
    yield header(SIDE, count * SIDE, count)
    for number in range(count * SIDE):
        yield bid(number, 1 + number % SIDE, [number % SIDE, SIDE + number // SIDE])


def of_sizes(goods, least, most, count):
    """Random bundles of so many of the goods."""
    chosen = random.Random(3)
    return ((1 + chosen.randrange(1000 * GOODS), sorted(chosen.sample(range(goods), chosen.randint(least, most)))) for _ in range(count))


def subsets(count):
    """The subsets of 16 goods, smaller ones first, each dearer than the one before."""
    every = (bundle for size in range(1, 17) for bundle in combinations(range(16), size))
    return enumerate(islice(every, count), 1)


BLOCK = 256


def in_blocks(count):
    """Bids on 200 to 255 goods of a block each: one of each block together are a packing."""
    chosen = random.Random(6)
    for number in range(count):
        first = BLOCK * (number % (GOODS // BLOCK))
        yield chosen.randint(1, 1000), sorted(chosen.sample(range(first, first + BLOCK), chosen.randint(200, 255)))


def one_of_each_block(count):
    """Bids on one good of each of 41 blocks of 64 goods or more."""
    chosen = random.Random(5)
    for _ in range(count):
        blocks = sorted(chosen.sample(range(64), chosen.randrange(41, 65)))
        yield chosen.randrange(1, 1_000_000), [64 * block + chosen.randrange(64) for block in blocks]


def bomb(count):
    """Bids on single goods, one on all but the last good that they just do not reach, and one on all goods: the searches on the two
    enter nearly every family of the single bids."""
    singles = [bid(number, 1, [number]) for number in range(count)]
    both = [bid(count, count, range(count - 1)), bid(count + 1, count + 2, range(count))]
    return [header(count, count + 2, 0), *singles, *both]


def ones(count):
    """A bid on each good alone, cheap ones first, and one on all goods that they just do not reach."""
    singles = [bid(number, 1 + number, [number]) for number in range(count)]
    return [header(GOODS, count + 1, 0), *singles, bid(count, count * (count + 1) // 2 + 1, range(count))]


def stairs(count):
    """So many bids on each of 64 goods alone, cheap ones first: each bid of the best packing is found after all others."""
    lines = (bid(number, 1 + number // 64, [number % 64]) for number in range(64 * count))
    return [header(GOODS, 64 * count, 0), *lines]


BOUNDED = ("normalise", "--bound", FILE)
CHECK, SHOW, NORMALISE, VALUE = ("check", FILE), ("show", FILE), ("normalise", FILE), ("value", FILE)
EXPLAIN, ROUND, COMPARE, DIFF = ("explain", FILE), ("round", FILE), ("compare", FILE, FILE), ("diff", FILE, FILE)
MOST_STEPS = ("--steps", "1000000000")
MOST_OF_EACH = (
    CHECK, ("check", "--round", FILE), ("fault", FILE), ROUND, SHOW, ("lp", FILE), ("revenue", FILE, "0"), (*VALUE, "0"), BOUNDED, ("sizes", FILE),
    EXPLAIN, ("duplicates", FILE), COMPARE, DIFF,
)  # fmt: skip
BOMB = 60
BOMB_GOODS = tuple(map(str, range(BOMB)))
BOMBS = (NORMALISE, EXPLAIN, ("normalise", *MOST_STEPS, FILE), (*VALUE, *BOMB_GOODS), ("value", "--bound", FILE, *BOMB_GOODS), ("value", *MOST_STEPS, FILE, *BOMB_GOODS))
ALL_GOODS = tuple(map(str, range(GOODS)))
EACH_VALUE = ((*VALUE, *ALL_GOODS), ("value", "--bound", FILE, *ALL_GOODS))
READING = (CHECK, SHOW)
ALL = (CHECK, SHOW, NORMALISE, EXPLAIN)
BY_BIDS = (BIDS // 4, BIDS // 2, BIDS)
BY_GOODS = (GOODS // 4, GOODS // 2, GOODS)
BY_MEBIBYTES = (64, 128, 256)
# On 2,900 goods so many bids are files of 1, 10, 100 and 900 MB.
BY_MEMORY = (73, 728, 7_282, BIDS)

FAMILIES = {
    "on one bundle": (on_one_bundle, BY_BIDS),
    "on one good": (on_one_good, BY_BIDS),
    "nested": (nested, BY_GOODS),
    "pairwise apart": (apart, BY_BIDS),
    "sharing one good": (sharing_a_good, BY_BIDS),
    "9 to 11 of 20 goods": (near_halves, BY_BIDS),
    "200 to 300 of 512 goods": (partial(of_sizes, 512, 200, 300), BY_BIDS),
    **{f"{size} goods": (partial(of_sizes, GOODS, size, size), BY_BIDS) for size in (3, 40, 300)},
}

INPUTS = [
    Input("bids in order", partial(by_number, list), BY_BIDS, READING),
    Input("bids reversed", partial(by_number, reverse), BY_BIDS, READING),
    Input("bids shuffled", partial(by_number, shuffled), BY_BIDS, READING),
    Input("goods rising", partial(by_goods, list), BY_GOODS, READING),
    Input("goods falling", partial(by_goods, reverse), BY_GOODS, READING),
    Input("goods shuffled", partial(by_goods, shuffled), BY_GOODS, READING),
    Input("one bid of many goods", one_bid, BY_GOODS, ALL),
    Input("a word of zeros", partial(repeated, "0" * MEBIBYTE), BY_MEBIBYTES, (CHECK,)),
    Input("a line of CRs", partial(repeated, "\r" * MEBIBYTE), BY_MEBIBYTES, (CHECK,)),
    Input("empty lines", partial(repeated, "\n" * MEBIBYTE), BY_MEBIBYTES, (CHECK,)),
    Input("short comments", partial(repeated, "%\n" * (MEBIBYTE // 2)), BY_MEBIBYTES, (CHECK,)),
    Input("dummy goods, one used", dummies, BY_BIDS, (*ALL, VALUE)),
    *(
        Input(f"{'XOR' if is_xor else 'OR'} bids {name}", partial(one_bidder, family, is_xor), sizes, (CHECK, NORMALISE, EXPLAIN))
        for name, (family, sizes) in FAMILIES.items()
        for is_xor in (False, True)
    ),
    Input("bidders of one bid", single_bidders, BY_BIDS, ALL),
    Input("like bidders of 256 bids", like_bidders, (SIDE // 4, SIDE // 2, SIDE), ALL),
    Input("XOR bids subsets of 16 goods", partial(one_bidder, subsets, True), (2**13, 2**16 - 1), (CHECK, NORMALISE, EXPLAIN)),
    Input("OR bids of one good a block", partial(one_bidder, one_of_each_block, False), (BIDS // 4, BIDS), (CHECK, NORMALISE)),
    Input("OR bids in blocks", partial(one_bidder, in_blocks, False), (4096, BIDS), (CHECK, *EACH_VALUE)),
    Input("a bid on each good", ones, BY_GOODS, EACH_VALUE),
    Input("stairs on 64 goods", stairs, (16, 32, 64), EACH_VALUE),
    Input("values of nested bids", partial(one_bidder, nested, False), BY_GOODS, EACH_VALUE),
    Input("packing bomb", bomb, (BOMB,), BOMBS),
    *(
        Input(f"{kind} on {goods} goods", partial(distributions.lines, kind, goods, seed=4), (count,), (NORMALISE, BOUNDED))
        for kind, goods, count in (("l2", 20, 1000), ("l2", 64, 2000), ("l6", 64, 2000), ("regions", 256, 2000))
    ),
    *(
        Input(f"memory, bids of {size} goods", partial(one_bidder, partial(of_sizes, GOODS, size, size), False), sizes, MOST_OF_EACH)
        for size, sizes in ((4, (BIDS,)), (2_900, BY_MEMORY))
    ),
    Input("bids on all goods", partial(whole_bids, False), BY_BIDS, (*ALL, ROUND, COMPARE, DIFF)),
    Input("bidders for all goods", partial(whole_bids, True), BY_BIDS, (*ALL, ROUND, COMPARE, DIFF)),
]


def growth(before, now):
    """By what the seconds of a byte are multiplied, of two sizes and seconds."""
    if before is None or before[1] < 0.05:
        return "     "
    return f"{now[1] / before[1] * before[0] / now[0]:5.2f}"


def write_file(path, pieces, size):
    with open(path, "w", encoding="ascii") as file:
        file.writelines(pieces(size))


def row(name, size, command, path, before):
    """Measures a command on a file, and answers the file's bytes and the seconds."""
    took = measure([PROGRAM, *(path if word == FILE else word for word in command)])
    now = (os.path.getsize(path), took.seconds)
    words = " ".join(command[: command.index(FILE)])
    figures = f"{now[0]:14,} {took.seconds:9.3f} s {growth(before, now)} {took.held / MEBIBYTE:6.0f} MiB"
    print(f"{name:33} {words:28} {size:6} {figures}  {took.printed}", flush=True)
    return now


def rows(given, folder):
    """Measures the commands on an input at each of its sizes."""
    path = os.path.join(folder, "input")
    took = {}
    for size in given.sizes:
        # in a process of its own, since what this one holds is counted for those that it starts
        writer = Process(target=write_file, args=(path, given.pieces, size))
        writer.start()
        writer.join()
        took = {it: row(given.name, size, it, path, took.get(it)) for it in given.commands}


def main():
    set_start_method("fork")
    print(f"{'input':33} {'command':28} {'size':>6} {'bytes':>14} {'time':>11} {'grew':>5} {'held':>10}  printed")
    with tempfile.TemporaryDirectory() as folder:
        for given in INPUTS:
            if WORD in given.name:
                rows(given, folder)


if __name__ == "__main__":
    main()
