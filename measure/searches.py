"""Texts on which the time is that of the searches through packings, and the commands to run on each: for bench.py.

A text is made by a function of a path. Rows whose number of steps is known by arithmetic have it, so that a step's time is known.
"""
import random
from itertools import combinations


def write(path, goods, bids, dummy=0):
    """Bids, each a price and its goods, and with a number of dummy goods perhaps one of these behind them."""
    bids = list(bids)
    with open(path, "w", encoding="ascii", newline="") as file:
        file.write(f"goods {goods}\nbids {len(bids)}\ndummy {dummy}\n")
        for number, (price, own) in enumerate(bids):
            file.write(f"{number}\t{price}\t" + "\t".join(map(str, sorted(own))) + "\t#\n")


def random_bids(count, goods, sizes, seed, price_of_good=1000):
    chosen = random.Random(seed)
    for _ in range(count):
        own = chosen.sample(range(goods), chosen.choice(sizes))
        yield sum(chosen.randrange(1, price_of_good) for _ in own), own


def bomb(path, count):
    """Bids on single goods, one on all but the last that they just do not reach, and one on all goods."""
    singles = [(1, [number]) for number in range(count)]
    write(path, count, [*singles, (count, range(count - 1)), (count + 2, range(count))])


def per_good(path, goods, each):
    """So many bids on each good alone, at prices from 1 to 11: (each + 1) to the number of goods are the packings of all goods."""
    write(path, goods, ((1 + number * 7 % 11, [number % goods]) for number in range(goods * each)))


def ordinary(path, goods, sizes=(1, 2, 3, 4, 5, 6, 7, 8)):
    """65,536 bids."""
    write(path, goods, random_bids(65_536, goods, sizes, goods))


def bidders(path):
    """65,536 bids of 8,192 XOR bidders."""
    bids = random_bids(65_536, 4096, (1, 2, 3, 4, 5), 3)
    write(path, 4096, ((price, [*own, 4096 + number // 8]) for number, (price, own) in enumerate(bids)), 8192)


def short(path):
    """20,000 bids on one to three of 40 goods."""
    write(path, 40, random_bids(20_000, 40, (1, 2, 3), 7))


def above_all(path, large, small, size, goods):
    """Large bids, each on all of so many goods and on one more, above so many bids of one size, whose packings never reach their price."""
    chosen = random.Random(size)
    families = set()
    while len(families) < small:
        families.add(tuple(sorted(chosen.sample(range(goods), size))))
    below = [(chosen.randrange(900, 1100), own) for own in sorted(families)]
    write(path, goods + large, [*below, *((1100 * goods // size + 1, [*range(goods), goods + number]) for number in range(large))])


def above(path, large, sizes, small):
    """Large bids on 4,096 goods that none reaches, above so many bids on one or two goods."""
    chosen = random.Random(large)
    wide = [(10 ** 9, chosen.sample(range(4096), chosen.choice(sizes))) for _ in range(large)]
    write(path, 4096, [*random_bids(small, 4096, (1, 2), 11), *wide])


def one_of_each_block(path):
    """65,536 bids on 41 and more of 4,096 goods, no two of one block of 64 goods."""
    chosen = random.Random(5)
    bids = []
    for _ in range(65_536):
        blocks = chosen.sample(range(64), chosen.randrange(41, 65))
        bids.append((chosen.randrange(1, 1_000_000), [64 * block + chosen.randrange(64) for block in blocks]))
    write(path, 4096, bids)


def below_one(path, count):
    """So many bids on one, two or three of 30 goods, and so more than a million packings of all goods."""
    own = [goods for size in (1, 2, 3) for goods in combinations(range(30), size)]
    write(path, 30, ((100 + number % 7, goods) for number, goods in enumerate(own[:count])))


# name, text, command words behind the program, steps if known
SEARCHES = (
    ("72 bids on 8 goods, value", lambda path: per_good(path, 8, 9), ("value", "--steps", "100000000"), range(8), 10 ** 8),
    ("a packing bomb of 22 goods, value", lambda path: bomb(path, 22), ("value", "--steps", "100000000"), range(22), 2 ** 22 + 2 + 1),
    ("a packing bomb of 22 goods, normalise", lambda path: bomb(path, 22), ("normalise", "--steps", "100000000"), (), None),
    ("65,536 OR bids on 4,096 goods, value of 6", lambda path: ordinary(path, 4096), ("value",), range(6), None),
    ("65,536 OR bids on 4,096 goods, value of 10", lambda path: ordinary(path, 4096), ("value",), range(10), None),
    ("65,536 XOR bids, value of 4", bidders, ("value",), range(4), None),
    ("20,000 short OR bids, value of 4, refused", short, ("value",), range(4), 10 ** 6),
    ("16 large above 3,718 of 7 goods, normalise", lambda path: above_all(path, 16, 3718, 7, 20), ("normalise",), (), None),
    ("16 large above 3,718 of 6 goods, normalise", lambda path: above_all(path, 16, 3718, 6, 19), ("normalise",), (), None),
    ("200 on 1,000 goods above 64,000 short", lambda path: above(path, 200, (1000,), 64_000), ("normalise",), (), None),
    ("one good of each block, normalise", one_of_each_block, ("normalise",), (), None),
    ("65,536 OR bids on 64 goods, normalise", lambda path: ordinary(path, 64), ("normalise",), (), None),
    ("65,536 OR bids on 256 goods, normalise", lambda path: ordinary(path, 256), ("normalise",), (), None),
    *(
        (f"{count} bids below one bundle, refused", lambda path, count=count: below_one(path, count), ("value",), range(30), 10 ** 6)
        for count in (60, 130, 1000, 4000)
    ),
)
