"""Runs the built program on as many files, bids and goods as it takes, and compares each answer with one that is known beforehand.

    sizes.py PROGRAM

No contract can forbid a program that gives up above some size, since memory may be refused at any time. So each answer here is
wanted in whole. What is wanted comes of how the files were made, and not of the program. Prints what is wrong and 'N runs, M
wrong'; the status is 0 if M is 0, and else 1.
"""
import os
import random
import resource
import subprocess
import sys
import tempfile
from typing import NamedTuple

from tally import TALLY

PROGRAM = os.path.abspath(sys.argv[1])
SECONDS = 120

# The limits of the format: docs/FORMAT.md. Prices are whole here.
GOODS, BIDS, GREATEST_PRICE = 4096, 65_536, 1_000_000_000_000

MILLION = 1_000_000
EXPLANATION_HEADER = "bid\tdummy\tprice\tgoods\treason\tkept\tby\n"
DIFF_HEADER = "kind\tgoods\tleft\tright\tleft_dummy\tright_dummy\tleft_bid\tright_bid\n"
SIZES_HEADER = "goods\tbids\tor_bids\txor_bidders\tdummies\tkept\tkept_or\tkept_xor\tfault\tfile\n"

# Whose the bids of a file are: the OR bidder's, one XOR bidder's, or each an XOR bidder's of its own.
OR, ONE_XOR, MANY_XOR = "OR bids", "bids of one XOR bidder", "XOR bidders of one bid"

chosen = random.Random(1)


class Bid(NamedTuple):
    """A price, and goods that rise."""

    price: int
    goods: tuple


def dummies(bids, whose):
    """How many dummy goods a file has."""
    return {OR: 0, ONE_XOR: 1, MANY_XOR: len(bids)}[whose]


def text_of(goods, bids, whose):
    """A file in the layout of `cats show`."""
    lines = [f"goods {goods}\nbids {len(bids)}\ndummy {dummies(bids, whose)}\n"]
    for number, bid in enumerate(bids):
        dummy = {OR: (), ONE_XOR: (goods,), MANY_XOR: (goods + number,)}[whose]
        lines.append("\t".join(map(str, (number, bid.price, *bid.goods, *dummy, "#"))) + "\n")
    return "".join(lines)


def canonical(bids):
    """Bids on bundles of one size, in the order of the canonical text. Such bids are all points."""
    return sorted(bids, key=lambda bid: (bid.goods, bid.price))


def named(bid):
    """A bundle, and the bid on it, as `cats compare` prints them."""
    bundle = ",".join(map(str, bid.goods))
    return bundle, f"{bundle}:{bid.price}"


def explanation(bids, whose):
    """What `cats explain` prints of bids that are all points: of equal bidders the first comes first in the canonical text."""
    in_order = sorted(range(len(bids)), key=lambda number: (bids[number].goods, bids[number].price))
    kept = {number: place for place, number in enumerate(in_order)}
    rows = [EXPLANATION_HEADER]
    for number, bid in enumerate(bids):
        dummy = {OR: "", ONE_XOR: 0, MANY_XOR: number}[whose]
        rows.append(f"{number}\t{dummy}\t{bid.price}\t{' '.join(map(str, bid.goods))}\tkeep\t{kept[number]}\t\n")
    return "".join(rows)


def difference(bids, whose):
    """What `cats compare` prints of the canonical file of these bids and of one that lacks the last of them."""
    last = bids[-1]
    if whose == OR:
        printed = f"or {named(last)[0]}\nleft {last.price}\nright below {last.price}\n"
    elif whose == ONE_XOR:
        # the bidder with fewer bids is the lesser one
        printed = "xor " + " ".join(named(bid)[1] for bid in bids[:-1]) + "\nleft 0\nright 1\n"
    else:
        printed = f"xor {named(last)[1]}\nleft {bids.count(last)}\nright {bids.count(last) - 1}\n"
    return "different\n" + printed


def differences(bids, last, whose):
    """What `cats diff` prints of a file with these bids and of one that lacks this bid: of equal bidders the first is printed."""
    number = bids.index(last)
    kind, dummy, beside = {OR: ("or", "", ""), ONE_XOR: ("xor", 0, 0), MANY_XOR: ("xor", number, "")}[whose]
    return f"{DIFF_HEADER}{kind}\t{' '.join(map(str, last.goods))}\t{last.price}\t\t{dummy}\t{beside}\t{number}\t\n"


def sizes(bids, whose):
    """What `cats sizes` prints of the file `one` with these bids, which are all points."""
    numbers = f"{len(bids) if whose == OR else 0}\t{dummies(bids, whose)}\t"
    return f"{SIZES_HEADER}{GOODS}\t{len(bids)}\t{numbers}{dummies(bids, whose)}\t{len(bids)}\t{numbers}\tone\n"


def value(goods, bids, whose):
    """What `cats value` prints of a file on the bundle of its first bid, on which there is no other one."""
    first = bids[0]
    if whose == OR:
        return f"or {first.price} 0\n"
    own = f"or 0\nxor {goods} {first.price} 0\n"
    return own if whose == ONE_XOR else own + "".join(f"xor {goods + number} 0\n" for number in range(1, len(bids)))


def lp_text(goods, bids, whose):
    """What `cats lp` prints of a file in which two bids or more have a good."""
    rows = [(f"g{good}", []) for good in range(goods)] + ([("d0", range(len(bids)))] if whose == ONE_XOR else [])
    for number, bid in enumerate(bids):
        for good in bid.goods:
            rows[good][1].append(number)
    is_exact = sum(bid.price for bid in bids) * MILLION < 2**53
    unit, first = (MILLION, "millionths") if is_exact else (1, "units, as sums of millionths can pass 2^53")
    prices = "".join(f" + {bid.price * unit} x{number}\n" for number, bid in enumerate(bids))
    shared = ((name, "".join(f" + x{number}\n" for number in numbers)) for name, numbers in rows if len(numbers) > 1)
    variables = "".join(f" x{number}\n" for number in range(len(bids)))
    constraints = "".join(f" {name}:\n{terms} <= 1\n" for name, terms in shared)
    return f"\\ revenue in {first}\nMaximize\n revenue:\n{prices}Subject To\n{constraints}Binary\n{variables}End\n"


def run(words, wanted, folder):
    """Runs the program in the folder, and compares its status, its output and its standard error with what is wanted."""
    ran = subprocess.run([PROGRAM, *words], cwd=folder, stdin=subprocess.DEVNULL, capture_output=True, timeout=SECONDS)
    status, out, err = wanted
    TALLY.count_run()
    is_right = (ran.returncode, ran.stdout, ran.stderr) == (status, out.encode(), err.encode())
    command = " ".join([*words[:4], *[".."] * (len(words) > 4)])
    TALLY.judge(is_right, command, f"status {ran.returncode}, {ran.stdout[:100]}, on standard error {ran.stderr[:300]}")


def write(folder, name, text):
    with open(os.path.join(folder, name), "w", encoding="ascii") as file:
        file.write(text)


def judge_file(folder, bids, whose):
    """Each subcommand on a file of these bids, on one with the same bids in another order, and on one that lacks a bid."""
    print(f"{whose}: {len(bids):,} bids, {sum(len(bid.goods) for bid in bids):,} goods in them", flush=True)
    in_order = canonical(bids)
    write(folder, "one", text_of(GOODS, bids, whose))
    write(folder, "other", text_of(GOODS, chosen.sample(bids, len(bids)), whose))
    write(folder, "lacking", text_of(GOODS, in_order[:-1], whose))
    asked = map(str, bids[0].goods)
    run(["check", "one"], (0, f"goods {GOODS} bids {len(bids)} dummy {dummies(bids, whose)}\n", ""), folder)
    run(["show", "one"], (0, text_of(GOODS, bids, whose), ""), folder)
    run(["value", "one", *asked], (0, value(GOODS, bids, whose), ""), folder)
    run(["normalise", "one"], (0, text_of(GOODS, in_order, whose), ""), folder)
    run(["normalise", "other"], (0, text_of(GOODS, in_order, whose), ""), folder)
    run(["explain", "one"], (0, explanation(bids, whose), ""), folder)
    run(["compare", "one", "other"], (0, "same\n", ""), folder)
    run(["compare", "one", "lacking"], (1, difference(in_order, whose), ""), folder)
    run(["diff", "one", "other"], (0, DIFF_HEADER, ""), folder)
    run(["diff", "one", "lacking"], (1, differences(bids, in_order[-1], whose), ""), folder)
    run(["sizes", "one"], (0, sizes(bids, whose), ""), folder)
    run(["round", "one"], (0, text_of(GOODS, bids, whose), ""), folder)
    run(["lp", "one"], (0, lp_text(GOODS, bids, whose), ""), folder)
    run(["duplicates", "one", "lacking", "other"], (0, "one\nother\n", ""), folder)


def bids_on(count, size):
    """So many bids on different bundles of so many goods."""
    bundles = set()
    while len(bundles) < count:
        bundles.add(tuple(sorted(chosen.sample(range(GOODS), size))))
    return [Bid(1 + chosen.randrange(GREATEST_PRICE), bundle) for bundle in chosen.sample(sorted(bundles), count)]


def judge_texts(folder):
    """The texts of the 3,000 files: those of the first 2,000, each once."""
    rows = [f"{number}\t{number}\t\t2\t2\t2\t0\t0\t\n" for number in range(2000)]
    rows += [f"{2000 + number}\t\t{2 * number}\t2\t2\t2\t0\t0\t\n" for number in range(1000)]
    header = "file\ttext\tsame_as\tgoods\tbids\tkept\trounded\tzeroed\tfault\n"
    with tempfile.TemporaryDirectory() as texts:
        run(["publish", texts, "--files0-from", "list"], (0, "".join([header, *rows]), ""), folder)
        run(["duplicates", texts], (0, "", ""), folder)
        found = sorted(os.listdir(texts), key=int)
        TALLY.judge(found == [str(number) for number in range(2000)], "the texts of the 3,000 files", len(found))


def judge_files(folder):
    """3,000 files, of which the last 1,000 are rewritings of others, also by their folder, and then one file 70,000 times; all listed too, and
    one file 300,000 times, whose paths are more than one command takes."""
    print("3,000 files, their folder, one file 70,000 times, and lists of these and of 300,000 paths", flush=True)
    for number in range(2000):
        write(folder, str(number), text_of(2, [Bid(5, (0, 1)), Bid(1 + number, (1,))], MANY_XOR))
    for number in range(1000):
        write(folder, str(2000 + number), text_of(2, [Bid(1 + 2 * number, (1,)), Bid(5, (0, 1))], MANY_XOR))
    paths = [str(number) for number in range(3000)]
    groups = "\n".join(f"{2 * number}\n{2000 + number}\n" for number in range(1000))
    progress = "".join(f"{number} of 3000 {number - 1}\n" for number in range(1, 3001))
    run(["duplicates", *paths], (0, groups, ""), folder)
    run(["duplicates", "--progress", *paths], (0, groups, progress), folder)
    below = sorted(sorted((f"./{2 * number}", f"./{2000 + number}")) for number in range(1000))
    run(["duplicates", "."], (0, "\n".join(f"{one}\n{other}\n" for one, other in below), ""), folder)
    run(["duplicates", *["0"] * 70_000], (0, "0\n" * 70_000, ""), folder)
    write(folder, "list", "".join(path + "\0" for path in paths))
    run(["duplicates", "--progress", "--files0-from", "list"], (0, groups, progress), folder)
    judge_texts(folder)
    write(folder, "list", "\0".join(["./0"] * 300_000))
    run(["duplicates", "--files0-from", "list"], (0, "./0\n" * 300_000, ""), folder)


def main():
    resource.setrlimit(resource.RLIMIT_CORE, (0, 0))
    with tempfile.TemporaryDirectory() as folder:
        judge_files(folder)
        for whose in (OR, ONE_XOR, MANY_XOR):
            judge_file(folder, bids_on(4000, 512), whose)
            judge_file(folder, bids_on(BIDS, 31), whose)
        run(["check", "/dev/zero"], (2, "", "TooLong\n"), folder)
    return TALLY.status()


if __name__ == "__main__":
    sys.exit(main())
