"""Measures the program on texts of common kinds, and says which bounds are broken.

    bench.py PROGRAM GENERATE [WORD]

With a word, only groups of rows whose name has it. Each time is the least processor seconds of some runs, in which the commands of a
group take turns; the memory is the most that the kernel counted, and at least what this script holds itself. A bound is
a ratio between two rows of the same group. A group of which a bound is broken is measured again, at most twice, since a machine that
does something else for a moment breaks some. The script ends with a line for each bound that is broken each time, and its status is
then 1.
"""
import os
import random
import subprocess
import sys
import tempfile
from functools import partial
from itertools import combinations
from multiprocessing import Process, set_start_method

from process import MEBIBYTE, measure_alternately
from searches import SEARCHES

PROGRAM, GENERATE = sys.argv[1:3]
WORD = sys.argv[3] if len(sys.argv) > 3 else ""
LIBRARY = os.path.join(os.path.dirname(PROGRAM), "library")
FOLDER = os.path.dirname(os.path.abspath(__file__))
CALLS = os.path.join(FOLDER, "calls.py")
EMPTY = os.path.join(os.path.dirname(FOLDER), "examples", "empty.cats")
TIMES = 5
ROUNDS = 3

broken = {}


def bound(what, ratio, most):
    """Keeps a line for a ratio above the most that it may be, until it is found to be within."""
    print(f"    {what}: {ratio:.2f}, at most {most}")
    if ratio > most:
        broken[what] = f"{what} is {ratio:.2f}, and may be {most}"
    else:
        broken.pop(what, None)


def row(name, path, took):
    size = os.path.getsize(path)
    speed = size / max(took.seconds, 0.001) / 1e6
    print(f"{name:50} {size / MEBIBYTE:8.1f} MiB {took.seconds:8.3f} s {speed:6.0f} MB/s {took.held / MEBIBYTE:6.0f} MiB held", flush=True)


def rows(name, path, commands, times=TIMES):
    """Measures commands on a file, a row for each."""
    took = measure_alternately([[*words, path] for words in commands], times)
    for words, it in zip(commands, took):
        row(f"{name}: {' '.join(os.path.basename(word) for word in words)}", path, it)
    return took


def cats(*words):
    return [PROGRAM, *words]


CHECK, SHOW, NORMALISE, EXPLAIN, LINES = cats("check"), cats("show"), cats("normalise"), cats("explain"), ["wc", "-l"]


# Texts. Each is made in a process of its own, since what this one holds is counted for those that it starts.


def made(write_files, *args):
    writer = Process(target=write_files, args=args)
    writer.start()
    writer.join()
    if writer.exitcode:
        sys.exit("a text could not be made")


def generate(path, *words):
    """A file by the script of the repository that prints random bids."""
    with open(path, "wb") as file:
        subprocess.run([GENERATE, *map(str, words)], stdout=file, check=True)


def write(path, pieces):
    with open(path, "w", encoding="ascii", newline="") as file:
        file.writelines(pieces)


def lines_of(path):
    """The lines to the last of the header, and those of the bids."""
    with open(path, encoding="ascii") as file:
        lines = [line for line in file if not line.isspace()]
    begin = next(at for at, line in enumerate(lines) if line.startswith("dummy")) + 1
    return lines[:begin], lines[begin:]


def comment_lines():
    """About a mebibyte of comments of many lengths, and of empty lines."""
    chosen, size = random.Random(1), 0
    while size < MEBIBYTE:
        width = chosen.randrange(120)
        line = " \t \n" if width < 10 else "%% the bids of an auction, and what is said of them".ljust(width, "-")[:width] + "\n"
        size += len(line)
        yield line


def comments(path):
    """256 MiB of comments, with the header of an empty auction between them."""
    block = "".join(comment_lines())
    write(path, [block] * 128 + ["goods 0\nbids 0\ndummy 0\n"] + [block] * 128)


def bid_lines(prices_and_goods):
    for number, (price, goods) in enumerate(prices_and_goods):
        yield f"{number}\t{price}\t" + "\t".join(map(str, goods)) + "\t#\n"


def shuffled_goods(line, chosen):
    number, price, *goods, end = line.split("\t")
    chosen.shuffle(goods)
    return "\t".join([number, price, *goods, end])


def bidders(path, count, many, per_bidder):
    """Bids on so many random goods of 4,096, so many for each XOR bidder."""
    chosen = random.Random(many)
    dummy = count // per_bidder
    families = ((1 + number % 997, [*sorted(chosen.sample(range(4096), many)), 4096 + number // per_bidder]) for number in range(count))
    write(path, [f"goods 4096\nbids {count}\ndummy {dummy}\n", *bid_lines(families)])


def subsets(path, count):
    """The nonempty subsets of 16 goods, the first ones by size, as bids of one XOR bidder. Of all of them one has 655 others inside on the
    average, and of the first 8,192 one has 29, so that a byte of more costs up to 22 times as much."""
    families = (goods for size in range(1, 17) for goods in combinations(range(16), size))
    chosen = [(1 + len(goods), [*goods, 16]) for goods, _ in zip(families, range(count))]
    write(path, [f"goods 16\nbids {len(chosen)}\ndummy 1\n", *bid_lines(chosen)])


# Groups of rows.


def measure_comments(folder):
    path = f"{folder}/comments"
    made(comments, path)
    lines, check = rows("comments", path, [LINES, CHECK])
    bound("comments: check, times wc -l", check.seconds / lines.seconds, 15)


def measure_start(_folder):
    rows("an empty auction", EMPTY, [LINES, CHECK, NORMALISE])


def measure_bids(folder, name, goods):
    """65,536 bids with about so many goods each."""
    path, text = f"{folder}/bids", f"{folder}/canonical"
    made(generate, path, 65_536, 4096, goods, 1000, 3)
    with open(text, "wb") as file:
        subprocess.run([*NORMALISE, path], stdout=file, check=True)
    commands = [LINES, CHECK, SHOW, NORMALISE, EXPLAIN, cats("compare", path), cats("compare", text)]
    lines, check, show, normalise, explain, same, rewritten = rows(name, path, commands)
    bound(f"{name}: check, times wc -l", check.seconds / lines.seconds, 25)
    bound(f"{name}: show, times check", show.seconds / check.seconds, 4)
    bound(f"{name}: normalise, times check", normalise.seconds / check.seconds, 11)
    bound(f"{name}: explain, times normalise", explain.seconds / normalise.seconds, 2.5)
    bound(f"{name}: compare with itself, times normalise", same.seconds / normalise.seconds, 2.1)
    bound(f"{name}: compare with its text, times normalise", rewritten.seconds / normalise.seconds, 2.1)
    bound(f"{name}: what compare holds, of normalise and a text", same.held / (normalise.held + os.path.getsize(text)), 1.5)


LAYOUTS = (
    "1 to 4 goods a bid",
    "whole prices",
    "prices of two places",
    "lines that end with CRLF",
    "numbers out of order",
    "goods out of order",
)


def layouts(paths):
    """The same bids with other prices, ends of lines and orders."""
    plain, whole, places, crlf, numbers, goods = paths
    generate(plain, 65_536, 4096, 2, 1000, 3)
    generate(whole, 65_536, 4096, 2, 1000, 3, "%d")
    generate(places, 65_536, 4096, 2, 1000, 3, "%.2f")
    header, bids = lines_of(plain)
    chosen = random.Random(5)
    write(crlf, (line.replace("\n", "\r\n") for line in header + bids))
    write(numbers, header + chosen.sample(bids, len(bids)))
    write(goods, header + [shuffled_goods(line, chosen) for line in bids])


def measure_layouts(folder):
    paths = [f"{folder}/{name}" for name in LAYOUTS]
    made(layouts, paths)
    took = measure_alternately([[*words, path] for path in paths for words in (CHECK, LINES)], TIMES)
    plain = took[0]
    for name, path, check, lines in zip(LAYOUTS, paths, took[::2], took[1::2]):
        row(f"{name}: wc -l", path, lines)
        row(f"{name}: cats check", path, check)
        if check is not plain:
            bound(f"{name}: check, times that of 1 to 4 goods a bid", check.seconds / plain.seconds, 2.5)


def measure_pruning(folder, name, write_bids, most):
    """Normalising 8,192 bids, and eight times as many."""
    paths = [f"{folder}/pruning-{count}" for count in (8192, 65_536)]
    for path, count in zip(paths, (8192, 65_536)):
        made(write_bids, path, count)
    small, large = measure_alternately([[*NORMALISE, path] for path in paths], 3)
    for count, path, took in zip((8192, 65_536), paths, (small, large)):
        row(f"{name}, {count}: cats normalise", path, took)
    bytes_grew = os.path.getsize(paths[1]) / os.path.getsize(paths[0])
    bound(f"{name}: a byte of 65,536 bids, times one of 8,192", large.seconds / max(small.seconds, 0.005) / bytes_grew, most)


def measure_value(folder):
    path = f"{folder}/bids"
    made(generate, path, 65_536, 4096, 5, 1000, 3)
    check, value = measure_alternately([[*CHECK, path], [*cats("value"), path, "0", "1", "2", "3"]], TIMES)
    row("value on a large file", path, value)
    bound("value of 4 goods, times check", value.seconds / check.seconds, 9)


def measure_search(folder, name, write_text, words, goods, steps):
    """A command whose time is that of its searches, and of a step where the number of steps is known."""
    path = f"{folder}/bids"
    made(write_text, path)
    (took,) = measure_alternately([[*cats(*words), path, *map(str, goods)]], 3)
    row(name, path, took)
    if steps:
        print(f"{'a step':50} {took.seconds * 1e9 / steps:8.1f} ns")


def pairs(paths, others, *words):
    """A random file at each of the first paths, and at the other the same bids in the reverse order."""
    for seed, (path, other) in enumerate(zip(paths, others)):
        generate(path, *words, seed)
        header, bids = lines_of(path)
        write(other, header + bids[::-1])


def measure_duplicates(folder):
    """Which of 2,000 files are the same auction."""
    paths = [f"{folder}/{number}" for number in range(2000)]
    made(pairs, paths[:1000], paths[1000:], 250, 64, 5, 20)
    (took,) = measure_alternately([cats("duplicates", *paths)], TIMES)
    print(f"{'2,000 files: cats duplicates':50} {took.seconds:8.3f} s")


def measure_sizes(folder):
    """A table of 2,000 files, beside which of them are the same auction."""
    paths = [f"{folder}/{number}" for number in range(2000)]
    made(pairs, paths[:1000], paths[1000:], 250, 64, 5, 20)
    table, groups = measure_alternately([cats("sizes", *paths), cats("duplicates", *paths)], TIMES)
    name = "2,000 files: cats sizes"
    print(f"{name:50} {table.seconds:8.3f} s")
    bound(f"{name}, times cats duplicates", table.seconds / groups.seconds, 1.1)


def measure_large_duplicates(folder):
    """The same of 200 files, beside normalising each of them. (Of smaller ones a process's own time would be most of it.)"""
    paths = [f"{folder}/{number}" for number in range(200)]
    made(pairs, paths[:100], paths[100:], 4096, 512, 5, 20)
    commands = [[*NORMALISE, path] for path in paths]
    nothing, took, *each = measure_alternately([[*NORMALISE, EMPTY], cats("duplicates", *paths), *commands], TIMES)
    alone = sum(it.seconds - nothing.seconds for it in each)
    name = "200 files of 4,096 bids: cats duplicates"
    print(f"{name:50} {took.seconds:8.3f} s")
    bound(f"{name}, times normalising each", took.seconds / alone, 1.2)


def measure_held_duplicates(folder):
    """What is held for files of which each is there once, and for those with as many that are the same."""
    paths = [f"{folder}/{number}" for number in range(80)]
    made(pairs, paths[:40], paths[40:], 16_384, 1024, 5, 20)
    each, once = measure_alternately([cats("duplicates", *paths), cats("duplicates", *paths[:40])], 1)
    name = "80 large files: cats duplicates"
    print(f"{name:50} {each.held / MEBIBYTE:8.1f} MiB held, {once.held / MEBIBYTE:.1f} of a half")
    bound(f"{name}: what it holds, times that of a half", each.held / once.held, 1.2)


def measure_library(folder, size, bids, goods, most):
    """Calls of the library on a file of about so many bytes, beside a process each, by the clock."""
    if not os.path.exists(f"{LIBRARY}/libcats.so"):
        print(f"{f'library, {size}':50} not measured: ./library --build makes it")
        return
    path = f"{folder}/bids"
    made(generate, path, bids, goods, 5, 20, 3)
    printed = subprocess.run([sys.executable, "-B", CALLS, PROGRAM, LIBRARY, path], stdout=subprocess.PIPE, text=True, check=True).stdout
    for name, call, process in (line.split() for line in printed.splitlines()):
        calls, processes = 1 / float(call), 1 / float(process)
        print(f"{f'library, {size}: {name}':50} {calls:8.0f} calls/s {processes:8.0f} processes/s", flush=True)
        bound(f"library, {size}: {name}, a call, times a process", processes / calls, most)


def one_bidder(many):
    """So many bids of one XOR bidder, on so many goods each."""
    return lambda path, count: bidders(path, count, many, count)


def or_bids(path, count):
    generate(path, count, 4096, 4, 0, 3)


def single_bids(path, count):
    bidders(path, count, 4, 1)


PRUNINGS = (
    ("pruning of 4 goods a bid", one_bidder(4), 3),
    ("pruning of 40 goods a bid", one_bidder(40), 3),
    ("pruning of 300 goods a bid", one_bidder(300), 3),
    ("pruning of subsets of 16 goods", subsets, 25),
    ("pruning of bidders of one bid", single_bids, 2.5),
    ("pruning of OR bids", or_bids, 3),
)

# The sizes of files on which the library is called, with the bids and goods of such a file, and the most that a call may take of a process.
# The library is compiled for lesser processors than the program.
LIBRARY_FILES = (("1 KB", 34, 24, 0.5), ("20 KB", 670, 64, 0.5), ("1 MB", 28_000, 1024, 1.5))

GROUPS = {
    "an empty auction": measure_start,
    "comments": measure_comments,
    "5 goods a bid": partial(measure_bids, name="5 goods a bid", goods=5),
    "300 goods a bid": partial(measure_bids, name="300 goods a bid", goods=300),
    "layouts": measure_layouts,
    "value on a large file": measure_value,
    **{f"searches: {search[0]}": partial(measure_search, name=search[0], write_text=search[1], words=search[2], goods=search[3], steps=search[4]) for search in SEARCHES},
    "duplicates": measure_duplicates,
    "sizes": measure_sizes,
    "duplicates of larger files": measure_large_duplicates,
    "what duplicates holds": measure_held_duplicates,
    **{f"library, {size}": partial(measure_library, size=size, bids=bids, goods=goods, most=most) for size, bids, goods, most in LIBRARY_FILES},
    **{name: partial(measure_pruning, name=name, write_bids=write_bids, most=most) for name, write_bids, most in PRUNINGS},
}


def measure(group):
    """Measures a group, and again where it breaks a bound."""
    before = set(broken)
    for _ in range(ROUNDS):
        with tempfile.TemporaryDirectory() as folder:
            group(folder)
        if set(broken) == before:
            break
        print("    a bound is broken", flush=True)


def main():
    set_start_method("fork")
    for name, group in GROUPS.items():
        if WORD in name:
            measure(group)
    for line in broken.values():
        print(f"BROKEN: {line}")
    print(f"{len(broken)} bounds broken")
    sys.exit(bool(broken))


if __name__ == "__main__":
    main()
