"""Reads the tables of `cats explain`, `cats diff`, `cats sizes` and `cats publish` by other programs.

    readers.py PROGRAM EXAMPLES

The tables show each kind of row and of cell. pandas, csvkit and Miller read each as one with tabs between its cells, without quotes. A cell that
they read is its text, or nothing if it is empty, or its number, if it is digits with at most one point among them: csvkit makes truth values of
columns of 0 and 1. Miller reads `\\t`, `\\n` and `\\\\` as the characters that they stand for. Prints what is wrong and 'N runs, M wrong'; the
status is 0 if M is 0, and else 1.
"""
import csv
import io
import json
import os
import re
import subprocess
import sys
import tempfile
from pathlib import Path

import pandas

from tally import TALLY

PROGRAM, EXAMPLES = os.path.abspath(sys.argv[1]), Path(sys.argv[2]).resolve()

HEADER = "goods 40\nbids {}\ndummy 2\n"
# A bid that is dropped for each of the reasons, and lists of two and more goods and bids, which are numbers without what is between them.
REASONS = ["5 0 #", "7 1 2 #", "12 0 1 2 #", "3 1 2 3 #", "0 4 #", "9 12 17 36 40 #", "9.5 12 17 36 41 #", "2 12 17 36 40 #", "1 12 17 36 39 40 #"]
# Each good of a bundle is below 10 in this file, and it has lists alone.
LISTS = ["1 0 1 #", "2.000001 2 3 4 #", "3 0 1 2 3 4 #"]
OTHER = ["5.25 0 1 #", "8 1 2 #", "9 12 17 36 38 40 #", "1000000000000 5 6 41 #"]
NAMES = ['"a', 'b"c', "'d'", "e\\f", "g\th", "i\nj", "k\x1bl", "m n", "001", "1,000", "NA", "null", "true", "\xe9"]
FAULTS = {"header": "nothing", "step_limit": (EXAMPLES / "three_reach.cats").read_text(encoding="ascii"), "no_end": HEADER.format(1) + "0 1 2"}
NUMBER = re.compile(r"\d+(\.\d+)?")
ESCAPES = {"\\t": "\t", "\\n": "\n", "\\\\": "\\"}


def bid_file(bids):
    return HEADER.format(len(bids)) + "".join(f"{number} {bid}\n" for number, bid in enumerate(bids))


def output(*words, status=(0,)):
    ran = subprocess.run(words, capture_output=True, check=False)
    if ran.returncode not in status:
        raise RuntimeError(f"{words}: status {ran.returncode}, {ran.stderr}")
    return ran.stdout.decode()


def cats(*words):
    """The table that the program prints, whatever its status is."""
    return output(PROGRAM, *words, status=(0, 1, 2, 3))


# ---- readers: of a file with a table its rows, each with the cells by the names of their columns

def by_pandas(table):
    return pandas.read_csv(table, sep="\t", quoting=csv.QUOTE_NONE).to_dict("records")


def by_csvjson(table):
    return json.loads(output("csvjson", "-t", "-u", "3", table))


def by_csvsql(table):
    return list(csv.DictReader(io.StringIO(output("csvsql", "-t", "-u", "3", "--query", 'select * from "table"', table))))


def by_miller(table):
    return json.loads(output("mlr", "--itsv", "--ojson", "cat", table))


READERS = {"pandas": by_pandas, "csvjson": by_csvjson, "csvsql": by_csvsql, "miller": by_miller}


def is_read(cell, found):
    """Whether what was read of a cell is its text, its number, or nothing."""
    if found is None or found != found:
        found = ""
    try:
        return str(found) == cell or (NUMBER.fullmatch(cell) is not None and float(found) == float(cell))
    except ValueError:
        return False


def judge(name, text, table):
    Path(table).write_text(text, encoding="utf-8")
    header, *rows = [line.split("\t") for line in text.removesuffix("\n").split("\n")]
    for reader, read in READERS.items():
        if read is by_csvsql and not rows:
            # It makes no table of a header alone.
            continue
        TALLY.count_run()
        wanted = rows
        if reader == "miller":
            wanted = [[re.sub(r"\\[tn\\]", lambda it: ESCAPES[it[0]], cell) for cell in row] for row in rows]
        found = read(table)
        TALLY.judge(len(found) == len(wanted), f"{name} by {reader}: {len(wanted)} rows", found)
        for row, cells in zip(wanted, found):
            for column, cell in zip(header, row):
                TALLY.judge(is_read(cell, cells[column]), f"{name} by {reader}, {column}: {cell}", cells[column])


def tables():
    """The name of each table, and its text. They run in a folder of files."""
    for name, bids in {"reasons": REASONS, "lists": LISTS, "other": OTHER}.items():
        Path(name).write_text(bid_file(bids), encoding="ascii")
    for folder in ("names", "given/names"):
        Path(folder).mkdir(parents=True)
        for name in NAMES:
            Path(folder, name).write_text(bid_file(LISTS), encoding="ascii")
    Path("given/rounded").write_text(bid_file(["1e-7 0 #", "0.0123456 1 #"]), encoding="ascii")
    for name, text in FAULTS.items():
        Path(name).write_text(text, encoding="ascii")
    for name in ("reasons", "lists", EXAMPLES / "packing.cats", EXAMPLES / "twelve_bids.cats"):
        yield f"explain {name}", cats("explain", name)
    goods = EXAMPLES / "ladder.cats"
    for left, right in (("reasons", "other"), ("lists", "reasons"), ("lists", "lists"), (goods, "other")):
        yield f"diff {left} {right}", cats("diff", left, right)
    yield "sizes", cats("sizes", "--steps", "1000", "reasons", "names", EXAMPLES, *FAULTS)
    yield "sizes --total-steps", cats("sizes", "--total-steps", "3", "step_limit", "lists")
    yield "publish", cats("publish", "--round", "--steps", "1000", "texts", "given", EXAMPLES, *FAULTS)
    yield "publish --all", cats("publish", "--round", "--all", "all texts", "given")


def kinds(texts):
    """The reasons and the kinds of difference that the tables have."""
    columns = {"explain": 4, "diff": 0}
    rows = [(name.split()[0], line.split("\t")) for name, text in texts for line in text.splitlines()[1:]]
    return {row[columns[name]] for name, row in rows if name in columns}


def main():
    with tempfile.TemporaryDirectory() as folder:
        os.chdir(folder)
        texts = list(tables())
        missing = {"zero", "same", "keep", "inside", "packing", "or", "xor", "goods"} - kinds(texts)
        TALLY.judge(not missing, "rows of each kind", f"none is {missing}")
        for name, text in texts:
            judge(name, text, "table.tsv")
        os.chdir("/")
    return TALLY.status()


if __name__ == "__main__":
    raise SystemExit(main())
