"""Requests of the library, each beside the words of the program that request the same."""
import os
import pathlib
import subprocess
from concurrent.futures import ThreadPoolExecutor
from typing import NamedTuple

from functions import TAKEN

from yinchaku._library import NO_TOTAL, STEPS, Prices, Status, Task

SECONDS = 60

# Fewer steps than some random texts need. A number of no name is as Prices.ROUNDED_EXACTLY.
FEW = 3
OTHER_PRICES = 255

# The goods of `value` and the bids of `revenue` that are named.
NAMED = {"value": (2, 0, 1, 0), "revenue": (1, 0, 1)}


class Answer(NamedTuple):
    """A status and both outputs."""

    status: int
    out: bytes
    err: bytes = b""


class Call(NamedTuple):
    """A request, by the name of its command. `named` are the goods of `value` or the bids of `revenue`."""

    name: str
    prices: int = Prices.AS_WRITTEN
    steps: int = STEPS
    total: int = NO_TOTAL
    named: tuple = ()
    bound: bool = True
    all: bool = True
    null: bool = False
    table: bool = False

    def __str__(self):
        return " ".join([self.name, *self.options(), *map(str, self.named)])

    def takes(self, kind):
        return kind in TAKEN[self.name] or (self.name, kind) == ("fault", "round")

    def texts(self):
        """How many texts are tried."""
        return 2 if self.takes("left") or self.takes("texts") else 1

    def rounding(self):
        """As the package takes it."""
        return {Prices.AS_WRITTEN: False, Prices.ROUNDED: True}.get(self.prices, "exact")

    def options(self):
        """Those of the program."""
        exactly, rounds = ("--exact", None) if self.name == "round" else ("--round-exact", "--round")
        found = {False: [], True: [rounds], "exact": [exactly]}[self.rounding()]
        found += ["--bound"] * (self.bound and self.takes("steps")) + ["--all"] * (self.all and self.takes("all")) + ["-0"] * self.null + ["--table"] * self.table
        return found + ["--steps", str(self.steps)] * (self.steps != STEPS) + ["--total-steps", str(self.total)] * (self.total != NO_TOTAL)

    def words_of_package(self):
        """The arguments behind the texts, by the names that the package has for them."""
        total = self.total if self.total != NO_TOTAL else None
        found = {"goods": self.named, "bids": self.named, "steps": self.steps, "total": total, "round": self.rounding(), "exact": self.rounding() == "exact"}
        return {name: value for name, value in found.items() if self.takes(name)}

    def statuses(self):
        """Those that some random text has."""
        differs = {Status.DIFFERENT} if self.takes("left") or self.takes("bids") and self.named else set()
        limits = {Status.STEP_LIMIT} if FEW in (self.steps, self.total) else set()
        lacks = {Status.WRONG_USAGE} if self.named else set()
        return {Status.DONE, Status.REFUSED} | differs | limits | lacks


def calls_of(name, taken):
    """The requests of a command that are tried: with few steps, of no good or bid, and with prices that are rounded."""
    one = Call(name, named=NAMED.get(name, ()))
    found = [one]
    found += [one._replace(steps=FEW), one._replace(total=FEW)] if "steps" in taken else []
    found += [one._replace(named=())] if one.named else []
    found += [one._replace(prices=Prices.ROUNDED)] if "round" in taken else []
    return found + ([one._replace(prices=Prices.ROUNDED_EXACTLY)] if {"round", "exact"} & taken else [])


CALLS = [
    *(call for name, taken in TAKEN.items() for call in calls_of(name, taken)),
    Call("fault", Prices.ROUNDED), Call("fault", Prices.ROUNDED_EXACTLY), Call("check", OTHER_PRICES),
    *(Call(name, named=NAMED.get(name, ()), bound=False) for name in ("value", "normalise", "compare")),
    Call("duplicates", all=False), Call("duplicates", null=True), Call("duplicates", table=True), Call("duplicates", null=True, table=True), Call("sizes", null=True),
]


class Case(NamedTuple):
    """A call on texts, and what the program prints of files at these paths."""

    call: Call
    names: tuple
    paths: tuple
    texts: tuple
    printed: Answer

    def __str__(self):
        return " ".join([str(self.call), *self.names])


def run_program(program, words):
    """What the program prints."""
    ran = subprocess.run([program, *words], stdin=subprocess.DEVNULL, stdout=subprocess.PIPE, stderr=subprocess.PIPE, timeout=SECONDS)
    return Answer(ran.returncode, ran.stdout, ran.stderr)


def write_texts(folder, texts):
    """The paths of files of these texts."""
    paths = [os.path.join(folder, str(number)) for number in range(len(texts))]
    for path, text in zip(paths, texts):
        pathlib.Path(path).write_bytes(text)
    return paths


def in_parallel(do, arguments):
    with ThreadPoolExecutor(os.cpu_count()) as pool:
        return list(pool.map(lambda it: do(*it), arguments))


def cases_of(program, folder, texts):
    """Each call on each text, or on it and the one before it, with what the program prints."""
    paths = write_texts(folder, texts)

    def case(number, call):
        which = [max(number - 1, 0), number][-call.texts() :]
        files = tuple(paths[at] for at in which)
        printed = run_program(program, [call.name, *call.options(), *files, *map(str, call.named)])
        return Case(call, tuple(map(str, which)), files, tuple(texts[at] for at in which), printed)

    return in_parallel(case, [(number, call) for number in range(len(texts)) for call in CALLS])
