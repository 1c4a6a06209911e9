"""Measures how many calls a second the library answers, and how many processes of the program.

    calls.py PROGRAM LIBRARY FILE

LIBRARY is the folder with the package yinchaku and libcats.so. Prints a line for each call: its name, its seconds, and those of a process. Each is the
least of some runs by the clock, of one call and of one process that does the same after another.
"""
import pathlib
import subprocess
import sys
import time

PROGRAM, LIBRARY, FILE = sys.argv[1:]

sys.path.insert(0, LIBRARY)
import yinchaku  # noqa: E402: it is in the folder

# How long each is measured at least, in how many runs.
SECONDS, RUNS = 0.1, 5


def seconds_of(do):
    """The least seconds that one of many takes, on the average of a run."""
    found = []
    for _ in range(RUNS):
        many, begin = 0, time.perf_counter()
        while time.perf_counter() - begin < SECONDS:
            do()
            many += 1
        found.append((time.perf_counter() - begin) / many)
    return min(found)


def run(*words):
    subprocess.run([PROGRAM, *words], stdout=subprocess.DEVNULL, check=True)


def main():
    text = pathlib.Path(FILE).read_bytes()
    calls = {
        "check": lambda: yinchaku.check(text),
        "normalise": lambda: yinchaku.normalise(text),
        "explain": lambda: yinchaku.explain(text),
        "round": lambda: yinchaku.round_prices(text),
        "compare": lambda: yinchaku.compare(text, text),
        "diff": lambda: yinchaku.diff(text, text),
    }
    for name, call in calls.items():
        files = [FILE] * (2 if name in ("compare", "diff") else 1)
        print(name, seconds_of(call), seconds_of(lambda: run(name, *files)))


if __name__ == "__main__":
    main()
