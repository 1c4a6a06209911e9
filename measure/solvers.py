"""Measures what solvers take for the problem that `cats lp` prints of a file, and for that of its canonical text. Makes the table of measure/RESULTS.md.

    solvers.py PROGRAM GENERATE [PLOT]

Prints a row for each file of tools/generate --kind: the size of both problems, and the processor seconds of `cats normalise --bound`, and of glpsol and
cbc on both, as medians. A run that takes too long is ended, and not repeated. An optimum of the canonical text that is not that of the file is a line on
standard error, and status 1. PLOT is a PNG by gnuplot: which part of the columns is left.
"""
import os
import re
import subprocess
import sys
import tempfile
from decimal import Decimal
from statistics import median
from typing import NamedTuple

from process import measure

PROGRAM, GENERATE = sys.argv[1:3]
PLOT = sys.argv[3:]

# The kind, goods and bids of each file.
FILES = (
    ("l1", 64, 8000),
    ("l2", 64, 8000),
    ("l3", 64, 400),
    ("l4", 128, 8000),
    ("l5", 64, 8000),
    ("l6", 64, 500),
    ("l7", 64, 120),
    ("arbitrary", 64, 150),
    ("regions", 64, 500),
    ("paths", 128, 8000),
    ("matching", 128, 8000),
    ("scheduling", 128, 8000),
    ("regions", 64, 400, "--dummies"),
    ("paths", 128, 4000, "--dummies"),
    ("matching", 128, 4000, "--dummies"),
)
RUNS, SECONDS = 3, 60

# A solver reads and prints doubles.
CLOSE = Decimal("0.000001")

# How each solver is told the problem and where its solution goes, and the line of the optimum there, whose sign may be turned.
SOLVERS = {
    "glpsol": (lambda problem, solution: ["--lp", problem, "-w", solution], r"(?m)^s mip \d+ \d+ o (\S+)$"),
    "cbc": (lambda problem, solution: [problem, "solve", "solu", solution], r"Optimal - objective value (\S+)"),
}


class Problem(NamedTuple):
    """The file of an LP text, with the numbers of its rows and columns."""

    path: str
    rows: int
    columns: int


def written(path, *words):
    with open(path, "wb") as file:
        subprocess.run(words, stdout=file, check=True)
    return path


def problem_of(bids):
    path = written(bids + ".lp", PROGRAM, "lp", bids)
    with open(path, encoding="ascii") as file:
        constraints, _, binary = file.read().partition("\nBinary\n")
    return Problem(path, constraints.count("<= 1"), binary.count("\n") - 1)


def seconds_of(*words):
    """The median of the processor seconds of some runs, or the most that one may take."""
    taken = []
    while len(taken) < RUNS:
        taken.append(measure(["sh", "-c", f'ulimit -t {SECONDS + 1} && exec "$0" "$@"', *words]).seconds)
        if taken[-1] >= SECONDS:
            return SECONDS
    return median(taken)


def solved(solver, problem):
    """The seconds that a solver takes, and the optimum: None if its runs are ended."""
    words_for, optimum = SOLVERS[solver]
    solution = f"{problem.path}.{solver}"
    taken = seconds_of(solver, *words_for(problem.path, solution))
    if taken >= SECONDS:
        return taken, None
    with open(solution, encoding="ascii") as file:
        return taken, abs(Decimal(re.search(optimum, file.read())[1]))


def shown(taken):
    return f"over {SECONDS}" if taken >= SECONDS else f"{taken:.1f}" if taken >= 1 else f"{taken:.2f}"


def row_in(folder, name, *words):
    """Prints the row of a file. Answers its name, which part of the columns is left, and whether each optimum is the same."""
    file = written(os.path.join(folder, "file"), GENERATE, *words)
    normalise = (PROGRAM, "normalise", "--bound", file)
    canonical = written(os.path.join(folder, "canonical"), *normalise)
    one, other = problem_of(file), problem_of(canonical)
    found = {solver: (solved(solver, one), solved(solver, other)) for solver in SOLVERS}
    cells = [f"{one.rows:,} × {one.columns:,}", f"{other.rows:,} × {other.columns:,}", shown(seconds_of(*normalise))]
    cells += [f"{shown(left[0])}; {shown(right[0])}" for left, right in found.values()]
    print(f"| {' | '.join([name, *cells])} |", flush=True)
    optima = [optimum for runs in found.values() for _, optimum in runs if optimum is not None]
    same = all(abs(it - optima[0]) <= CLOSE * max(1, optima[0]) for it in optima)
    if not same:
        print(f"{name}: the optima differ: {optima}", file=sys.stderr)
    return name, other.columns / one.columns, same


def row(kind, goods, bids, *more):
    with tempfile.TemporaryDirectory() as folder:
        return row_in(folder, f"{kind}, dummy goods" if more else kind, "--kind", kind, "--goods", str(goods), "--bids", str(bids), *more)


def plot(path, parts):
    """Bars from the top, in the order of the table."""
    data = "".join(f'"{name}" {-place} {100 * part:.1f}\n' for place, (name, part, _) in enumerate(parts))
    script = f"""
        set terminal pngcairo size 720,{60 + 24 * len(parts)} font "sans,10"
        set output "{path}"
        set xlabel "columns that are left in the problem of the canonical text, in percent"
        set xrange [0:110]
        set yrange [{0.4 - len(parts)}:0.6]
        set grid xtics
        set border 1
        set xtics nomirror
        set ytics nomirror scale 0
        unset key
        set style fill solid
        plot $parts using (0):2:(0):3:($2-0.35):($2+0.35):ytic(1) with boxxyerror linecolor rgb "#4477aa", \\
            $parts using 3:2:(sprintf(" %.0f", $3)) with labels left
    """
    subprocess.run(["gnuplot"], input=f"$parts << END\n{data}END\n" + script, text=True, check=True)


def main():
    print("| Kind | File | Canonical text | `normalise` | `glpsol` | `cbc` |\n|---|---|---|---|---|---|")
    parts = [row(*file) for file in FILES]
    for path in PLOT:
        plot(path, parts)
    return 0 if all(same for _, _, same in parts) else 1


if __name__ == "__main__":
    sys.exit(main())
