"""The solutions that solvers write of a winner determination problem."""
from __future__ import annotations

import re
from decimal import Decimal
from typing import Dict, FrozenSet, NamedTuple

from yinchaku.errors import WrongSolution

NUMBER = rb"([-+]?(?:\d+\.?\d*|\.\d+)(?:[eE][-+]?\d+)?)"

# A line of a variable: perhaps its place, its name, perhaps a mark of glpsol, and its value.
ROW = rb"(?m)^[ \t]*(?:\*\*[ \t]*)?(?:\d+[ \t]+)?x(\d+)[ \t]+(?:\*[ \t]+)?" + NUMBER + rb"(?:[ \t].*)?$"

# Of each layout: how its head has the value of the solution, how a variable has its own, and the number of x0 there. If a variable is there twice,
# as with its value in the dual problem, the first one counts.
LAYOUTS = {
    "cbc": (rb"\A[^\n]* - objective value +" + NUMBER, ROW, 0),
    "glpsol -w": (rb"(?m)^s (?:mip \d+ \d+|bas \d+ \d+ \w) \w " + NUMBER, rb"(?m)^j (\d+) (?:[a-z] )?" + NUMBER, 1),
    "glpsol -o": (rb"(?m)^Objective: +revenue = " + NUMBER + rb" \(", ROW, 0),
    "HiGHS": (rb"(?m)^# Primal solution values\n\w+\nObjective " + NUMBER, ROW, 0),
    "SCIP": (rb"(?m)^objective value: +" + NUMBER, ROW, 0),
    "CPLEX": (rb'(?s)<CPLEXSolution .*?\bobjectiveValue="' + NUMBER + rb'"', rb'<variable name="x(\d+)"[^>]* value="' + NUMBER + rb'"', 0),
    "Gurobi": (rb"(?m)^# Objective value = " + NUMBER, ROW, 0),
}

# A solver calculates in doubles, and prints few digits: how far a variable may be from 0 or 1, and, in proportion, a value from the sum of prices.
CLOSE, IN_PROPORTION = 1e-3, 1e-5
MILLION = 1_000_000


class Solution(NamedTuple):
    """The value of a solution, and the numbers of the variables that are 1."""

    value: float
    chosen: FrozenSet[int]

    def has_value(self, revenue: Decimal) -> bool:
        """Whether the value is this one, in units or in millionths, as the problem has it. Some solvers print the negative of what is maximised."""
        return any(abs(abs(self.value) - wanted) <= IN_PROPORTION * max(1, wanted) for wanted in (float(revenue), float(revenue * MILLION)))


def solution_in(text: bytes, many: int) -> Solution:
    """The solution of a problem of so many bids. WrongSolution: it has no known layout, or a variable that is no bid or neither 0 nor 1."""
    text = text.replace(b"\r\n", b"\n")
    for head, variable, first in LAYOUTS.values():
        found = re.search(head, text)
        if found:
            numbers = re.findall(variable, text[found.end() :])
            return Solution(float(found[1]), chosen_in({int(number) - first: float(value) for number, value in reversed(numbers)}, many, first))
    raise WrongSolution(f"no solution in the layout of {', '.join(LAYOUTS)}")


def chosen_in(values: Dict[int, float], many: int, first: int) -> FrozenSet[int]:
    """The variables that are 1, of so many. Where numbers are those of columns, the variable `none` may be behind them."""
    for number, value in values.items():
        if number >= many + first:
            raise WrongSolution(f"it has x{number}, and the problem has {many} bids")
        if min(abs(value), abs(value - 1)) > CLOSE:
            raise WrongSolution(f"x{number} is {value}, and a bid wins or not: the solution has to be one in integers")
    return frozenset(number for number, value in values.items() if value > 0.5 and number < many)
