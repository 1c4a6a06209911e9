"""`winners` reads what solvers write. cbc and glpsol solve the problems here; of the others there are texts in their layouts."""
import shutil
import subprocess
from decimal import Decimal

import pytest
from texts import BIDS

import yinchaku

# Bids 0 and 2 win, and of its canonical text, which lacks bid 1, the bids 0 and 1.
FILE = b"goods 3\nbids 4\ndummy 1\n0 6.50 0 1 #\n1 0 2 #\n2 4.25 2 #\n3 6 0 1 2 3 #\n"

CPLEX = """<?xml version = "1.0" encoding="UTF-8" standalone="yes"?>
<CPLEXSolution version="1.2">
 <header
   problemName="file.lp"
   solutionName="incumbent"
   solutionIndex="-1"
   objectiveValue="10.75"
   solutionTypeValue="3"
   solutionTypeString="primal"
   solutionStatusValue="101"
   solutionStatusString="integer optimal solution"
   MIPNodes="0"
   writeLevel="1"/>
 <quality
   epInt="1.0000000000000001e-05"
   maxX="1"/>
 <linearConstraints>
  <constraint name="g0" index="0" slack="0"/>
 </linearConstraints>
 <variables>
  <variable name="x0" index="0" value="1"/>
  <variable name="x1" index="1" value="0"/>
  <variable name="x2" index="2" value="0.99999999999"/>
  <variable name="x3" index="3" value="0"/>
 </variables>
</CPLEXSolution>
"""
GUROBI = "# Solution for model revenue\n# Objective value = 1.0750000000000000e+01\nx0 1\nx1 0\nx2 9.9999999e-01\nx3 1e-12\n"
SCIP = """solution status: optimal solution found
objective value:                                10.75
x0                                                  1 \t(obj:6.5)
x2                                                  1 \t(obj:4.25)
"""
HIGHS = """Model status
Optimal

# Primal solution values
Feasible
Objective 10.75
# Columns 4
x0 1
x1 0
x2 1
x3 0
# Rows 3
g0 1
g1 1
g2 1

# Dual solution values
Feasible
# Columns 4
x0 0
x1 7
x2 0.25
x3 0
# Rows 3
g0 6.5
g1 0
g2 4.25

# Basis
HiGHS v1
None
"""
CBC = """Optimal - objective value 10.75000000
      0 x0                     1                     6.5
      2 x2                     1                    4.25
"""
GLPSOL = """c Problem:
c Rows:       3
c Columns:    4
c Non-zeros:  7
c Status:     INTEGER OPTIMAL
c Objective:  revenue = 10.75 (MAXimum)
c
s mip 3 4 o 10.75
i 1 1
i 2 1
i 3 1
j 1 1
j 2 0
j 3 1
j 4 0
e o f
"""
LAYOUTS = {"CPLEX": CPLEX, "Gurobi": GUROBI, "SCIP": SCIP, "HiGHS": HIGHS, "cbc": CBC, "glpsol": GLPSOL}

SOLVERS = {
    "cbc": ["cbc", "problem.lp", "solve", "solu", "solution"],
    "glpsol -w": ["glpsol", "--lp", "problem.lp", "-w", "solution"],
    "glpsol -o": ["glpsol", "--lp", "problem.lp", "-o", "solution"],
}


@pytest.mark.parametrize("solution", LAYOUTS.values(), ids=LAYOUTS)
def test_layouts(solution, tmp_path):
    """Of bytes, of a file, and with line ends of other systems."""
    path = tmp_path / "solution"
    path.write_text(solution)
    auction = yinchaku.read(FILE)
    for given in (solution.encode(), path, solution.replace("\n", "\r\n").encode()):
        found = yinchaku.winners(FILE, given)
        assert found.revenue == Decimal("10.75") and [bid.number for bid in found.bids] == [0, 2] and found.bids == [auction.bids[0], auction.bids[2]]
        assert found == auction.winners(given) == yinchaku.winners(auction, given) and isinstance(found, yinchaku.Winners)


@pytest.mark.parametrize("name", SOLVERS)
def test_solvers(name, root, tmp_path):
    """The winners of each example have the revenue of the optimum, which is the same by the canonical text, with other bids of the file, perhaps."""
    if not shutil.which(SOLVERS[name][0]):
        pytest.skip(f"{SOLVERS[name][0]} is missing")
    for path in [*sorted(root.glob("examples/*.cats")), b"goods 2\nbids 2\ndummy 0\n0 3 0 #\n1 4 1 #\n"]:
        auction = yinchaku.read(path, round=True)
        found = [solved(name, auction, auction, tmp_path), solved(name, auction.normalise(), auction, tmp_path, canonical=True)]
        assert found[0].revenue == found[1].revenue
        for it in found:
            assert auction.revenue([bid.number for bid in it.bids]).revenue == it.revenue == sum(bid.price for bid in it.bids)
            assert all(auction.bids[bid.number] == bid for bid in it.bids)


def solved(name, problem, auction, folder, **words):
    """The winners of an auction by the solution of a problem."""
    (folder / "problem.lp").write_bytes(problem.lp())
    (folder / "solution").unlink(missing_ok=True)
    subprocess.run(SOLVERS[name], cwd=folder, stdout=subprocess.DEVNULL, check=True)
    return auction.winners(folder / "solution", **words)


def test_the_canonical_text():
    """Its bids are others of the file. A solution of the one text is mostly refused for the other."""
    kept = [(row.kept, row.bid) for row in yinchaku.explain(FILE) if row.kept is not None]
    own = {bid: number for number, bid in kept}
    solution = f"# Objective value = 10.75\nx{own[0]} 1\nx{own[2]} 1\n".encode()
    found = yinchaku.winners(FILE, solution, canonical=True)
    assert [bid.number for bid in found.bids] == [0, 2] and found.revenue == Decimal("10.75")
    with pytest.raises(yinchaku.WrongSolution):
        yinchaku.winners(FILE, solution)
    with pytest.raises(yinchaku.StepLimit):
        yinchaku.winners(FILE, solution, 0, canonical=True)


@pytest.mark.parametrize("old, new, said", [
    ("x2 9.9999999e-01", "x2 0.5", "x2 is 0.5, and"),
    ("x1 0", "x1 1", "bids 1 and 2 win, and cannot both"),
    ("x2 9.9999999e-01\n", "", "its value is 10.75, and its bids bring 6.5"),
    ("1.0750000000000000e+01", "11", "its value is 11.0, and its bids bring 10.75"),
    ("x3", "x4", "it has x4, and the problem has 4 bids"),
    ("x3", "x70000", "it has x70000, and the problem has 4 bids"),
    ("Objective", "No", "no solution in the layout of cbc, "),
])
def test_wrong_solutions(old, new, said, tmp_path):
    """The error has the path of the solution."""
    assert old in GUROBI
    path = tmp_path / "solution"
    path.write_text(GUROBI.replace(old, new))
    for given, before in ((path.read_bytes(), ""), (path, f"{path}: ")):
        with pytest.raises(yinchaku.WrongSolution) as wrong:
            yinchaku.winners(FILE, given)
        assert str(wrong.value).startswith(before + said) and wrong.value.path == (path if before else None)


def test_no_bids():
    """A variable that stands for none is no bid."""
    empty = b"goods 2\nbids 0\ndummy 0\n"
    for solution in ("# Objective value = 0\nnone 1\n", "s mip 1 1 o 0\ni 1 1\nj 1 1\ne o f\n"):
        assert yinchaku.winners(empty, solution.encode()) == ([], 0)
    assert yinchaku.winners(BIDS, b"# Objective value = -7\nx0 1\nx1 1\n").revenue == 7
