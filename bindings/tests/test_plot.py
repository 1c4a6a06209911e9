"""What the pictures draw: numbers of points, labels, and cells, and no pixels. The answers on the small auctions are written by hand."""
import os
import subprocess
import sys
from decimal import Decimal

import matplotlib
import pytest
from matplotlib import pyplot

import yinchaku
from yinchaku import plot
from yinchaku._drawing import VERMILION

from texts import BIDS

matplotlib.use("Agg")

# A bid of each reason. No bid has the good 3 or the second dummy good.
FILE = b"""goods 4
bids 9
dummy 2
0 3 0 #
1 4 1 #
2 7 0 1 #
3 2 0 #
4 0 1 #
5 5 0 4 #
6 5 0 1 4 #
7 1.25 2 #
8 6 2 4 #
"""

# The same, with a bid of each side.
OTHER = b"""goods 4
bids 6
dummy 2
0 3 0 #
1 4.5 1 #
2 5.5 0 4 #
3 6 2 4 #
4 9 3 #
5 2 1 5 #
"""

EMPTY = b"goods 1\nbids 0\ndummy 0\n"
BROKEN = b"goods 2\nbids 1\ndummy 0\n0 1e3 0 #\n"


@pytest.fixture(autouse=True)
def closed():
    yield
    pyplot.close("all")


def points_of(ax):
    """The points by the labels of the legend, which count them, without lines."""
    return {line.get_label(): sorted(zip(*line.get_data())) for line in ax.lines if line.get_marker() != "None"}


def legend_of(ax):
    return [text.get_text() for text in ax.get_legend().get_texts()] if ax.get_legend() else []


def steps_of(ax):
    """The heights of the bars."""
    return [list(patch.get_data().values) for patch in ax.patches]


def given_ways(text, tmp_path):
    """A text, its path, its auction, and the rows of `explain`."""
    path = tmp_path / "it.cats"
    path.write_bytes(text)
    return text, path, yinchaku.read(path), yinchaku.explain(text), list(yinchaku.explain(text))


# ---- bids

def test_bids(tmp_path):
    for given in given_ways(FILE, tmp_path):
        ax = plot.bids(given)
        found = points_of(ax)
        assert legend_of(ax) == list(found) == [
            "kept (5)", "dropped: zero (1)", "dropped: same (1)", "dropped: inside (1)", "dropped: packing (1)"
        ]
        # columns beside each whole number, in the order of the legend
        rounded = {label: [(round(across), price) for across, price in points] for label, points in found.items()}
        assert list(rounded.values()) == [[(1, 1.25), (1, 3), (1, 4), (1, 5), (1, 6)], [(1, 0)], [(1, 2)], [(2, 5)], [(2, 7)]]
        assert [points[0][0] - round(points[0][0]) for points in found.values()] == pytest.approx([-0.24, -0.12, 0, 0.12, 0.24])
        assert "goods" in ax.get_xlabel() and "price" in ax.get_ylabel()


def test_no_bids():
    for draw in (plot.bids, plot.goods, plot.conflicts):
        ax = draw(EMPTY)
        assert points_of(ax) == {} and not ax.images
    assert legend_of(plot.bids(EMPTY)) == []


def test_many_points_are_an_image():
    row = yinchaku.explain(BIDS)[0]
    assert [plot.bids([row] * many).lines[0].get_rasterized() for many in (10_000, 10_001)] == [False, True]


def test_given_axes():
    _, (left, right) = pyplot.subplots(1, 2)
    assert plot.bids(FILE, right) is plot.conflicts(FILE, ax=right) is right
    assert plot.sizes([FILE], (left, right)) == (left, right)
    assert len(pyplot.get_fignums()) == 1


# ---- goods

def test_goods(tmp_path):
    *texts, rows, listed = given_ways(FILE, tmp_path)
    for given in texts:
        ax = plot.goods(given)
        assert legend_of(ax) == ["before: all bids (9)", "after: kept bids (5)"]
        assert steps_of(ax) == [[5, 4, 2, 0], [2, 1, 2, 0]]
    for given in (rows, listed):
        assert steps_of(plot.goods(given)) == [[5, 4, 2], [2, 1, 2]]


# ---- difference

def test_difference(tmp_path):
    left, right = tmp_path / "a $x$ b.cats", tmp_path / "c.cats"
    left.write_bytes(FILE)
    right.write_bytes(OTHER)
    for given in ((FILE, OTHER), (left, right), (yinchaku.read(left), right), (yinchaku.diff(left, right),), (list(yinchaku.diff(left, right)),)):
        ax = plot.difference(*given)
        assert points_of(ax) == {
            "OR, on both (1)": [(4, 4.5)], "OR, left only (1)": [(1.25, 0)], "OR, right only (1)": [(0, 9)], "XOR, on both (1)": [(5, 5.5)],
            "XOR, right only (1)": [(0, 2)],
        }
        assert legend_of(ax) == ["equal prices", *points_of(ax)]
    ax = plot.difference(left, right)
    assert (ax.get_xlabel(), ax.get_ylabel()) == (r"price on the left (a \$x\$ b.cats), 0 if none", "price on the right (c.cats), 0 if none")


def test_difference_of_goods():
    ax = plot.difference(BIDS, BIDS.replace(b"goods 2", b"goods 3"))
    assert points_of(ax) == {} and ax.get_legend().get_title().get_text() == "2 goods on the left, 3 on the right"


def test_no_difference():
    ax = plot.difference(BIDS, BIDS)
    assert not ax.lines and [text.get_text() for text in ax.texts] == ["the same auction"]


def test_one_text_has_no_difference():
    for given in ((BIDS,), (yinchaku.diff(BIDS, FILE), BIDS)):
        with pytest.raises(TypeError, match="two texts"):
            plot.difference(*given)


# ---- sizes

@pytest.fixture
def folder(tmp_path):
    """Two folders with a file that is refused, and a third of which the legend would leave the name out."""
    for name, text in {"one/a.cats": FILE, "one/b.cats": BIDS, "two/c.cats": EMPTY, "two/d.cats": BROKEN, "_three/e.cats": BIDS}.items():
        (tmp_path / name).parent.mkdir(exist_ok=True)
        (tmp_path / name).write_bytes(text)
    return tmp_path


def medians(ax):
    return [line.get_ydata()[0] for line in ax.lines if line.get_color() == VERMILION]


def test_sizes(folder):
    files = sorted(path for path in folder.rglob("*.cats"))
    for given in (folder, files, yinchaku.sizes(folder), list(yinchaku.sizes(files))):
        left, right = plot.sizes(given)
        # 4 goods and a bidder, with 9 bids of which 5 are kept; 2 goods and 2 bids
        assert points_of(right) == {"./_three (1)": [(4, 4)], "one (2)": [(4, 4), (45, 25)], "two (1)": [(0, 0)]}
        assert legend_of(right) == ["as before", *points_of(right)] and right.get_xscale() == "symlog"
        assert [label.get_text() for label in left.get_xticklabels()] == ["./_three (1)", "one (2)", "two (0)"]
        assert medians(left)[:2] == pytest.approx([100, (100 * 5 / 9 + 100) / 2])
        assert legend_of(left) == ["half of the files", "median"]


def test_sizes_of_one_folder(folder):
    left, right = plot.sizes(folder / "one")
    assert list(points_of(right)) == ["one (2)"] and right.get_xscale() == "log"
    assert legend_of(plot.sizes([FILE, BIDS])[1]) == ["as before", "no file (2)"]
    left, right = plot.sizes([])
    assert not left.lines and not right.lines


# ---- conflicts

def test_conflicts(tmp_path):
    """The canonical text has the bids 0, 1, 7, 5 and 8 of the file."""
    wanted = [[3, 0, 0, 1, 0], [0, 3, 0, 0, 0], [0, 0, 3, 0, 1], [1, 0, 0, 3, 2], [0, 0, 1, 2, 3]]
    for given in (*given_ways(FILE, tmp_path), yinchaku.read(FILE).normalise().bids):
        ax = plot.conflicts(given)
        assert ax.images[0].get_array().tolist() == wanted
        assert legend_of(ax) == ["share a good (pairs: 2)", "only of one XOR bidder (pairs: 1)", "the bid itself"]


def test_too_many_conflicts():
    bid = yinchaku.Bid(0, Decimal(1), (0,))
    assert plot.conflicts([bid] * 2000).images[0].get_array().shape == (2000, 2000)
    with pytest.raises(ValueError, match="at most 2,000 bids, and not of 2,001"):
        plot.conflicts([bid] * 2001)


# ---- all of them

def test_what_is_refused(tmp_path):
    path = tmp_path / "broken.cats"
    path.write_bytes(BROKEN)
    for draw in (plot.bids, plot.goods, plot.conflicts, lambda it, **limits: plot.difference(it, BIDS, **limits)):
        with pytest.raises(yinchaku.RefusedText) as refused:
            draw(path)
        assert (refused.value.path, refused.value.line) == (path, 4)
        with pytest.raises(TypeError, match="no str"):
            draw(str(path))
        with pytest.raises(yinchaku.StepLimit):
            draw(FILE, steps=0)
        draw(path, round=True)


def test_styles_are_told_apart():
    for styles in (plot.REASONS, plot.SIDES):
        assert len({it.colour for it in styles.values()}) == len({it.marker for it in styles.values()}) == len(styles)
    turns = range(len(plot.COLOURS) * len(plot.MARKERS))
    assert len({(plot.COLOURS[it % len(plot.COLOURS)], plot.MARKERS[it % len(plot.MARKERS)]) for it in turns}) == len(turns) == 42


# ---- the command

@pytest.fixture
def command(folder, monkeypatch, capsys):
    """Runs the command in that folder: its status, and its lines on standard error."""
    def run(*words):
        monkeypatch.chdir(folder)
        try:
            status = plot.main(list(map(str, words)))
        except SystemExit as ended:
            status = ended.code
        said = capsys.readouterr()
        assert said.out == ""
        return status, said.err.splitlines()

    return run


def run_python(library, folder, *words):
    """The same by a Python of its own."""
    ran = subprocess.run(
        [sys.executable, "-B", *map(str, words)], cwd=folder, env={**os.environ, "PYTHONPATH": str(library)}, stdin=subprocess.DEVNULL,
        stdout=subprocess.PIPE, stderr=subprocess.PIPE, universal_newlines=True,
    )
    return ran.returncode, ran.stdout, ran.stderr.splitlines()[-1:]


def test_command(command, folder, library):
    """A picture has the same bytes each time, whatever the settings are."""
    name = folder / "one/a b $c$.cats"
    name.write_bytes(FILE)
    for kind, files in {"bids": [name], "goods": [name], "difference": [name, "one/b.cats"], "sizes": ["one"], "conflicts": ["one/b.cats"]}.items():
        texts = []
        for size in (8, 20):
            with matplotlib.rc_context({"font.size": size, "svg.hashsalt": str(size)}):
                assert command(kind, *files, "-o", f"{kind}.svg") == (0, [])
            texts.append((folder / f"{kind}.svg").read_bytes())
        assert texts[0] == texts[1] and texts[0].startswith(b"<?xml") and b"<dc:date>" not in texts[0]
    assert "(a b $c$.cats)" in (folder / "difference.svg").read_text()
    assert run_python(library, folder, "-m", "yinchaku.plot", "bids", name, "-o", "a b.svg")[:2] == (0, "")
    assert (folder / "a b.svg").read_bytes() == (folder / "bids.svg").read_bytes()


def test_command_on_a_refused_file(command, folder, library):
    for kind, *files in (["bids", "two/d.cats"], ["difference", "one/a.cats", "two/d.cats"], ["goods", "two/d.cats"], ["conflicts", "two/d.cats"]):
        assert command(kind, *files, "-o", "it.svg") == (2, ["two/d.cats:4:3: NotANumber"])
    assert run_python(library, folder, "-m", "yinchaku.plot", "bids", "two/d.cats", "-o", "it.svg") == (2, "", ["two/d.cats:4:3: NotANumber"])
    assert not (folder / "it.svg").exists()
    assert command("sizes", ".", "none.cats", "-o", "all.png") == (5, ["two/d.cats: line 4: NotANumber", "none.cats: cannot open: no such file"])
    assert command("sizes", "one/a.cats", "two", "-o", "two.pdf") == (2, ["two/d.cats: line 4: NotANumber"])
    assert (folder / "all.png").exists() and (folder / "two.pdf").exists()
    assert command("bids", "two/d.cats", "--round", "-o", "it.svg") == (0, [])
    status, lines = command("bids", "one/a.cats", "--steps", 0, "-o", "it.svg")
    assert status == 3 and len(lines) == 1


def test_wrong_commands(command):
    for words, said in {
        ("bids", "one/a.cats", "one/b.cats", "-o", "it.svg"): "bids is of 1 file, and not of 2",
        ("difference", "one/a.cats", "-o", "it.svg"): "difference is of 2 files, and not of 1",
        ("bids", "one/a.cats"): "required: -o",
        ("colours", "one/a.cats", "-o", "it.svg"): "invalid choice",
    }.items():
        status, lines = command(*words)
        assert status == 64 and said in lines[-1]
    for words, wanted in {
        ("bids", "one/a.cats", "-o", "it.words"): 64, ("bids", "one/a.cats", "--steps", "-1", "-o", "it.svg"): 64,
        ("bids", "one", "-o", "it.svg"): 5, ("bids", "none.cats", "-o", "it.svg"): 5, ("bids", "one/a.cats", "-o", "none/it.svg"): 5,
    }.items():
        status, lines = command(*words)
        assert status == wanted and len(lines) == 1


def test_matplotlib_is_missing(library, folder):
    """The module is imported without it. What draws says what to install."""
    code = "import sys; sys.modules['matplotlib'] = None; from yinchaku import plot; sys.exit(plot.main())"
    status, out, (line,) = run_python(library, folder, "-c", code, "bids", "one/a.cats", "-o", "it.svg")
    assert (status, out) == (70, "") and "pip install 'yinchaku[plot]'" in line and "python3-matplotlib" in line
