"""The package as a whole: its names, its version, its arguments, and where it finds the library."""
import ast
import builtins
import doctest
import importlib
import mmap
import os
import pathlib
import pkgutil
import re
import shutil
import signal
import subprocess
import sys
import tracemalloc
import types
import typing
from concurrent.futures import ThreadPoolExecutor
from decimal import Decimal

import pytest
from functions import OF_TEXT, TAKEN
from texts import BIDS

import yinchaku
from yinchaku import _library

MODULES = ["yinchaku", *(f"yinchaku.{it.name}" for it in pkgutil.iter_modules(yinchaku.__path__))]

# Each function of a text, with that text in each place.
CALLS = {**OF_TEXT, "normalise, rounded": lambda text: yinchaku.normalise(text, round=True), "round_prices": yinchaku.round_prices}


@pytest.mark.parametrize("name", MODULES)
def test_examples(name):
    found = doctest.testmod(importlib.import_module(name))
    assert found.failed == 0


def test_there_are_examples():
    assert sum(doctest.testmod(importlib.import_module(name)).attempted for name in MODULES) > 15


def test_where_the_examples_are(root, library):
    ran = subprocess.run([sys.executable, "-B", "-m", "yinchaku.examples"], env={**os.environ, "PYTHONPATH": str(library)}, stdout=subprocess.PIPE, check=True)
    assert (pathlib.Path(os.fsdecode(ran.stdout[:-1])) / "examples/ladder.cats").samefile(root / "examples/ladder.cats")


def test_no_name_hides_one_of_python():
    assert [name for name in yinchaku.__all__ if hasattr(builtins, name) or not hasattr(yinchaku, name)] == []
    assert len(set(yinchaku.__all__)) == len(yinchaku.__all__)
    star = {}
    exec("from yinchaku import *", star)
    assert "round" not in star and star["Auction"] is yinchaku.Auction


def test_each_command_has_a_function():
    """But `fault`, which the fields of a RefusedText are made of, and `round`, whose name is one of Python's."""
    assert TAKEN.keys() - {*yinchaku.__all__} == {"fault", "round"}


def test_what_cats_h_declares(root):
    """Its numbers and the fields of its structs are those here, and each command is a function."""
    header = re.sub(r"//.*", "", (root / "bindings/cats.h").read_text())
    for kind in (_library.Task, _library.Status, _library.Prices):
        declared = re.search(rf"enum cats_{kind.__name__.lower()} {{(.*?)}};", header, re.S)[1]
        assert {name: int(number) for name, number in re.findall(r"CATS_(\w+) = (\d+)", declared)} == dict(kind.__members__)
    for name, kind in (("request", _library.Request), ("text", _library.Text)):
        declared = re.search(rf"struct cats_{name} {{(.*?)\n}};", header, re.S)[1]
        assert re.findall(r"(\w+);", declared) == [name for name, _ in kind._fields_]
    assert {*re.findall(r"uint8_t cats_(\w+)\(", header)} - {"call", "run", "run_usual"} == TAKEN.keys()
    for name in ("STEPS", "TOTAL", "NO_TOTAL"):
        assert re.search(rf"#define CATS_{name} (\d+)", header)[1] == str(getattr(_library, name))


def test_version(root):
    cited = re.search(r"^version: (\S+)$", (root / "CITATION.cff").read_text(), re.M)
    assert yinchaku.__version__ == cited[1]


@pytest.mark.parametrize("name", MODULES)
def test_sources_are_of_python_3_8(name):
    """Its syntax is, and each module is short."""
    path = importlib.import_module(name).__file__
    with open(path, encoding="ascii") as file:
        text = file.read()
    ast.parse(text, feature_version=(3, 8))
    assert text.count("\n") < 500


def test_types_are_there():
    """Each public function and method has types, which can be looked up."""
    assert os.path.exists(os.path.join(os.path.dirname(yinchaku.__file__), "py.typed"))
    functions = [it for it in vars(yinchaku).values() if callable(it) and not isinstance(it, type)]
    functions += [it for it in vars(yinchaku.Auction).values() if callable(it)]
    assert len(functions) > 12
    for function in functions:
        assert "return" in (typing.get_type_hints(function) if sys.version_info >= (3, 9) else function.__annotations__)


@pytest.mark.parametrize("call", CALLS.values(), ids=CALLS)
def test_texts(call, tmp_path):
    """A text is bytes or what is like bytes, or a path."""
    path = tmp_path / "text"
    path.write_bytes(BIDS)
    wanted = call(BIDS)

    class PathOfBytes:
        def __fspath__(self):
            return os.fsencode(path)

    with open(path, "rb") as file, mmap.mmap(file.fileno(), 0, access=mmap.ACCESS_READ) as pages:
        for text in (bytearray(BIDS), memoryview(BIDS), memoryview(BIDS + b" ")[:-1], pages, path, PathOfBytes(), yinchaku.read(path)):
            assert call(text) == wanted
    with pytest.raises(FileNotFoundError):
        call(tmp_path / "none")
    for text in (None, 3, [1, 2]):
        with pytest.raises(TypeError):
            call(text)


@pytest.mark.parametrize("call", CALLS.values(), ids=CALLS)
@pytest.mark.parametrize("text", ["examples/ladder.cats", BIDS.decode()])
def test_a_str_is_refused(call, text):
    """With both ways to mend that, since it may be a path or a text."""
    with pytest.raises(TypeError) as refused:
        call(text)
    assert "pathlib.Path(" in str(refused.value) and ".encode()" in str(refused.value)


def test_limits():
    for steps in (-1, 2**64):
        with pytest.raises(ValueError):
            yinchaku.normalise(BIDS, steps)
    for total in (0, -1, 2**64):
        with pytest.raises(ValueError):
            yinchaku.normalise(BIDS, total=total)
    assert yinchaku.normalise(BIDS, 2**64 - 1, total=2**64 - 1) == yinchaku.normalise(BIDS)
    for limits in ({"steps": 3.0}, {"steps": None}, {"total": 3.0}):
        with pytest.raises(TypeError):
            yinchaku.normalise(BIDS, **limits)


def test_goods():
    """No good is taken for another one."""
    assert yinchaku.value(BIDS, (it for it in (1, 0, 1))) == yinchaku.value(BIDS, {0, 1}) == yinchaku.Value(7, (0, 1), ())
    assert yinchaku.value(BIDS, ()) == yinchaku.Value(0, (), ())
    for good in (2, 65535, 65536, 65537, 2**64, -1):
        with pytest.raises(yinchaku.NoSuchGood) as lacking:
            yinchaku.value(BIDS, [0, good, 9])
        assert lacking.value.good == good and str(lacking.value) == f"good {good} out of range"
    for goods in ([0.0], ["0"], "0", 0, None):
        with pytest.raises(TypeError):
            yinchaku.value(BIDS, goods)


def test_bids():
    """No bid is taken for another one."""
    wanted = yinchaku.Allocation(Decimal(7), None, None, None, None)
    assert yinchaku.revenue(BIDS, (it for it in (1, 0, 1))) == yinchaku.revenue(BIDS, {0, 1}) == yinchaku.read(BIDS).revenue([1, 0]) == wanted
    assert yinchaku.revenue(BIDS, ()) == yinchaku.Allocation(Decimal(0))
    for bid in (2, 65536, 2**32 - 1, 2**32, 2**32 + 1, -1):
        with pytest.raises(yinchaku.NoSuchBid) as lacking:
            yinchaku.revenue(BIDS, [0, bid, 9])
        assert lacking.value.bid == bid and str(lacking.value) == f"bid {bid} out of range"
    for bids in ([0.0], ["0"], "0", 0, None):
        with pytest.raises(TypeError):
            yinchaku.revenue(BIDS, bids)


def test_bids_that_cannot_both_win():
    text = b"goods 2\nbids 3\ndummy 2\n0 3 0 3 #\n1 1.5 1 3 #\n2 4 1 #\n"
    assert yinchaku.revenue(text, [0, 2]).revenue == 7
    assert yinchaku.revenue(text, [2, 1]) == yinchaku.Allocation(None, 1, 2, good=1)
    assert yinchaku.revenue(text, [2, 1, 0]) == yinchaku.Allocation(None, 0, 1, dummy=1)


def test_many_dummy_goods():
    """Each has a row, for which a text needs no byte."""
    found = yinchaku.value(b"goods 1\nbids 1\ndummy 65536\n0 2.50 0 3 #\n", [0])
    assert len(found.xor) == 65_536 and found.xor[0] == (0, 0, None) and found.xor[2] == (2, Decimal("2.5"), 0)


def test_room():
    """`round_prices` takes room for what it prints, and not for what it might."""
    text = BIDS + b"%" * 1_000_000
    tracemalloc.start()
    rounded = yinchaku.round_prices(text)
    _, most = tracemalloc.get_traced_memory()
    tracemalloc.stop()
    assert rounded == (text, []) and most < 2.5 * len(text)


def test_outputs_that_are_cut():
    """Each of them is larger than what is tried first."""
    lines = [b"%d 1.00000049 0 #\n" % at for at in range(2_000)]
    many = yinchaku.round_prices(b"goods 1\nbids 2000\ndummy 0\n" + b"".join(lines))
    assert len(many.changes) == 2_000 and many.changes[-1] == (2003, "1.00000049", "1") and yinchaku.check(many.text).bids == 2_000
    found = yinchaku.value(b"goods 1\nbids 1\ndummy 9999\n0 2.50 0 3 #\n", [0])
    assert len(found.xor) == 9_999 and found == yinchaku.value(b"goods 1\nbids 1\ndummy 9999\n0 2.50 0 3 #\n", [0])
    bundle = b" ".join(b"%d" % good for good in range(4_096))
    with pytest.raises(yinchaku.StepLimit) as limit:
        yinchaku.normalise(b"goods 4096\nbids 1\ndummy 0\n0 3 " + bundle + b" #\n", 0)
    assert limit.value.bundle == tuple(range(4_096))


# ---- what a call is made with is used again

def test_nothing_is_kept():
    """No call keeps its text."""
    text = BIDS + b"%" * 1_000
    count = sys.getrefcount(text)
    for call in CALLS.values():
        call(text)
    assert sys.getrefcount(text) == count


def test_calls_at_once():
    """Calls of other threads, or one in the handler of a signal, change nothing of a call."""
    texts = [BIDS.replace(b" 4 1 ", b" %d %s " % (number, b"0 1" if number % 2 else b"1")) for number in range(50)]
    wanted = [(yinchaku.show(text), yinchaku.value(text, [number % 2]), yinchaku.revenue(text, [1])) for number, text in enumerate(texts)]

    def make_calls(_):
        for number, text in enumerate(texts * 20):
            number %= len(texts)
            assert (yinchaku.show(text), yinchaku.value(text, [number % 2]), yinchaku.revenue(text, [1])) == wanted[number]

    made = []
    signal.signal(signal.SIGALRM, lambda *_: made.append(yinchaku.value(texts[0], [0, 1])))
    signal.setitimer(signal.ITIMER_REAL, 0.001, 0.001)
    try:
        with ThreadPoolExecutor(8) as pool:
            others = pool.map(make_calls, range(8))
            make_calls(None)
            assert list(others) == [None] * 8
    finally:
        signal.setitimer(signal.ITIMER_REAL, 0)
        signal.signal(signal.SIGALRM, signal.SIG_DFL)
    assert len(made) > 10 and len(set(made)) == 1


# ---- where the library is looked for

def run_beside(folder, **environment):
    """The path of the library that a package in a folder takes, or the last line of what it prints."""
    words = [sys.executable, "-B", "-c", "import yinchaku, yinchaku._library; print(yinchaku.check(b'goods 1\\nbids 0\\ndummy 0\\n').goods, yinchaku._library.LIBRARY._name)"]
    environment = {**os.environ, "PYTHONPATH": str(folder), **environment}
    ran = subprocess.run(words, env=environment, cwd=folder, stdout=subprocess.PIPE, stderr=subprocess.STDOUT, universal_newlines=True)
    return ran.stdout.splitlines()[-1]


@pytest.fixture
def installed(library, tmp_path):
    """A folder with the package in it, without a library."""
    shutil.copytree(library / "yinchaku", tmp_path / "lib/yinchaku", ignore=shutil.ignore_patterns("*.so*", "__pycache__"))
    return tmp_path / "lib"


def test_the_library_is_found(installed, library, tmp_path):
    system = tmp_path / "system"
    system.mkdir()
    places = [(system, "libcats.so"), (system, "libcats.so.2"), (installed, "libcats.so.2"), (installed, "libcats.so"), (installed / "yinchaku", "libcats.so")]
    for folder, name in places:
        shutil.copy(library / "libcats.so", folder / name)
        found = run_beside(installed, LD_LIBRARY_PATH=str(system))
        assert found == f"1 {name if folder == system else folder / name}"


def test_no_library(installed, tmp_path):
    found = run_beside(installed, LD_LIBRARY_PATH=str(tmp_path))
    if not found.startswith("1 "):
        assert found.startswith("ImportError: ") and str(installed) in found
    (installed / "libcats.so").write_text("no library")
    assert run_beside(installed).startswith(f"ImportError: the library cannot be loaded: {installed / 'libcats.so'}: ")


def test_a_library_of_another_version(monkeypatch):
    """Only its patch may be another one."""
    for number, is_taken in ((100, True), (199, True), (99, False), (200, False), (10_100, False)):
        monkeypatch.setattr(_library, "LIBRARY", types.SimpleNamespace(cats_version=lambda: number, _name="it"))
        if is_taken:
            _library.check_version("0.1.7")
        else:
            with pytest.raises(ImportError):
                _library.check_version("0.1.7")


def test_another_library(installed):
    """A library that lacks a function is one of another version."""
    import _ctypes

    shutil.copy(_ctypes.__file__, installed / "libcats.so")
    found = run_beside(installed)
    assert found.startswith("ImportError: ") and "cats_version" in found and "version" in found
