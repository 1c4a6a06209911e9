"""What a class says of itself counts nowhere: texts, paths, numbers and prices of classes that say other things are taken by their values."""
import array
import mmap
import os
import pathlib
import tempfile
from decimal import Decimal

import pytest
from functions import OF_TEXT
from texts import BIDS

import yinchaku

# What an object of such a class answers.
SAID = {
    "__bool__": False, "__bytes__": b"no file", "__complex__": 1j, "__contains__": True, "__ceil__": 1, "__float__": 1.5, "__floor__": 1, "__format__": "9",
    "__hash__": 0, "__index__": 1, "__int__": 1, "__len__": 1 << 24, "__length_hint__": 1 << 24, "__repr__": "9", "__round__": 1, "__str__": "9", "__trunc__": 1,
    "__sizeof__": 1, "__getitem__": 7,
    **dict.fromkeys(["__eq__", "__ne__", "__lt__", "__le__", "__gt__", "__ge__"], True),
    **dict.fromkeys(["__abs__", "__add__", "__and__", "__mod__", "__mul__", "__neg__", "__pos__", "__radd__", "__rmod__", "__rmul__", "__sub__", "__rsub__"], 3),
}


def answer(said):
    return lambda self, *words, **named: said


def lying(base):
    """A class whose objects have the values of those of another, and of which each method says something else."""
    named = {name: answer(None) for name in dir(base) if not name.startswith("_")}
    said = {name: answer(it) for name, it in SAID.items()}
    if base not in (int, str, Decimal):  # what a text is made of, from Python 3.12 on
        said["__buffer__"] = answer(memoryview(BIDS))
    return type(f"Lying_{base.__name__}", (base,), {**named, **said, "__iter__": lambda self: iter(range(9)), "__class__": property(answer(float))})


Bytes, Int, Price, Str = map(lying, (bytes, int, Decimal, str))


class Path:
    """A path that says that it is a number, too."""

    __index__ = __int__ = answer(2)

    def __init__(self, path):
        self.path = path

    def __fspath__(self):
        return self.path


@pytest.fixture(scope="module")
def texts():
    """The same text as an object of each kind that a text may be."""
    with tempfile.TemporaryFile() as file, tempfile.NamedTemporaryFile() as named:
        for it in (file, named):
            it.write(BIDS)
            it.flush()
        made = {base.__name__: lying(base)(BIDS) for base in (bytes, bytearray)}
        made.update(array=lying(array.array)("B", BIDS), mmap=lying(mmap.mmap)(file.fileno(), 0, access=mmap.ACCESS_READ))
        made.update({f"memoryview of {name}": memoryview(it) for name, it in made.items()})
        made.update({"every second byte": memoryview(bytes(it for byte in BIDS for it in (byte, 0)))[::2], "path": Path(pathlib.Path(named.name).as_posix())})
        yield {**made, "path, str": Path(Str(named.name)), "path, bytes": Path(Bytes(os.fsencode(named.name)))}


@pytest.mark.parametrize("call", [*OF_TEXT.values(), yinchaku.round_prices], ids=[*OF_TEXT, "round_prices"])
def test_texts(call, texts):
    wanted = call(BIDS)
    for name, text in texts.items():
        assert call(text) == wanted, name


def test_auctions(texts):
    class Lying(yinchaku.Auction):
        text = property(answer(Bytes(BIDS)))

    auction = yinchaku.read(BIDS)
    for text in [*texts.values(), Lying(Bytes(BIDS))]:
        assert auction.same_as(text) and not auction.diff(text)
    for text in texts.values():
        made = yinchaku.read(text)
        assert type(made.text) is bytes and made.text == BIDS and made.bids == auction.bids


def test_refused_texts():
    with pytest.raises(yinchaku.RefusedText) as refused:
        yinchaku.check(Bytes(BIDS + b"x"))
    assert (refused.value.line, refused.value.word, refused.value.text) == (6, 1, b"x")
    with pytest.raises(TypeError):
        yinchaku.check(Str(BIDS.decode()))
    with pytest.raises(TypeError):
        yinchaku.check(Int(3))


def test_written_paths(tmp_path):
    for path in (Str(tmp_path / "one"), Path(Str(tmp_path / "two")), Path(Bytes(os.fsencode(tmp_path / "three")))):
        yinchaku.read(BIDS).write(path)
    assert [it.read_bytes() for it in tmp_path.iterdir()] == [BIDS] * 3
    with pytest.raises(TypeError):
        yinchaku.read(BIDS).write(2)


class Changing(list):
    """A list that has fewer and other items each time, and says that it has more."""

    __len__ = answer(1 << 24)

    def __iter__(self):
        items = list.copy(self)
        self.clear()
        return iter(items)


def test_numbers():
    for numbers in ([Int(0), Int(1)], Changing([Int(0), Int(1)]), (Int(it) for it in range(2))):
        assert yinchaku.value(BIDS, numbers) == yinchaku.value(BIDS, [0, 1])
    for numbers in ([Int(0), Int(1)], Changing([Int(0), Int(1)]), (Int(it) for it in range(2))):
        assert yinchaku.revenue(BIDS, numbers) == yinchaku.revenue(BIDS, [0, 1])
    for call, error in ((yinchaku.value, yinchaku.NoSuchGood), (yinchaku.revenue, yinchaku.NoSuchBid)):
        for number in (-1, 2, 2**16, 2**32, 2**64, 10**5000, -10**5000):
            with pytest.raises(error, match="^(good|bid) .{1,40} out of range$"):
                call(BIDS, [Int(number)])


def test_limits():
    assert yinchaku.normalise(BIDS, Int(1000), total=Int(1000)) == yinchaku.normalise(BIDS)
    with pytest.raises(yinchaku.StepLimit):
        yinchaku.normalise(BIDS, Int(0))
    for limits in ({"steps": -1}, {"steps": 2**64}, {"total": 0}, {"total": 2**64}, {"steps": 10**5000}, {"total": 10**5000}, {"total": -10**5000}):
        with pytest.raises(ValueError, match="^(steps|total) is .{1,70}, and not .{1,40}$"):
            yinchaku.normalise(BIDS, **{name: Int(it) for name, it in limits.items()})


def test_bids():
    wanted = b"goods 2\nbids 2\ndummy 1\n0\t7.5\t0\t1\t#\n1\t3\t0\t2\t#\n"
    bids = [(Int(0), Price("7.5"), Changing([Int(1), Int(0)]), None), yinchaku.Bid(Int(1), Int(3), (Int(0),), Int(0))]
    assert yinchaku.Auction.from_bids(Int(2), Changing(bids)).text == wanted
    with pytest.raises(ValueError):
        yinchaku.Auction.from_bids(Int(2), [yinchaku.Bid(Int(0), Price(3), (Int(2),))])
    with pytest.raises(ValueError):
        yinchaku.Auction.from_bids(Int(2), [yinchaku.Bid(Int(0), Price(3), (Int(0),), Int(-1))])
