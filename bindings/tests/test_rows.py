"""The rows of `explain`, `diff`, `bids` and `changes` are made when they are read, and are else as the list of them; and how they are shown."""
import collections.abc
import copy
import pickle
from decimal import Decimal

import pytest
from texts import BIDS

import yinchaku

XOR = b"goods 2\nbids 2\ndummy 2\n0 3 0 #\n1 4.50 1 3 #\n"
FOUR = BIDS.replace(b"bids 2", b"bids 4") + b"2 6.5 0 1 #\n3 7.5 0 1 #\n"


def test_rows_are_a_sequence():
    rows = yinchaku.explain(FOUR)
    listed = [
        yinchaku.Reason(0, None, Decimal(3), (0,), "keep", 0, ()),
        yinchaku.Reason(1, None, Decimal(4), (1,), "keep", 1, ()),
        yinchaku.Reason(2, None, Decimal("6.5"), (0, 1), "same", None, (3,)),
        yinchaku.Reason(3, None, Decimal("7.5"), (0, 1), "keep", 2, ()),
    ]
    assert isinstance(rows, collections.abc.Sequence)
    assert len(rows) == 4 and list(rows) == listed and list(reversed(rows)) == listed[::-1]
    assert rows[-1] == listed[-1] and rows[1:3] == listed[1:3] and rows[::2] == listed[::2]
    assert listed[2] in rows and rows.index(listed[2]) == 2 and rows.count(listed[0]) == 1
    assert rows == listed and listed == rows and rows == yinchaku.explain(FOUR) and rows != listed[1:] and rows != tuple(listed)
    for made in (pickle.loads(pickle.dumps(rows)), copy.copy(rows), copy.deepcopy(rows)):
        assert made == rows
    with pytest.raises(IndexError):
        rows[4]


def test_rows_of_diff():
    """Prices are exact, the numbers of goods are ints, and a cell without anything is None."""
    one = b"goods 3\nbids 4\ndummy 2\n0 3 0 #\n1 2 0 4 #\n2 2.50 0 1 4 #\n3 2 1 3 #\n"
    other = b"goods 12\nbids 4\ndummy 3\n0 4 10 11 #\n1 1 0 14 #\n2 3 1 0 14 #\n3 3 0 1 14 #\n"
    rows = yinchaku.diff(one, other)
    assert list(rows) == [
        ("goods", (), 3, 12, None, None, None, None),
        ("or", (0,), Decimal(3), None, None, None, 0, None),
        ("or", (10, 11), None, Decimal(4), None, None, None, 0),
        ("xor", (0,), Decimal(2), Decimal(1), 1, 2, 1, 1),
        ("xor", (0, 1), Decimal("2.5"), Decimal(3), 1, 2, 2, 2),
        ("xor", (1,), Decimal(2), None, 0, None, 3, None),
    ]
    assert [type(row.right) for row in rows] == [int, type(None), Decimal, Decimal, Decimal, type(None)]
    assert all(type(row) is yinchaku.Difference for row in rows)


def test_no_rows_are_false():
    assert not yinchaku.diff(BIDS, BIDS) and yinchaku.diff(BIDS, BIDS) == [] and yinchaku.diff(BIDS, FOUR)


def test_a_row_is_made_when_it_is_read():
    made = []
    rows = yinchaku.Rows([b"one", b"two", b"three"], lambda line: made.append(line) or (line,), ("word",))
    assert len(rows) == 3 and rows[1:] and made == []
    assert rows[1] == (b"two",) and made == [b"two"]
    assert next(iter(rows)) == (b"one",) and made == [b"two", b"one"]


def test_data_frames():
    pandas = pytest.importorskip("pandas")
    frame = pandas.DataFrame(yinchaku.diff(BIDS, FOUR))
    assert list(frame.columns) == ["kind", "goods", "left", "right", "left_dummy", "right_dummy", "left_bid", "right_bid"]
    assert frame.values.tolist() == [["or", (0, 1), None, Decimal("7.5"), None, None, None, 3]]
    frame = pandas.DataFrame(yinchaku.read(FOUR).bids)
    assert list(frame.columns) == ["number", "price", "goods", "dummy"] and frame.price.sum() == 21
    frame = pandas.DataFrame(yinchaku.explain(FOUR))
    assert list(frame.columns) == ["bid", "dummy", "price", "goods", "reason", "kept", "by"] and list(frame.reason) == ["keep", "keep", "same", "keep"]
    assert pandas.DataFrame(yinchaku.diff(BIDS, BIDS)).empty
    frame = pandas.DataFrame(yinchaku.sizes([BIDS, b"no file"]))
    assert list(frame.columns) == [*yinchaku.SizesRow._fields] and list(frame.fault) == [None, "line 1: Header"]


def test_to_pandas():
    """Each column is there without rows too, prices are exact, and ints beside nothing stay ints."""
    pytest.importorskip("pandas")
    bids = yinchaku.read(XOR).bids
    frame = bids.to_pandas()
    assert list(frame.columns) == ["number", "price", "goods", "dummy"] and list(frame.price) == [bid.price for bid in bids]
    assert frame.dummy.dtype == "Int64" and list(frame.dummy.dropna()) == [1] and list(frame.goods) == [bid.goods for bid in bids]
    assert list(yinchaku.diff(BIDS, BIDS).to_pandas().columns) == [*yinchaku.Difference._fields]
    assert yinchaku.Auction.from_bids(2, frame.itertuples(index=False)).bids == bids
    reasons = yinchaku.explain(XOR).to_pandas().set_index("bid")
    assert (frame.set_index("number").dummy.dropna() == reasons.dummy.dropna()).all()


def test_what_is_shown():
    """The first and the last three rows, and how many there are."""
    few, many = yinchaku.explain(FOUR), rows_of(1_000)
    assert repr(few) == "\n ".join(["<Rows: 4", *map(repr, few)]) + ">"
    assert repr(many) == "\n ".join(["<Rows: 1000", *map(repr, many[:3]), "..", *map(repr, many[-3:])]) + ">"
    assert repr(rows_of(0)) == "<Rows: 0>" and repr(rows_of(6)).count("(number=") == 6
    wide = repr(yinchaku.Rows([b"x"], lambda line: (tuple(range(4_096)),), ("goods",)))
    assert len(wide) < 200 and wide.endswith("..>")


def test_what_notebooks_show():
    table = rows_of(1_000)._repr_html_()
    assert table.count("<tr>") == 8 and table.count("<th>") == 4 and "Rows: 1000" in table and len(table) < 2_000
    assert "<td>2</td><td>4</td><td>0 1</td><td>0</td>" in rows_of(3)._repr_html_()
    html = yinchaku.Rows([b"<b>&"], lambda line: (line.decode(), None), ("<a>", "c"))._repr_html_()
    assert "<td>&lt;b&gt;&amp;</td><td></td>" in html and "<th>&lt;a&gt;</th>" in html and "Rows: 1<" in html


def rows_of(many):
    """The bids of an auction with so many."""
    return yinchaku.Auction.from_bids(2, [(number + 2, (0, 1), 0) for number in range(many)]).bids
