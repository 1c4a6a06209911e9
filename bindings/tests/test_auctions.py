"""An Auction has the bids that the program shows, reads no more than is used, and can be written."""
import copy
import pathlib
import pickle
import random
import tracemalloc
from decimal import Decimal
from functools import partial

import pytest
from beside import in_parallel, run_program, write_texts
from functions import FUNCTIONS, TAKEN
from texts import BIDS, made_texts, spelled_texts

import yinchaku
import yinchaku._auction

# The functions of one text that are methods.
METHODS = [name for name, taken in TAKEN.items() if "left" not in taken and callable(getattr(yinchaku.Auction, name, None))]

TWO = [yinchaku.Bid(0, Decimal("7.5"), (0, 1)), yinchaku.Bid(1, Decimal(3), (0,), 0)]


def layout_of(auction):
    """The layout of docs/FORMAT.md, as the program shows a file."""
    lines = [f"goods {auction.goods}", f"bids {len(auction.bids)}", f"dummy {auction.dummies}"]
    for bid in auction.bids:
        dummy = [] if bid.dummy is None else [auction.goods + bid.dummy]
        lines.append("\t".join(map(str, [bid.number, bid.price, *bid.goods, *dummy, "#"])))
    return "".join(line + "\n" for line in lines).encode()


@pytest.fixture(scope="module")
def shown(program, root, tmp_path_factory):
    """Texts, with what `cats show` answers."""
    texts = [path.read_bytes() for path in sorted(root.glob("examples/**/*.[ct]*")) if path.is_file()] + made_texts() + spelled_texts()
    paths = write_texts(tmp_path_factory.mktemp("shown"), texts)
    return list(zip(texts, in_parallel(run_program, [(program, ["show", path]) for path in paths])))


def test_bids_are_those_that_the_program_shows(shown):
    statuses = []
    for text, own in shown:
        statuses.append(own.status)
        if own.status == 0:
            auction = yinchaku.read(text)
            assert (layout_of(auction), auction.text) == (own.out, text)
            assert [bid.number for bid in auction.bids] == list(range(len(auction.bids)))
            assert all(list(bid.goods) == sorted(bid.goods) and type(bid.price) is Decimal for bid in auction.bids)
        else:
            with pytest.raises(yinchaku.RefusedText) as refused:
                yinchaku.read(text)
            assert f"{refused.value}\n".encode() == own.err
    assert statuses.count(0) > 500 and statuses.count(2) > 400


def test_bids_can_be_written(shown):
    """An auction that is made of the bids of another has these, and mostly its layout: it has no dummy goods behind those of its bids."""
    for text, own in shown:
        if own.status == 0:
            auction = yinchaku.read(text)
            made = yinchaku.Auction.from_bids(auction.goods, auction.bids)
            assert made.bids == auction.bids and made.goods == auction.goods and made.dummies <= auction.dummies
            assert made.text == own.out or made.dummies < auction.dummies


def test_only_what_is_used_is_read(monkeypatch):
    read = []
    own_lines, own_bid = yinchaku._auction.bid_lines, yinchaku._auction.bid_of
    monkeypatch.setattr(yinchaku._auction, "bid_lines", lambda text: read.append("lines") or own_lines(text))
    monkeypatch.setattr(yinchaku._auction, "bid_of", lambda line, goods: read.append("bid") or own_bid(line, goods))
    auction = yinchaku.read(BIDS)
    assert (auction.goods, auction.dummies, auction.text, repr(auction)) == (2, 0, BIDS, "<Auction goods=2 bids=2 dummies=0>")
    assert auction.normalise().text == yinchaku.normalise(BIDS) and auction.same_as(BIDS) and read == []
    assert len(auction.bids) == 2 and read == ["lines"]
    assert auction.bids[1] == yinchaku.Bid(1, Decimal(4), (1,)) and read == ["lines", "bid"]


def words_of(name, auction):
    """The goods or bids that a function of the library takes: as many as there are goods."""
    return [range(auction.goods) for kind in ("goods", "bids") if kind in TAKEN[name]]


def test_methods_answer_as_the_functions(root, tmp_path):
    paths = [root / "examples" / name for name in ("ladder.cats", "ladder_with_synergy.cats", "ladder_rewritten.cats")]
    one, other, same = map(yinchaku.read, paths)
    assert one.text == paths[0].read_bytes()
    assert one.normalise().text == same.normalise().text
    for name in METHODS:
        found = getattr(one, name)(*words_of(name, one))
        wanted = FUNCTIONS[name](paths[0], *words_of(name, one))
        assert getattr(found, "text", found) == (next(wanted) if name == "sizes" else wanted)
    for right in (other, other.text, paths[1]):
        assert one.diff(right) == yinchaku.diff(paths[0], paths[1]) and len(one.diff(right)) == 1 and not one.same_as(right)
    for right in (same, same.text, paths[2]):
        assert one.same_as(right) and not one.diff(right)
    for path in (tmp_path / "one", str(tmp_path / "two")):
        one.write(path)
        assert yinchaku.read(pathlib.Path(path)).text == one.text


def test_each_function_is_a_method():
    """Or an auction has something else of its name, or does what these do in other ways."""
    assert {name for name in TAKEN if not hasattr(yinchaku.Auction, name)} == {"check", "fault", "show", "round", "compare", "duplicates"}


def test_methods_keep_the_limits(root):
    auction = yinchaku.read(root / "examples/three_reach.cats")
    calls = [partial(getattr(auction, name), *words_of(name, auction)) for name in METHODS if "steps" in TAKEN[name]]
    for call in (*calls, partial(auction.same_as, auction), partial(auction.diff, auction)):
        for limits in ({"steps": 1}, {"total": 1}):
            with pytest.raises(yinchaku.StepLimit):
                call(**limits)
    for other in (BIDS.decode(), "examples/ladder.cats"):
        with pytest.raises(TypeError):
            auction.same_as(other)


def test_an_auction_is_its_text_in_pickle_and_copy():
    auction = yinchaku.read(BIDS)
    assert len(auction.bids) == 2
    for made in (pickle.loads(pickle.dumps(auction)), copy.copy(auction), copy.deepcopy(auction)):
        assert type(made) is yinchaku.Auction and made.text == BIDS and made.bids == auction.bids
    assert pickle.loads(pickle.dumps(auction.bids)) == auction.bids


def test_from_bids_writes_what_is_given():
    wanted = b"goods 2\nbids 2\ndummy 1\n0\t7.5\t0\t1\t#\n1\t3\t0\t2\t#\n"
    assert yinchaku.Auction.from_bids(2, TWO).text == wanted
    assert yinchaku.Auction.from_bids(2, iter([(0, Decimal("75e-1"), {1, 0}, None), (1, 3, [0], 0)])).text == wanted
    assert yinchaku.Auction.from_bids(2, reversed(TWO)).bids == TWO
    assert yinchaku.Auction.from_bids(3, []).text == b"goods 3\nbids 0\ndummy 0\n"
    great = [yinchaku.Bid(0, Decimal("1e12"), (0,)), yinchaku.Bid(1, Decimal("0.000001"), (0,)), yinchaku.Bid(2, Decimal("1E-6"), (0,)), yinchaku.Bid(3, Decimal("0E+3"), (0,))]
    assert yinchaku.Auction.from_bids(1, great).bids == great


def test_rows_without_numbers():
    """They are counted from 0. Of three parts the last is the goods or the dummy good."""
    price = Decimal("7.5")
    wanted = [yinchaku.Bid(0, price, (0, 1)), yinchaku.Bid(1, price, (0,), 0)]
    for rows in (
        [(price, (0, 1)), (price, (0,), 0)], [(0, price, (0, 1)), (1, price, (0,), 0)], [(1, price, (0,), 0), (0, price, {0, 1})], [[price, [0, 1]], [price, [0], 0]],
        [(price, (0, 1), None), (price, (0,), 0)], [(price, (0, 1), float("nan")), wanted[1]], iter([wanted[1], wanted[0]]),
    ):
        assert yinchaku.Auction.from_bids(2, rows).bids == wanted
    for row in ((price,), (), (0, price, (0,), 0, 0)):
        with pytest.raises(ValueError, match="^row 1: a bid is .* this has [015] parts$"):
            yinchaku.Auction.from_bids(2, [wanted[0], row])
    for row in (("0", (0,)), (3.5, (0,), None), (0, 3.5, (0,)), (price, "0"), (price, 0)):
        with pytest.raises(TypeError, match="^row 1: "):
            yinchaku.Auction.from_bids(2, [wanted[0], row])


def test_rows_are_named():
    """Those of a fault, and the one with the greatest dummy good, if that is too large."""
    for rows, row, fault in (
        ([(3, (0,)), (4, (1, 1))], 1, "row 1: RepeatedGood"), ([(0, 3, (0,)), (0, 4, (1,))], 1, "row 1: RepeatedNumber"),
        ([(3, (0,), 1), (3, (0,), 70_000), (3, (0,), 2)], 1, "row 1: TooLarge"), ([(3, (0,))] * 65_537, None, "bids: TooLarge"),
    ):
        with pytest.raises(yinchaku.RefusedText) as refused:
            yinchaku.Auction.from_bids(2, rows)
        for made in (refused.value, pickle.loads(pickle.dumps(refused.value))):
            assert (made.row, made.path, str(made)) == (row, None, fault) and made.hint


def test_changes():
    """Those of prices whose values changed. A copy has them and the path too."""
    assert yinchaku.read(BIDS).changes == yinchaku.read(BIDS, round=True).changes == []
    fine = BIDS.replace(b" 3 ", b" 3e0 ").replace(b" 4 ", b" 4.0000004 ")
    auction = yinchaku.read(fine, round=True)
    assert auction.changes == yinchaku.round_prices(fine).changes == [yinchaku.Change(5, "4.0000004", "4")] and auction.text == BIDS.replace(b" 4 ", b" 4 ")
    assert pickle.loads(pickle.dumps(auction)).changes == copy.copy(auction).changes == auction.changes
    made = yinchaku.Auction.from_bids(2, [(Decimal("0.1234567"), (0,))], round=True)
    assert made.bids[0].price == Decimal("0.123457") and made.changes[0].word == "0.1234567"


def test_paths(tmp_path):
    """An auction has the path of its file, and so have copies and the errors of its methods."""
    path = tmp_path / "one.cats"
    path.write_bytes(BIDS)
    auction = yinchaku.read(path)
    assert auction.path == yinchaku.Auction(auction).path == pickle.loads(pickle.dumps(auction)).path == path and yinchaku.read(BIDS).path is None
    for call in (lambda: auction.value([7]), lambda: auction.normalise(0), lambda: yinchaku.check(auction, round=True) and auction.revenue([7])):
        with pytest.raises(yinchaku.CatsError, match=f"^{path}: ") as raised:
            call()
        assert raised.value.path == path


@pytest.mark.parametrize("bid, fault", [
    (yinchaku.Bid(1, Decimal(3), (0,)), "row 0: BidNumber"),
    (yinchaku.Bid(-1, Decimal(3), (0,)), "row 0: NotANumber"),
    (yinchaku.Bid(0, Decimal(-3), (0,)), "row 0: NotANumber"),
    (yinchaku.Bid(0, Decimal("NaN"), (0,)), "row 0: NotANumber"),
    (yinchaku.Bid(0, Decimal("-0"), (0,)), "row 0: NotANumber"),
    (yinchaku.Bid(0, Decimal("Infinity"), (0,)), "row 0: NotANumber"),
    (yinchaku.Bid(0, Decimal("1000000000000.000001"), (0,)), "row 0: TooLarge"),
    (yinchaku.Bid(0, Decimal("1e-7"), (0,)), "row 0: TooFine"),
    (yinchaku.Bid(0, Decimal(3), ()), "row 0: EmptyBundle"),
    (yinchaku.Bid(0, Decimal(3), (0, 0)), "row 0: RepeatedGood"),
    (yinchaku.Bid(0, Decimal(3), (-1,)), "row 0: NotANumber"),
    (yinchaku.Bid(0, Decimal(3), (0,), 70_000), "row 0: TooLarge"),
    (yinchaku.Bid(0, 10**13, (0,)), "row 0: TooLarge"),
    (yinchaku.Bid(0, -1, (0,)), "row 0: NotANumber"),
])
def test_the_library_refuses_wrong_bids(bid, fault):
    with pytest.raises(yinchaku.RefusedText) as refused:
        yinchaku.Auction.from_bids(2, [bid])
    assert str(refused.value) == fault


# The place of the first digit of a price that is as wrong as one with a few digits.
FAR = (20, 38, 39, 40, 41, 5000, 999_999_999)


@pytest.mark.parametrize("bid, fault", [
    *((yinchaku.Bid(0, Decimal(f"{digits}e{place}"), (0,)), "row 0: TooLarge") for place in FAR for digits in ("1", "9.75")),
    *((yinchaku.Bid(0, Decimal(f"{digits}e-{place}"), (0,)), "row 0: TooFine") for place in FAR for digits in ("1", "9.75")),
    *((yinchaku.Bid(0, Decimal(f"{digits}e{sign}{place}"), (0,)), "row 0: NotANumber") for place in FAR for digits in ("-1", "-9.75", "-0") for sign in ("", "-")),
    *((yinchaku.Bid(0, 10**places, (0,)), "row 0: TooLarge") for places in (20, 39, 40, 41, 4300, 5000)),
    *((yinchaku.Bid(0, -(10**places), (0,)), "row 0: NotANumber") for places in (20, 39, 40, 41, 4300, 5000)),
    *((yinchaku.Bid(10**places, 1, (0,)), "row 0: BidNumber") for places in (1, 20, 40, 41, 5000)),
    *((yinchaku.Bid(-(10**places), 1, (0,)), "row 0: NotANumber") for places in (1, 20, 40, 41, 5000)),
    *((yinchaku.Bid(0, 1, (-(10**places), 0)), "row 0: NotANumber") for places in (1, 20, 40, 41, 5000)),
    *((yinchaku.Bid(0, 1, (0,), 10**places), "row 0: TooLarge") for places in (20, 40, 41, 5000)),
])
def test_long_numbers_are_refused_as_shorter_ones(bid, fault):
    """And in no more memory than these."""
    tracemalloc.start()
    with pytest.raises(yinchaku.RefusedText) as refused:
        yinchaku.Auction.from_bids(2, [bid])
    most = tracemalloc.get_traced_memory()[1]
    tracemalloc.stop()
    assert str(refused.value) == fault and most < 100_000


def test_long_numbers():
    """A zero with an exponent is zero. What the package itself refuses it can print."""
    zeros = [yinchaku.Bid(number, Decimal(f"0e{place}"), (0,)) for number, place in enumerate((0, *FAR, *(-it for it in FAR)))]
    made = yinchaku.Auction.from_bids(1, zeros)
    assert len(made.text) < 1000 and [bid.price for bid in made.bids] == [0] * len(zeros)
    with pytest.raises(yinchaku.RefusedText, match="^goods: TooLarge$"):
        yinchaku.Auction.from_bids(10**5000, [])
    for goods, bid in ((2, yinchaku.Bid(0, 1, (10**5000,))), (2, yinchaku.Bid(10**5000, 1, (0, 2)))):
        with pytest.raises(ValueError, match="^row 0: .{1,100}, the number of goods$"):
            yinchaku.Auction.from_bids(goods, [bid])


@pytest.mark.parametrize("bid, error", [
    (yinchaku.Bid(0, Decimal(3), (0, 2)), ValueError),
    (yinchaku.Bid(0, Decimal(3), (0,), -1), ValueError),
    (yinchaku.Bid(0, 3.5, (0,)), TypeError),
    (yinchaku.Bid(0, "3", (0,)), TypeError),
    (yinchaku.Bid("0", Decimal(3), (0,)), TypeError),
    (yinchaku.Bid(0, Decimal(3), ("0",)), TypeError),
    (yinchaku.Bid(0, Decimal(3), (0.5,)), TypeError),
    (yinchaku.Bid(0, Decimal(3), (0,), 2.5), TypeError),
])
def test_no_bid_is_written_as_another(bid, error):
    """A good is never taken for a dummy good, and what is no number is not rounded to one."""
    with pytest.raises(error):
        yinchaku.Auction.from_bids(2, [bid])


def test_random_bids_come_back():
    choose = random.Random(5)
    for _ in range(200):
        goods, many = choose.randrange(1, 9), choose.randrange(9)
        bids = []
        for number in choose.sample(range(many), many):
            price = Decimal(choose.randrange(10 ** choose.randrange(1, 18))).scaleb(-choose.randrange(7)) % 10**12
            bundle = tuple(sorted(choose.sample(range(goods), choose.randrange(1, goods + 1))))
            bids.append(yinchaku.Bid(number, price, bundle, choose.choice([None, 0, 3])))
        auction = yinchaku.Auction.from_bids(goods, bids)
        assert auction.bids == sorted(bids, key=lambda bid: bid.number)
        assert auction.normalise().same_as(auction)
