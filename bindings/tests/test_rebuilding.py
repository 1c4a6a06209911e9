"""The first file's canonical text and the table of `diff` give the second file's canonical text, and the table names bids of both files.

What is wanted is made here from the bids of the files, by docs/CANONICAL.md and docs/FORMAT.md.
"""
import random
from collections import Counter
from decimal import Decimal
from itertools import groupby
from typing import NamedTuple

from texts import text_of

import yinchaku

PAIRS = 1_000

# Few, so that bids and bidders are often equal, and rows differ in the number of a bid alone.
PRICES = ["0", "1", "2", "2.5", "2.50", "3", "3.000001", "4"]

# What is counted of the tables. Each has to be in so many pairs at least.
KINDS, FEW = ["none", "goods", "or", "xor beside", "xor left", "xor right"], 50


class Offer(NamedTuple):
    """A bid without a number: its bidder is 0, the OR bidder, or an XOR bidder from 1 on."""

    bidder: int
    price: str
    goods: tuple


# ---- pairs of files

def random_offer(choose, goods, bidders):
    bundle = choose.sample(range(goods), choose.randrange(1, min(goods, 3) + 1))
    return Offer(choose.randrange(bidders + 1), choose.choice(PRICES), tuple(sorted(bundle)))


def with_copy(choose, offers, bidders):
    """The offers with one XOR bidder more, which is equal to another one."""
    copied = choose.randrange(1, bidders + 1)
    return offers + [offer._replace(bidder=bidders + 1) for offer in offers if offer.bidder == copied]


def edited(choose, goods, offers, bidders):
    """The offers with a few of them replaced, left out, put in, or at another price."""
    offers = list(offers)
    for _ in range(choose.randrange(5)):
        at = choose.randrange(len(offers) + 1)
        if at < len(offers) and choose.random() < 0.5:
            offers[at] = offers[at]._replace(price=choose.choice(PRICES))
        else:
            offers[at : at + choose.randrange(2)] = [random_offer(choose, goods, bidders)] * choose.randrange(2)
    return offers


def file_of(choose, goods, offers, bidders):
    """A file of these offers, with the dummy goods of the XOR bidders in any order, and perhaps one more."""
    dummies = bidders + choose.randrange(2)
    own = [[], *([goods + dummy] for dummy in choose.sample(range(dummies), bidders))]
    return text_of(goods, dummies, [(offer.price, [*offer.goods, *own[offer.bidder]]) for offer in offers], choose)


def random_pair(choose):
    goods, bidders = choose.randrange(1, 5), choose.randrange(4)
    offers = [random_offer(choose, goods, bidders) for _ in range(choose.randrange(12))]
    left = file_of(choose, goods, offers, bidders)
    if bidders and choose.random() < 0.3:
        offers, bidders = with_copy(choose, offers, bidders), bidders + 1
    goods = max(1, goods + choose.choice([0, 0, 0, 0, -1, 1, 2]))
    offers = [offer for offer in edited(choose, goods, offers, bidders) if offer.goods[-1] < goods]
    return yinchaku.read(left), yinchaku.read(file_of(choose, goods, offers, bidders))


# ---- bidders, each as its price for each of its bundles

def in_order(bundle):
    return len(bundle), bundle


def bids_of(auction, dummy):
    """The bids of the bidder with this dummy good, or of the OR bidder."""
    return [bid for bid in auction.bids if bid.dummy == dummy]


def xor_points(bids):
    best = {}
    for bid in bids:
        best[bid.goods] = max(best.get(bid.goods, Decimal(0)), bid.price)
    return {goods: price for goods, price in best.items() if price > max((best[it] for it in best if set(it) < set(goods)), default=0)}


def canonical_text(goods, or_bidder, xor_bidders):
    """The canonical text of bidders with these points."""
    listed = sorted([(in_order(bundle), price) for bundle, price in sorted(bidder.items(), key=lambda it: in_order(it[0]))] for bidder in xor_bidders)
    bids = [(bundle, or_bidder[bundle], None) for bundle in sorted(or_bidder, key=in_order)]
    bids += [(bundle, price, dummy) for dummy, points in enumerate(listed) for (_, bundle), price in points]
    return yinchaku.Auction.from_bids(goods, [(price, bundle, dummy) for bundle, price, dummy in bids]).text


# ---- the table

def bidder_of(row):
    return row.kind, row.left_dummy, row.right_dummy


def applied(bidder, rows):
    """The bidder with the prices of the rows on the right in the place of those on the left."""
    bidder = dict(bidder)
    for row in rows:
        assert row.left != row.right and bidder.pop(row.goods, None) == row.left
        if row.right is not None:
            bidder[row.goods] = row.right
    return bidder


def rebuilt_text(left, rows):
    """The canonical text of the second file, from the first file and the table."""
    canonical = left.normalise()
    goods, or_bidder = canonical.goods, {bid.goods: bid.price for bid in bids_of(canonical, None)}
    xor_bidders = [{bid.goods: bid.price for bid in bids_of(canonical, dummy)} for dummy in range(canonical.dummies)]
    for (kind, left_dummy, right_dummy), group in groupby(rows, key=bidder_of):
        if kind == "goods":
            (row,), goods = group, rows[0].right
            assert row == ("goods", (), canonical.goods, goods, None, None, None, None) and goods != canonical.goods
        elif kind == "or":
            or_bidder = applied(or_bidder, group)
        else:
            bidder = {}
            if left_dummy is not None:
                bidder = xor_points(bids_of(left, left_dummy))
                xor_bidders.remove(bidder)
            bidder = applied(bidder, group)
            assert bool(bidder) == (right_dummy is not None)
            xor_bidders += [bidder] * bool(bidder)
    return canonical_text(goods, or_bidder, xor_bidders)


def best_bid(auction, price, goods, dummy):
    """The number of the bidder's best bid on the goods, which has this price, and of equal ones the smallest; None if there is no price."""
    if price is None:
        return None
    best = min((bid for bid in bids_of(auction, dummy) if bid.goods == goods), key=lambda bid: (-bid.price, bid.number))
    assert best.price == price
    return best.number


def names_bids(row, left, right):
    """Whether a row that is not of the numbers of goods has the numbers of bids of both files."""
    numbers = best_bid(left, row.left, row.goods, row.left_dummy), best_bid(right, row.right, row.goods, row.right_dummy)
    return numbers == (row.left_bid, row.right_bid)


def is_in_order(rows):
    """Whether each bidder's rows are together, by bundle, and those of the second file alone come last."""
    places = [(["goods", "or", "xor"].index(row.kind), row.kind == "xor" and row.left_dummy is None) for row in rows]
    bidders = [(key, [in_order(row.goods) for row in group]) for key, group in groupby(rows, key=bidder_of)]
    are_rising = all(bundles == sorted(set(bundles)) for _, bundles in bidders)
    return places == sorted(places) and are_rising and len({key for key, _ in bidders}) == len(bidders)


def kind_of(row):
    if row.kind != "xor":
        return row.kind
    return "xor right" if row.left_dummy is None else "xor left" if row.right_dummy is None else "xor beside"


def test_the_table_gives_the_second_file():
    choose, seen = random.Random(12), Counter()
    for _ in range(PAIRS):
        left, right = random_pair(choose)
        rows = list(left.diff(right))
        what = (left.text, right.text, rows)
        assert rebuilt_text(left, rows) == right.normalise().text, what
        assert bool(rows) != left.same_as(right) and is_in_order(rows), what
        assert all(row.kind == "goods" or names_bids(row, left, right) for row in rows), what
        seen.update({kind_of(row) for row in rows} or {"none"})
    assert {kind for kind in seen if seen[kind] >= FEW} == set(KINDS), seen
