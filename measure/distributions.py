"""Prints a bid file of a distribution that benchmarks of combinatorial auctions use, the same for the same words.

    tools/generate --kind KIND [--goods N] [--bids N] [--seed N] [--form FORM] [--dummies]

All are written after their descriptions in K. Leyton-Brown, M. Pearson and Y. Shoham, "Towards a universal test suite for combinatorial
auction algorithms" (2000), with the usual parameters, and not after the code of CATS. L1 to L7 are that paper's legacy distributions, whose
earlier sources are named at KINDS. Unlike in CATS, dominated bids stay, and the numbers of bids and of goods are met exactly.

All bids are OR bids, or with --dummies the bids of a bidder who has several are XOR bids by a dummy good of its own. FORM is how a price is
printed: `%.4f`, which is used if none is given, `%.2f`, `%d` for 1,000 times the price as a whole number, or `%.6g`, which needs `--round`
if a price is small. What would be printed as 0 is the least price above it.
"""
import argparse
import heapq
import math
import random
import signal
import sys
from collections import Counter
from functools import partial
from itertools import islice
from typing import NamedTuple

MOST_GOODS, MOST_BIDS = 4096, 65_536

WRONG_USAGE = 64

# The least price of each form, and by what a price is multiplied.
FORMS = {"%.4f": (0.0001, 1), "%.2f": (0.01, 1), "%d": (1, 1000), "%.6g": (0.000001, 1)}

# A bidder has so many substitutes of its first bundle at most, or bids on so many paths.
SUBSTITUTES = 5


class Bid(NamedTuple):
    """A price and its goods."""

    price: float
    goods: tuple


# Legacy distributions: the number of goods of a bid, all of which are alike, and then the price for so many.


def any_size(chosen, goods):
    return chosen.randint(1, goods)


def three(_, goods):
    return min(3, goods)


def decaying_size(chosen, goods):
    size = 1
    while size < goods and chosen.random() <= 0.55:
        size += 1
    return size


def normal_size(chosen, goods):
    return min(goods, max(1, round(chosen.gauss(4, 1))))


def exponential_size(chosen, goods):
    """Each size is e^(1/5) times as likely as the next."""
    return next(size for size in iter(lambda: 1 + int(chosen.expovariate(1 / 5)), None) if size <= goods)


def binomial_size(chosen, goods):
    """How many goods are wanted of all, each with probability 0.2: one at least."""
    return next(size for size in iter(lambda: sum(chosen.random() < 0.2 for _ in range(goods)), None) if size)


def fixed_price(chosen, _):
    return chosen.random()


def normal_price(chosen, _):
    return chosen.gauss(16, 3)


def linear_price(least, most, chosen, size):
    return size * chosen.uniform(least, most)


def legacy(size_of, price_of, chosen, goods):
    """Bidders of one bid each."""
    while True:
        size = size_of(chosen, goods)
        yield [Bid(price_of(chosen, size), chosen.sample(range(goods), size))]


# Goods that are near one another: a bundle grows good by good.


def of_regions(chosen, goods):
    """Goods on a grid: the neighbours of each, in a row or a column, and one in five of those at a corner."""
    side = math.isqrt(goods - 1) + 1
    near = [{} for _ in range(goods)]
    for good in range(goods):
        for row, column, part in ((0, 1, 1), (1, 0, 1), (1, 1, 0.2), (1, -1, 0.2)):
            other = good + row * side + column
            if 0 <= good % side + column < side and other < goods and chosen.random() <= part:
                near[good][other] = near[other][good] = 1
    return near


def of_arbitrary(chosen, goods):
    """How near each good is to each other one, at random."""
    near = [{} for _ in range(goods)]
    for good in range(goods):
        for other in range(good):
            near[good][other] = near[other][good] = chosen.random()
    return near


def grown(chosen, near, jump, size, wanted, first):
    """A bundle of this size with this good: each next good is near the others and wanted, or at a jump any one."""
    bundle, weights, good = {first}, {}, first
    while len(bundle) < size:
        for other, nearness in near[good].items():
            if other not in bundle:
                weights[other] = weights.get(other, 0) + nearness * wanted[other]
        if chosen.random() < jump or not weights:
            good = chosen.choice([other for other in range(len(near)) if other not in bundle])
        else:
            good = chosen.choices(list(weights), list(weights.values()))[0]
        weights.pop(good, None)
        bundle.add(good)
    return tuple(sorted(bundle))


def neighbours(near_of, jump, chosen, goods):
    """Bidders who have common values and their own, and bid on a bundle and on its substitutes: bundles of this size, around each of its
    goods, that are dear enough to sell again and within the budget."""
    near = near_of(chosen, goods)
    common = [chosen.uniform(1, 100) for _ in range(goods)]
    while True:
        own = [chosen.uniform(-50, 50) for _ in range(goods)]
        wanted = [(price + 50) / 100 for price in own]

        def bid_on(first, size):
            bundle = grown(chosen, near, jump, size, wanted, first)
            return Bid(sum(common[good] + own[good] for good in bundle) + size**1.2, bundle)

        size = 1
        while size < goods and chosen.random() <= 0.9:
            size += 1
        bid = bid_on(chosen.choices(range(goods), wanted)[0], size)
        if bid.price <= 0:
            continue
        least = sum(common[good] for good in bid.goods) / 2
        others = {bid_on(good, size) for good in bid.goods} - {bid}
        fit = [it for it in others if 0 <= it.price <= 1.5 * bid.price and sum(common[good] for good in it.goods) >= least]
        yield [bid, *sorted(fit, reverse=True)[:SUBSTITUTES]]


# Paths: goods are the links between cities in the plane.


def linked(places, lengths):
    """The cities that have a link with each city, and its length."""
    links = [{} for _ in places]
    for (one, other), length in lengths.items():
        links[one][other] = links[other][one] = length
    return links


def distances(links, start):
    """The length of the shortest path to each city, and the city before it."""
    found, heap = {}, [(0.0, start, start)]
    while heap:
        length, city, before = heapq.heappop(heap)
        if city not in found:
            found[city] = (length, before)
            for other, cost in links[city].items():
                if other not in found:
                    heapq.heappush(heap, (length + cost, other, city))
    return found


def path_back(found, city):
    """The links from a city to where the distances start."""
    while found[city][1] != city:
        yield tuple(sorted((city, found[city][1])))
        city = found[city][1]


def network(chosen, places, goods):
    """So many links: of each city with its two nearest, then those of shortest paths between two cities, on which a new link counts as 1.7
    times its length, and less after each path without a new one."""
    cities = range(len(places))
    nearest = [sorted(cities, key=lambda other: math.dist(places[city], places[other]))[1:17] for city in cities]
    lengths = {tuple(sorted((city, other))): math.dist(places[city], places[other]) for city in cities for other in nearest[city]}
    built = set(sorted({tuple(sorted((city, other))) for city in cities for other in nearest[city][:2]})[:goods])
    more = 0.7
    while len(built) < goods:
        links = linked(places, {link: length * (1 if link in built else 1 + more) for link, length in lengths.items()})
        start, end = chosen.sample(cities, 2)
        found = distances(links, start)
        new = [link for link in path_back(found, end) if link not in built] if end in found else []
        built.update(new[: goods - len(built)])
        more *= 1 if new else 0.95
    return {link: lengths[link] for link in sorted(built)}


def paths_between(links, start, end, budget):
    """The paths from the start to the end whose length is below the budget, each with its length: the shortest ones first."""
    ahead = distances(links, end)
    heap = [(ahead[start][0], 0.0, (start,))] if start in ahead else []
    while heap:
        whole, gone, path = heapq.heappop(heap)
        if path[-1] == end:
            yield whole, path
            continue
        for other, length in links[path[-1]].items():
            least = gone + length + ahead[other][0]
            if other not in path and least < budget:
                heapq.heappush(heap, (least, gone + length, (*path, other)))


def paths(chosen, goods):
    """Bidders who bid on the shortest paths between two cities what is left of their budget, up to 1.5 times the distance."""
    places = [(chosen.random(), chosen.random()) for _ in range(max(goods // 3, math.isqrt(2 * goods) + 2))]
    lengths = network(chosen, places, goods)
    names = {link: good for good, link in enumerate(lengths)}
    links = linked(places, lengths)
    while True:
        start, end = chosen.sample(range(len(places)), 2)
        budget = chosen.uniform(1, 1.5) * math.dist(places[start], places[end])
        yield [
            Bid(budget - length, tuple(sorted(names[tuple(sorted(link))] for link in zip(path, path[1:]))))
            for length, path in islice(paths_between(links, start, end, budget), SUBSTITUTES)
        ]


# Matching: goods are the slots for taking off and landing at four airports. Scheduling: goods are slots of a machine.

# Longitude and latitude: O'Hare, Reagan National, Kennedy, LaGuardia; there is no flight between the last two.
AIRPORTS = ((-87.90, 41.98), (-77.04, 38.85), (-73.78, 40.64), (-73.87, 40.78))
FLIGHTS = ((0, 1), (0, 2), (0, 3), (1, 2), (1, 3))


def matching(chosen, goods):
    """Airlines that bid on pairs of slots: less for a longer flight than they need, and for a later landing than they plan."""
    slots = goods // len(AIRPORTS)
    worth = [chosen.uniform(0, 5) for _ in AIRPORTS]
    farthest = max(math.dist(AIRPORTS[one], AIRPORTS[other]) for one, other in FLIGHTS)
    while True:
        one, other = chosen.sample(chosen.choice(FLIGHTS), 2)
        length = round(min(10, slots - 1) * math.dist(AIRPORTS[one], AIRPORTS[other]) / farthest)
        start = chosen.randrange(slots - length)
        value = chosen.uniform(0.5, 1.5) * (worth[one] + worth[other])
        yield [
            Bid(value * 0.9 ** (land - takeoff - length) * 0.75 ** max(0, land - start - length), (one * slots + takeoff, other * slots + land))
            for takeoff in range(max(0, start - 1), min(slots, start + 3))
            for land in range(takeoff + length, min(slots, start + length + 3))
        ]


def scheduling(chosen, goods):
    """Jobs, each with bids on the runs of slots before its deadline, and then on later ones at less."""
    while True:
        length = chosen.randint(1, min(10, goods))
        first = deadline = chosen.randint(length, goods)
        value = chosen.uniform(0.5, 1.5) * length**1.2
        while deadline < goods and chosen.random() <= 0.9:
            deadline = chosen.randint(deadline + 1, goods)
        yield [Bid(value * min(1, first / end), tuple(range(end - length, end))) for end in range(length, deadline + 1)]


KINDS = {
    # the random and the weighted random distribution, the uniform and the decay distribution of Sandholm (1999)
    "l1": partial(legacy, any_size, fixed_price),
    "l2": partial(legacy, any_size, partial(linear_price, 0, 1)),
    "l3": partial(legacy, three, fixed_price),
    "l4": partial(legacy, decaying_size, partial(linear_price, 0, 1)),
    # the normal distribution of Boutilier, Goldszmidt and Sabata (1999)
    "l5": partial(legacy, normal_size, normal_price),
    # the exponential and the binomial distribution of Fujishima, Leyton-Brown and Shoham (1999)
    "l6": partial(legacy, exponential_size, partial(linear_price, 0.5, 1.5)),
    "l7": partial(legacy, binomial_size, partial(linear_price, 0.5, 1.5)),
    # the five that the paper proposes
    "arbitrary": partial(neighbours, of_arbitrary, 0),
    "regions": partial(neighbours, of_regions, 0.05),
    "paths": paths,
    "matching": matching,
    "scheduling": scheduling,
}


def numbered(bidders, count, goods, are_xor):
    """So many bids of the bidders, in order, each with its dummy good if it has one."""
    bids = list(islice(((number, bid) for number, own in enumerate(bidders) for bid in own), count))
    have = Counter(number for number, _ in bids)
    several = (number for number in have if have[number] > 1 and are_xor)
    dummies = {number: [goods + place] for place, number in enumerate(several)}
    return len(dummies), [(bid, dummies.get(number, [])) for number, bid in bids]


def lines(kind, goods, count, seed, form="%.4f", are_xor=False):
    """The file of a distribution, with so many goods and bids."""
    many, bids = numbered(KINDS[kind](random.Random(seed), goods), count, goods, are_xor)
    yield f"%% {kind}, made with the seed {seed}\n\ngoods {goods}\nbids {count}\ndummy {many}\n\n"
    least, unit = FORMS[form]
    for number, (bid, dummy) in enumerate(bids):
        price = form % max(least, round(unit * bid.price) if unit > 1 else bid.price)
        yield "\t".join([str(number), price, *map(str, sorted(bid.goods)), *map(str, dummy), "#"]) + "\n"


class Parser(argparse.ArgumentParser):
    """Prints what is wrong on a command line, and ends with the status for that."""

    def error(self, message):
        self.print_usage(sys.stderr)
        self.exit(WRONG_USAGE, f"{message}\n")


def number_from(least, most):
    def number(word):
        if not word.isdecimal() or not least <= int(word) <= most:
            raise argparse.ArgumentTypeError(f"a number from {least} to {most}, and not '{word}'")
        return int(word)

    return number


def main():
    signal.signal(signal.SIGPIPE, signal.SIG_DFL)
    parser = Parser(prog="tools/generate", description="Prints a bid file of a distribution that benchmarks use.", allow_abbrev=False)
    parser.add_argument("--kind", required=True, choices=KINDS, metavar="KIND", help=", ".join(KINDS))
    parser.add_argument("--goods", type=number_from(1, MOST_GOODS), default=64, metavar="N", help="so many goods (default: 64)")
    parser.add_argument("--bids", type=number_from(0, MOST_BIDS), default=1000, metavar="N", help="so many bids (default: 1000)")
    parser.add_argument("--seed", type=number_from(0, 2**31), default=1, metavar="N", help="another file for another number (default: 1)")
    parser.add_argument("--form", choices=FORMS, default="%.4f", metavar="FORM", help="of prices: %%.4f, %%.2f, %%d (of 1,000 times the price) or %%.6g")
    parser.add_argument("--dummies", action="store_true", help="the bids of a bidder who has several are XOR bids")
    given = parser.parse_args()
    if given.kind == "matching" and given.goods < len(AIRPORTS):
        parser.error("matching has four goods or more")
    sys.stdout.writelines(lines(given.kind, given.goods, given.bids, given.seed, given.form, given.dummies))


if __name__ == "__main__":
    main()
