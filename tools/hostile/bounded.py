"""Compares the bounded search with the plain one, and its steps with those that Python counts, on files of tools/generate --kind.

    bounded.py PROGRAM GENERATE

On 30 files of up to 2,000 bids the bounded search is to answer, the same as the plain one if that answers, and in as many steps as
bounded_quickly of steps.py counts. On small files each limit is tried, beside the definitions of steps.py; a bounded search for a value
is refused only below the steps that always suffice. On small texts with XOR bidders the canonical text is that of canonical.py, and texts
are of the same auction if theirs are equal. Prints what is wrong, how many files the plain search answers, and 'N runs, M wrong'; the
status is 0 if M is 0, and else 1.
"""
import os
import random
import subprocess
import sys
import tempfile
from concurrent.futures import ThreadPoolExecutor
from functools import partial
from typing import NamedTuple

from canonical import canonical
from steps import Bid, bounded, bounded_quickly, first_refused, most_value_steps, or_value, plain, searches
from tally import KINDS, TALLY

PROGRAM, GENERATE = sys.argv[1:]
SECONDS = 120

STEPS, STEP_LIMIT, WRONG_USAGE = 1_000_000, 3, 64
MILLION = 1_000_000

DIFF_HEADER = "kind\tgoods\tleft\tright\tleft_dummy\tright_dummy\tleft_bid\tright_bid\n"

# kind, goods, bids, and more words
FILES = (
    *((kind, 64, 1000) for kind in KINDS),
    *((kind, 20, 1000) for kind in ("l1", "l2", "l4", "l6", "l7", "scheduling")),
    *((kind, 64, 1000, "--dummies") for kind in ("arbitrary", "regions", "paths", "matching", "scheduling")),
    ("l2", 40, 2000),
    ("l2", 100, 1000),
    ("l6", 64, 2000),
    ("l7", 30, 1000),
    ("regions", 256, 2000),
    ("arbitrary", 100, 1000),
    ("paths", 256, 2000),
)
SMALL_GOODS, SMALL_BIDS = 6, 14
SMALL_FILES = tuple((kind, SMALL_GOODS, SMALL_BIDS, "--seed", seed) for kind in KINDS for seed in (1, 2))
FINE_FILES = 24
TEXTS = 300

# The files that the plain search answers.
plainly_answered = []


class Answer(NamedTuple):
    status: int
    out: str
    err: str


def run(*words):
    TALLY.count_run()
    ran = subprocess.run([PROGRAM, *map(str, words)], stdin=subprocess.DEVNULL, capture_output=True, text=True, timeout=SECONDS)
    return Answer(ran.returncode, ran.stdout, ran.stderr)


def judge(is_right, what, answer):
    TALLY.judge(is_right, what, f"status {answer[0]}, {[text[:200] for text in answer[1:]]}")


def judge_run(wanted, *words):
    answer = run(*words)
    judge(answer == wanted, " ".join(map(str, words[:6])), answer)


def refused(goods, before=""):
    """What is answered of a search that the limit stops."""
    return Answer(STEP_LIMIT, "", f"{before}step limit at {','.join(map(str, goods))}\n")


def refused_bid(goods, path, option, limit, before=""):
    """What is answered of it by a command that names the limit that is met and the first bid on the bundle."""
    met = "total step limit" if option == "--total-steps" else "step limit"
    number = [bid.goods for bid in or_bids(path, SMALL_GOODS)].index(frozenset(goods))
    return Answer(STEP_LIMIT, "", f"{before}{met} of {limit} at bid {number}: {','.join(map(str, goods))}\n")


def generated(folder, kind, goods, bids, *more):
    """Writes a file, and answers its path."""
    path = os.path.join(folder, "-".join([kind, *map(str, (goods, bids, *more))]))
    with open(path, "w", encoding="ascii") as file:
        subprocess.run([GENERATE, "--kind", kind, "--goods", str(goods), "--bids", str(bids), *map(str, more)], stdout=file, check=True)
    return path


def decimal(price):
    """A number of millionths as `cats` prints it."""
    whole, part = divmod(price, MILLION)
    return f"{whole}.{part:06}".rstrip("0").rstrip(".")


def fine(folder, seed):
    """Writes a small file whose prices are one to three millionths for a good: packings often reach a price exactly, and rates are rounded
    by much."""
    chosen = random.Random(seed)
    path = os.path.join(folder, f"fine-{seed}")
    with open(path, "w", encoding="ascii") as file:
        file.write(f"goods {SMALL_GOODS}\nbids {SMALL_BIDS}\ndummy 0\n")
        for number in range(SMALL_BIDS):
            goods = chosen.sample(range(SMALL_GOODS), chosen.randint(1, SMALL_GOODS))
            price = decimal(chosen.randint(len(goods), 3 * len(goods)))
            file.write("\t".join(map(str, (number, price, *goods, "#"))) + "\n")
    return path


def or_bids(path, goods):
    """The bids of a file that have no dummy good."""
    with open(path, encoding="ascii") as file:
        lines = [line.split() for line in file if line[0].isdigit()]
    bids = [Bid(round(MILLION * float(words[1])), frozenset(map(int, words[2:-1]))) for words in lines]
    return [bid for bid in bids if max(bid.goods) < goods]


def judge_total(path, made, text):
    """The sum of the steps is the least number of steps in all that is enough, but no fewer than 1 can be allowed."""
    total = max(1, sum(search.steps for search in made))
    bound = ("normalise", "--bound", "--total-steps")
    judge_run(Answer(0, text, ""), *bound, total, path)
    if total > 1:
        judge_run(refused(first_refused(made, STEPS, total - 1)), *bound, total - 1, path)


def judge_file(folder, given):
    path, goods = generated(folder, *given), given[1]
    found = run("normalise", "--bound", path)
    judge(found[::2] == (0, ""), f"{path} by --bound", found)
    plainly = run("normalise", path)
    if plainly.status == 0:
        plainly_answered.append(path)
        judge(found == plainly, f"{path} by --bound differs", found)
    else:
        judge(plainly[:2] == (STEP_LIMIT, "") and plainly.err.startswith("step limit at "), path, plainly)
    canonical = path + "-canonical"
    with open(canonical, "w", encoding="ascii") as file:
        file.write(found.out)
    judge_run(Answer(0, "same\n", ""), "compare", "--bound", path, canonical)
    value = run("value", path, *range(goods))
    if value.status == 0:
        judge_run(value, "value", "--bound", path, *range(goods))
    judge_total(path, searches(bounded_quickly, or_bids(path, goods)), found.out)


# Small files: what is wanted comes of the definitions.


def canonical_text(goods, made):
    kept = [search for search in made if not search.is_reached]
    lines = ["\t".join(map(str, (number, decimal(bid.price), *bid.goods, "#"))) + "\n" for number, bid in enumerate(kept)]
    return "".join([f"goods {goods}\nbids {len(kept)}\ndummy 0\n", *lines])


def value_line(bids, goods):
    """The greatest value, and the bids of a packing that has it: one is left out if the later ones still reach what is needed."""
    value = needed = or_value(bids, goods)
    members = []
    for number, bid in enumerate(bids):
        if or_value(bids[number + 1 :], goods) < needed:
            members.append(number)
            goods, needed = goods - bid.goods, needed - bid.price
    return " ".join(["or", decimal(value), *map(str, members)]) + "\n"


def judge_limits(made, text, words, option, most):
    """Each limit up to one more than is needed."""
    for limit in range(1, most + 2):
        goods = first_refused(made, limit, limit if option == "--total-steps" else sum(search.steps for search in made))
        judge_run(refused(goods) if goods else Answer(0, text, ""), *words, option, limit)


def judge_small_file(path):
    goods = SMALL_GOODS
    bids = or_bids(path, goods)
    by_prices, by_rates = searches(plain, bids), searches(bounded, bids)
    quickly = searches(bounded_quickly, bids)
    judge(by_rates == quickly, f"{path} in Python", (None, str(by_rates), str(quickly)))
    text = canonical_text(goods, by_rates)
    judge_limits(by_prices, text, ("normalise", path), "--steps", max(search.steps for search in by_prices))
    most, total = max(search.steps for search in by_rates), sum(search.steps for search in by_rates)
    judge_limits(by_rates, text, ("normalise", "--bound", "--total-steps", total, path), "--steps", most)
    judge_limits(by_rates, text, ("normalise", "--bound", path), "--total-steps", total)
    judge_value(path, bids, frozenset(range(goods)))
    judge_commands(path, by_rates, total, most)


def judge_value(path, bids, goods):
    """With enough steps it has the value; with fewer it has it or is refused."""
    right, words = Answer(0, value_line(bids, goods), ""), ("value", "--bound", path, *goods)
    judge_run(right, *words)
    for option in ("--steps", "--total-steps"):
        judge_run(right, *words[:2], option, most_value_steps(bids, goods), *words[2:])
        for limit in (1, 2, 5, 10, 30, 100):
            answer = run(*words[:2], option, limit, *words[2:])
            judge(answer in (right, refused(sorted(goods))), f"value {option} {limit} {path}", answer)


def judge_commands(path, made, total, most):
    """The other commands that search: with enough steps they answer as ever, and else the limit stops them."""
    for option, enough in (("--total-steps", total), ("--steps", most)):
        bundle = first_refused(made, STEPS, enough - 1) if option == "--total-steps" else first_refused(made, enough - 1, total)
        judge_run(Answer(0, "same\n", ""), "compare", "--bound", option, enough, path, path)
        judge_run(Answer(0, DIFF_HEADER, ""), "diff", option, enough, path, path)
        judge_run(run("explain", path), "explain", option, enough, path)
        judge_run(run("sizes", path), "sizes", option, enough, path)
        judge_run(Answer(0, f"{path}\n{path}\n", ""), "duplicates", option, enough, path, path)
        if enough > 1:
            judge_run(refused(bundle, "first: "), "compare", "--bound", option, enough - 1, path, path)
            named = partial(refused_bid, bundle, path, option, enough - 1)
            judge_run(named("first: "), "diff", option, enough - 1, path, path)
            judge_run(named(), "explain", option, enough - 1, path)
            twice = Answer(STEP_LIMIT, f"{path}\n{path}\n", 2 * named(f"{path}: ").err)
            judge_run(twice, "duplicates", option, enough - 1, path, path)
        judge_publishing(path, option, enough, named if enough > 1 else None)


def judge_publishing(path, option, enough, named):
    """The text is written with enough steps, and with less the row says how many the limit is."""
    with tempfile.TemporaryDirectory() as texts:
        own = run("publish", f"{texts}/own", path)
        judge_run(own, "publish", option, enough, f"{texts}/enough", path)
        judge(own.status == 0 and os.listdir(f"{texts}/enough") == [os.path.basename(path)], f"the text of {path}", own)
        if named:
            header, row = own.out.splitlines(True)
            goods, bids = row.split("\t")[3:5]
            wanted = f"{header}{path}\t\t\t{goods}\t{bids}\t\t\t\t{named().err}"
            judge_run(Answer(STEP_LIMIT, wanted, ""), "publish", option, enough - 1, f"{texts}/less", path)
            judge(os.listdir(f"{texts}/less") == [], f"no text of {path}", own)


def small_text(chosen):
    """A text of up to four goods, six bids and two XOR bidders, half of them of up to two goods and three bids."""
    half = chosen.randint(1, 2)
    goods, dummies = chosen.randint(1, 2 * half), chosen.randint(0, 2)
    bids = []
    for number in range(chosen.randint(0, 3 * half)):
        owner = chosen.sample(range(goods, goods + dummies), chosen.randint(0, min(1, dummies)))
        bundle = chosen.sample(range(goods), chosen.randint(1, goods))
        bids.append("\t".join(map(str, (number, chosen.choice((0, 1, 1.5, 2, 3)), *bundle, *owner, "#"))) + "\n")
    return "".join([f"goods {goods}\nbids {len(bids)}\ndummy {dummies}\n", *bids])


def judge_texts(folder, seed):
    """The canonical text of each, by both searches, and whether two that follow each other are the same auction."""
    chosen, before = random.Random(seed), None
    for number in range(TEXTS):
        path, text = os.path.join(folder, f"text-{seed}-{number}"), small_text(chosen)
        with open(path, "w", encoding="ascii") as file:
            file.write(text)
        wanted = canonical(text)
        for words in (("normalise", path), ("normalise", "--bound", path)):
            judge_run(Answer(0, wanted, ""), *words)
        if before:
            answer, same = run("compare", path, before[0]), wanted == before[1]
            judge(answer[::2] == (0 if same else 1, "") and (answer.out == "same\n") == same, f"{path} with {before[0]}", answer)
        before = path, wanted


def judge_lines(folder):
    """A limit of all steps is for the bounded search alone."""
    path = generated(folder, "l3", 4, 4)
    for words in (("normalise", path), ("compare", path, path), ("value", path, 0)):
        answer = run(words[0], "--total-steps", 100, *words[1:])
        judge(answer[:2] == (WRONG_USAGE, ""), f"{words} with --total-steps and without --bound", answer)


def main():
    with tempfile.TemporaryDirectory() as folder, ThreadPoolExecutor(os.cpu_count()) as pool:
        work = [pool.submit(judge_file, folder, given) for given in FILES]
        small = [*(generated(folder, *given) for given in SMALL_FILES), *(fine(folder, seed) for seed in range(FINE_FILES))]
        work += [pool.submit(judge_small_file, path) for path in small]
        work += [pool.submit(judge_texts, folder, seed) for seed in range(os.cpu_count())]
        for one in work:
            one.result()
        judge_lines(folder)
    print(f"{len(FILES)} files, of which the plain search answers {len(plainly_answered)}")
    return TALLY.status()


if __name__ == "__main__":
    sys.exit(main())
