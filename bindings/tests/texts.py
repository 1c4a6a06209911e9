"""Random texts of bid files, of which half are broken. They are the same each time."""
import random

MADE = 500

# A text of some bids.
BIDS = b"goods 2\nbids 2\ndummy 0\n0 3 0 #\n1 4 1 #\n"


def random_price(choose):
    """Mostly a price of the format, and else one that `round` takes or none does."""
    whole = str(choose.choice([0, 1, 2, 3, 5, 8, choose.randrange(100), choose.randrange(10**12)]))
    form = choose.random()
    if form < 0.7:
        return whole
    if form < 0.96:
        return whole + "." + "".join(choose.choices("0123456789", k=choose.randrange(1, 7)))
    return choose.choice(["1e3", "2.5e-07", "0.0123456", ".5", "5.", "1e99", "-1", "1,5", "007.50", whole + "e-2"])


def random_bids(choose, goods, dummies):
    bids = []
    for _ in range(choose.randrange(12)):
        bundle = choose.sample(range(goods), choose.randrange(1, goods + 1))
        dummy = [goods + choose.randrange(dummies)] if dummies and choose.random() < 0.6 else []
        bids.append((random_price(choose), [*bundle, *dummy]))
    return bids


def text_of(goods, dummies, bids, choose):
    """A file of these bids, in any order of their numbers and with any blanks."""
    lines = [f"goods {goods}", f"bids {len(bids)}", f"dummy {dummies}"]
    numbers = choose.sample(range(len(bids)), len(bids))
    for number, (price, bundle) in zip(numbers, bids):
        words = map(str, [number, price, *choose.sample(bundle, len(bundle)), "#"])
        lines.append(choose.choice([" ", "\t", " \t "]).join(words))
    if choose.random() < 0.3:
        lines.insert(choose.randrange(len(lines) + 1), choose.choice(["", "% 1e3 \xff", "\t%% a comment"]))
    end = choose.choice(["\n", "\n", "\r\n"])
    return (end.join(lines) + choose.choice([end, ""])).encode("latin-1")


def broken(text, choose):
    """A text with a few bytes of it left out, put in, or replaced, or without its end."""
    text = bytearray(text)
    for _ in range(choose.randrange(1, 4)):
        at = choose.randrange(len(text) + 1)
        how = choose.randrange(4)
        if how == 0:
            del text[at : at + choose.randrange(1, 9)]
        elif how == 1:
            text[at:at] = choose.choice([b"#", b"%", b" ", b"\n", b"9", b"\0", b"\xff", b"1e3", b" 0 #\n", b"\r"])
        elif how == 2:
            text[at : at + 1] = bytes([choose.choice(b"0123456789 \t\n#.e-%\r\0g")])
        else:
            del text[at + choose.randrange(60) :]
    return bytes(text)


def made_texts():
    """Random files. Of four that follow one another the second has the bids of the first in another order, and the other two are these, broken."""
    choose, texts = random.Random(7), [b""]
    while len(texts) < MADE:
        goods, dummies = choose.randrange(1, 6), choose.randrange(4)
        bids = random_bids(choose, goods, dummies)
        pair = [text_of(goods, dummies, bids, choose), text_of(goods, dummies, choose.sample(bids, len(bids)), choose)]
        texts += [*pair, broken(pair[0], choose), broken(pair[1], choose)]
    return texts


# ---- the same files, spelled in any way that the format allows, or nearly so

# Of a line that has a word: before it, between two words, and behind it.
BLANKS = [" ", "\t", "  ", " \t ", "\t\t"]

# What ends lines or words elsewhere, and is a byte like others here: only a CR before LF or at the end of the text is a blank.
FOREIGN_BLANKS = ["\r", "\x0b", "\x0c", "\x1c", "\x1d", "\x1e", "\x85", "\xa0", "\xe2\x80\xa8", "\0"]

# More than Python takes for an integer.
MANY_ZEROS = "0" * 5_000


def spelled_number(choose, word):
    return choose.choice(["", "", "", "", "0", "000", MANY_ZEROS if choose.random() < 0.1 else ""]) + word


def spelled_price(choose):
    """A valid price, with any zeros before and behind it."""
    whole = choose.choice(["0", "1", "7", str(choose.randrange(10**12)), "1000000000000"])
    places = "" if whole == "1000000000000" else "".join(choose.choices("0123456789", k=choose.randrange(7)))
    zeros = choose.choice(["", "", "0", "000", MANY_ZEROS if choose.random() < 0.1 else ""])
    return spelled_number(choose, whole) + ("." + places + zeros if places or (zeros and choose.random() < 0.5) else "")


def comment(choose):
    words = choose.choices([*FOREIGN_BLANKS, "0 3 0 #", "goods 2", "%", "#", " ", "\xff"], k=choose.randrange(6))
    return choose.choice(["", *BLANKS]) + "%" + "".join(words)


def spelled_line(choose, words):
    line = choose.choice(["", "", *BLANKS]) + words[0]
    for word in words[1:]:
        line += choose.choice(BLANKS) + word
    return line + choose.choice(["", "", *BLANKS])


def spelled_text(choose):
    goods, dummies, many = choose.randrange(1, 7), choose.randrange(4), choose.randrange(9)
    lines = [[keyword, spelled_number(choose, str(number))] for keyword, number in (("goods", goods), ("bids", many), ("dummy", dummies))]
    for number in choose.sample(range(many), many):
        bundle = choose.sample(range(goods), choose.randrange(1, goods + 1))
        if dummies and choose.random() < 0.5:
            bundle.insert(choose.randrange(len(bundle) + 1), goods + choose.randrange(dummies))
        good_words = [spelled_number(choose, str(good)) for good in bundle]
        lines.append([spelled_number(choose, str(number)), spelled_price(choose), *good_words, "#"])
    spelled = []
    for words in lines:
        while choose.random() < 0.3:
            spelled.append(choose.choice(["", " \t", comment(choose)]))
        spelled.append(spelled_line(choose, words))
    while choose.random() < 0.3:
        spelled.append(choose.choice(["", "\t", comment(choose)]))
    ends = [choose.choice(["\n", "\n", "\r\n"]) for _ in spelled[1:]] + [choose.choice(["\n", "\r\n", "", "\r"])]
    return "".join(line + end for line, end in zip(spelled, ends)).encode("latin-1")


def with_foreign_blank(text, choose):
    """A text in which a byte that is a blank elsewhere is put in somewhere, mostly beside a blank."""
    beside = [at for at, byte in enumerate(text) if byte in b" \t\n"]
    at = choose.choice(beside) if beside and choose.random() < 0.8 else choose.randrange(len(text) + 1)
    return text[:at] + choose.choice(FOREIGN_BLANKS).encode("latin-1") + text[at:]


def spelled_texts():
    """Of three that follow one another the first is a bid file; the others are that with something put in or left out, and mostly are none."""
    choose, texts = random.Random(11), []
    while len(texts) < 3 * MADE // 2:
        text = spelled_text(choose)
        texts += [text, with_foreign_blank(text, choose), broken(text, choose)]
    return texts
