"""Runs the built program's `cats fault` on texts with the mistakes that people make, and judges place, kind and hint.

    hints.py PROGRAM

Each row has a wrong text, the line and the word of its first fault, its kind, and words that the hint must have. Then many files, a folder, and
paths at which nothing can be read. Prints what is wrong and 'N runs, M wrong'; the status is 0 if M is 0, and else 1.
"""
import bz2
import gzip
import io
import lzma
import os
import re
import shutil
import subprocess
import sys
import tarfile
import tempfile
import zipfile
from typing import NamedTuple

from tally import TALLY

SECONDS = 60
FILE_REFUSED, DEVICE_FAILED = 2, 5
# Who may not read all files.
NOBODY = 65534
LONGEST_HINT = 100

# What no hint of a cut line may say: the bid would be one on fewer goods.
HARMFUL = (b"write a space and `#`", b"write `#`", b"add `#`")

HEADER = b"goods 4\nbids 2\ndummy 1\n"
FIRST = b"0 5 0 #\n"
WHOLE = HEADER + FIRST + b"1 7 1 2 #\n"


class Row(NamedTuple):
    """A mistake: a text, the place and the kind of its fault, and words of the hint."""

    name: str
    text: bytes
    place: str
    kind: str
    words: tuple


def row(name, text, place, kind, *words):
    return Row(name, text, place, kind, words)


def price(name, word, *words, kind="NotANumber"):
    """A price that is wrong."""
    return row(name, HEADER + b"0 " + word + b" 0 1 #\n1 7 1 #\n", "4:2", kind, *words)


def good(name, word, *words, kind="NotANumber"):
    """A good that is wrong, or what is in its place."""
    return row(name, HEADER + b"0 5 " + word + b" #\n1 7 1 #\n", "4:3", kind, *words)


def line(name, text, word, *words, kind="NotANumber"):
    """A line that is wrong, in the place of the second bid."""
    return row(name, HEADER + FIRST + text + b"\n", f"5:{word}", kind, *words)


def zipped(text):
    packed = io.BytesIO()
    with zipfile.ZipFile(packed, "w") as archive:
        archive.writestr("auction.txt", text)
    return packed.getvalue()


def tarred(text):
    packed = io.BytesIO()
    with tarfile.open(fileobj=packed, mode="w", format=tarfile.USTAR_FORMAT) as archive:
        member = tarfile.TarInfo("auction.txt")
        member.size = len(text)
        archive.addfile(member, io.BytesIO(text))
    return packed.getvalue()


def encoded(name):
    return WHOLE.decode().encode(name)


OTHER_FILES = [
    row("gzip", gzip.compress(WHOLE, mtime=0), "1:1", "Header", "gzip", "zcat F"),
    row("bzip2", bz2.compress(WHOLE), "1:1", "Header", "bzip2", "bzcat F"),
    row("xz", lzma.compress(WHOLE), "1:1", "Header", "xz", "xzcat F"),
    row("zstd", b"\x28\xb5\x2f\xfd\x24\x2a" + WHOLE, "1:1", "Header", "zstd", "zstdcat F"),
    row("zip", zipped(WHOLE), "1:1", "Header", "zip", "unzip -p F"),
    row("tar", tarred(WHOLE), "1:1", "Header", "tar", "tar -xOf F"),
    row("byte order mark", b"\xef\xbb\xbf" + WHOLE, "1:1", "Header", "byte order mark", "UTF-8"),
    row("byte order mark before a comment", b"\xef\xbb\xbf% a\n" + WHOLE, "1:1", "Header", "byte order mark"),
    row("UTF-16", b"\xff\xfe" + encoded("utf-16-le"), "1:1", "Header", "UTF-16", "iconv"),
    row("UTF-16, big end first", b"\xfe\xff" + encoded("utf-16-be"), "1:1", "Header", "UTF-16", "iconv"),
    row("UTF-16 without a mark", encoded("utf-16-le"), "1:1", "Header", "UTF-16LE", "iconv"),
    row("UTF-16 without a mark, big end first", encoded("utf-16-be"), "1:1", "Header", "UTF-16BE", "iconv"),
    row("an HTML page", b"<!DOCTYPE html>\n<html><body>404</body></html>\n", "1:1", "Header", "HTML", "download"),
    row("XML", b'<?xml version="1.0"?>\n<auction/>\n', "1:1", "Header", "XML"),
    row("a web server's error", b"404: Not Found\n", "1:1", "Header", "web server", "download"),
    row("a JSON object", b'{"goods": 4, "bids": []}\n', "1:1", "Header", "JSON"),
    row("a JSON list", b"[\n  [0, 5]\n]\n", "1:1", "Header", "JSON"),
    row("rich text", b"{\\rtf1\\ansi goods 4}\n", "1:1", "Header", "rich text"),
    row("LP", b"Maximize\n revenue:\n + 5 x0\nEnd\n", "1:1", "Header", "linear program"),
    row("LP with a comment", b"\\Problem name: wdp\nMaximize\n", "1:1", "Header", "linear program"),
    row("MPS", b"NAME          wdp\nROWS\n", "1:1", "Header", "MPS"),
    row("PDF", b"%PDF-1.4\n%\xe2\xe3\xcf\xd3\n1 0 obj\n<<\n", "3:1", "Header", "PDF"),
    row("PDF without a second comment", b"%PDF-1.4\n1 0 obj\n<<\n", "2:1", "Header", "PDF"),
    row("Git LFS", b"version https://git-lfs.github.com/spec/v1\noid sha256:4d7a\nsize 9\n", "1:1", "Header", "git lfs pull"),
    row("a table", b"bid,price,goods\n0,5,0\n", "1:1", "Header", "CSV"),
    row("another format", b"\x7fELF\x02\x01\x01\x00\n", "1:1", "Header", "file F"),
    row("no file at all", b"", "1:1", "Missing", "empty"),
]

HEADER_LINES = [
    row("no header", b"0 5 0 #\n1 7 1 #\n", "1:1", "Header", "the header is due", "goods N"),
    row("no `dummy`", b"goods 4\nbids 2\n" + FIRST, "3:1", "Header", "dummy 0"),
    row("no `dummy`, after comments", b"% a\n% b\n% c\ngoods 4\nbids 2\n" + FIRST, "6:1", "Header", "dummy 0"),
    row("another order", b"bids 2\ngoods 4\ndummy 1\n", "1:1", "Header", "in this order"),
    row("`goods` twice", b"goods 4\ngoods 4\nbids 2\n", "2:1", "Header", "each once"),
    row("a capital", b"Goods 4\nBids 2\nDummy 1\n", "1:1", "Header", "lower case"),
    row("capitals", b"goods 4\nBIDS 2\nDUMMY 1\n", "2:1", "Header", "lower case"),
    row("a colon", b"goods: 4\nbids: 2\ndummy: 1\n", "1:1", "Header", "a blank"),
    row("an equals sign", b"goods=4\nbids=2\ndummy=1\n", "1:1", "Header", "a blank"),
    row("another word", b"items 4\nbids 2\ndummy 1\n", "1:1", "Header", "goods N"),
    row("a comment with #", b"# an auction\n" + WHOLE, "1:1", "Header", "%"),
    row("a comment with //", b"// an auction\n" + WHOLE, "1:1", "Header", "%"),
    row("quotes", b'"goods" 4\n"bids" 2\n', "1:1", "Header", "quotes"),
    row("a no-break space", b"\xc2\xa0goods 4\nbids 2\n", "1:1", "Header", "no-break space"),
    row("one line", b"goods 4 bids 2 dummy 1\n" + FIRST, "1:3", "Header", "a line of its own"),
    row("a remark in a header line", b"goods 4 # of them\nbids 2\n", "1:3", "Header", "comment"),
    row("two numbers", b"goods 4 4\nbids 2\n", "1:3", "Header", "one number"),
    row("a number in two words", b"goods 4\nbids 1 000\ndummy 0\n", "2:3", "Header", "without blanks"),
    row("a header line without its number", b"goods\n4\n", "1:2", "Header", "number", "cut"),
    row("goods in words", b"goods four\nbids 2\n", "1:2", "NotANumber", "digits"),
    row("goods as a decimal", b"goods 4.0\nbids 2\n", "1:2", "NotANumber", "header line", "digits alone"),
    row("goods below 0", b"goods -4\nbids 2\n", "1:2", "NotANumber", "header line", "no sign"),
    row("goods with a comma", b"goods 1,024\nbids 2\n", "1:2", "NotANumber", "comma"),
    row("too many goods", b"goods 5000\nbids 2\n", "1:2", "TooLarge", "4096"),
    row("too many bids", b"goods 4\nbids 70000\n", "2:2", "TooLarge", "65536"),
    row("too many bids, after comments", b"% a\n% b\n% c\ngoods 4\nbids 70000\n", "5:2", "TooLarge", "65536"),
    row("lines that end with CR", WHOLE.replace(b"\n", b"\r"), "1:2", "NotANumber", "CR", "tr "),
    row("lines that end with CR, a comment first", b"% a\r" + WHOLE.replace(b"\n", b"\r"), "2:1", "Missing", "CR", "tr "),
    row("lines that end with CR CR LF", WHOLE.replace(b"\n", b"\r\r\n"), "1:2", "NotANumber", "CR", "tr "),
]

PRICES = [
    price("a price below 0", b"-71.2", "below 0"),
    price("a plus", b"+71.2", "leave out `+`"),
    price("a minus of typesetting", b"\xe2\x88\x9271.2", "below 0"),
    price("an exponent", b"1.02345e+06", "exponent", "--round"),
    price("a capital exponent", b"1E6", "exponent", "--round"),
    price("no digit before the point", b".5", "point", "--round"),
    price("no digit behind the point", b"5.", "point", "--round"),
    price("a dollar", b"$118", "currency"),
    price("a euro", b"\xe2\x82\xac118", "currency"),
    price("a euro behind", b"118\xe2\x82\xac", "currency"),
    price("letters of a currency", b"118USD", "letters"),
    price("thousands as a letter", b"5k", "letters"),
    price("a decimal comma", b"71,2", "comma"),
    price("commas between thousands", b"1,234.50", "comma"),
    price("signs between thousands", b"1_234", "between thousands"),
    price("apostrophes between thousands", b"1'234", "between thousands"),
    price("not a number", b"nan", "nan"),
    price("infinity", b"inf", "inf"),
    price("infinity of Windows", b"1.#INF", "inf"),
    price("a value that is missing", b"NA", "missing"),
    price("None", b"None", "missing"),
    price("hexadecimal", b"0x1f", "hexadecimal"),
    price("quotes around a price", b'"5"', "quotes"),
    price("two points", b"1.234.567", "one point"),
    price("too many places", b"0.0123456", "--round", kind="TooFine"),
    price("too large", b"1000000000001", "10^12", kind="TooLarge"),
]

BID_LINES = [
    line("two files that were joined", WHOLE[:-1], 1, "joined"),
    line("two files that were joined, the second with a mark", b"\xef\xbb\xbf" + WHOLE[:-1], 1, "joined", "byte order mark"),
    line("`bids` again", b"bids 2", 1, "joined"),
    line("a comment with # among the bids", b"# note", 1, "%"),
    line("a comment with // among the bids", b"// note", 1, "%"),
    line("a remark", b"second bidder", 1, "%"),
    line("a conflict", b"<<<<<<< HEAD", 1, "git", "conflict"),
    line("a colon behind the number", b"1: 7 1 #", 1, ":"),
    line("commas between all words", b"1,7,1,#", 1, "commas"),
    line("semicolons between all words", b"1;7;1;#", 1, ";"),
    line("a number as a decimal", b"1.0 7 1 #", 1, "digits alone"),
    line("an end of old programs", b"\x1a", 1, "Ctrl-Z"),
    line("zero bytes at the end", b"\x00\x00\x00", 1, "damaged"),
    line("a bid with nothing", b"1 #", 2, "missing before `#`"),
    line("a bid without goods", b"1 7 #", 3, "no good", kind="EmptyBundle"),
    line("a bid of dummy goods alone", b"1 7 4 #", 4, "counted from 1", kind="EmptyBundle"),
    line("no blank before #", b"1 7 3#", 3, "blank"),
    line("a remark without a blank", b"1 7 3 #last", 4, "remark"),
    line("a remark behind #", b"1 7 3 # last", 5, "comment", kind="AfterEnd"),
    line("a comment behind #", b"1 7 3 # % last", 5, "comment", kind="AfterEnd"),
    line("two #", b"1 7 3 # #", 5, "one `#`", kind="AfterEnd"),
    line("two bids in a line", b"1 7 3 # 2 5 1 #", 5, "new line", kind="AfterEnd"),
    line("a comment within a bid", b"1 7 % goods", 3, "comment"),
    line("a number twice", b"0 7 3 #", 1, "number", kind="RepeatedNumber"),
    line("numbers from 1", b"2 7 3 #", 1, "from 0", kind="BidNumber"),
    line("a good twice", b"1 7 3 3 #", 4, "once", kind="RepeatedGood"),
    row("a bid more", WHOLE + b"2 5 1 #\n", "6:1", "ExtraBid", "bids N"),
    row("two dummy goods", HEADER.replace(b"dummy 1", b"dummy 2") + b"0 5 0 4 5 #\n", "4:5", "TwoDummies", "two dummy goods"),
]

GOODS = [
    good("a list of goods with commas", b"0,2,3", "0 2 3"),
    good("a list in brackets", b"[0,", "brackets"),
    good("a set in braces", b"{0}", "brackets"),
    good("a range", b"0-3", "range"),
    good("a good as a decimal", b"3.0", "3 for 3.0"),
    good("a good with a sign", b"+3", "sign"),
    good("the end as -1", b"-1", "`#`"),
    good("a name", b"north", "names"),
    good("a good in quotes", b'"3"', "quotes"),
    good("a good of other digits", b"\xc2\xb2", "ASCII"),
    good("goods counted from 1", b"5", "from 1", kind="GoodRange"),
]

CUT = [
    row("cut within the goods", HEADER + FIRST + b"1 7 1", "5:4", "NoEnd", "cut", "length"),
    row("cut within the goods, with LF", HEADER + FIRST + b"1 7 1\n", "5:4", "NoEnd", "cut", "length"),
    row("cut behind the price", HEADER + FIRST + b"1 7", "5:3", "NoEnd", "cut", "length"),
    row("cut behind the number", HEADER + FIRST + b"1", "5:2", "NoEnd", "cut", "length"),
    row("cut between bids", HEADER + FIRST, "5:1", "Missing", "cut", "length"),
    row("cut behind the header", HEADER, "4:1", "Missing", "cut", "length"),
    row("cut in the header", b"goods 4\nbids 2\n", "3:1", "Missing", "cut", "length"),
    row("cut behind the first line", b"goods 4\n", "2:1", "Missing", "cut"),
    row("cut within a header line", b"goods 4\nbids", "2:2", "Header", "cut"),
]

ROWS = [*OTHER_FILES, *HEADER_LINES, *PRICES, *BID_LINES, *GOODS, *CUT]


def column_of(text, place):
    """The place `LINE:WORD` with the column in place of the word: where that begins in its line, in bytes from 1, or where the line ends."""
    number, word = map(int, place.split(":"))
    line = [*text.split(b"\n"), b""][number - 1].removesuffix(b"\r")
    starts = [*(it.start() for it in re.finditer(rb"[^ \t]+", line)), len(line)]
    return b"%d:%d" % (number, starts[min(word, len(starts)) - 1] + 1)


def judge(program, it):
    """Whether the program answers the place and the kind of a row, and a hint with its words."""
    ran = subprocess.run([program, "fault", "/dev/stdin"], input=it.text, capture_output=True, timeout=SECONDS)
    TALLY.count_run()
    place, _, hint = ran.stdout.removesuffix(b"\n").partition(b"\n")
    found = place.startswith(b"/dev/stdin:%b: %b" % (column_of(it.text, it.place), it.kind.encode())) and ran.returncode == FILE_REFUSED
    helps = all(word.encode() in hint for word in it.words) and len(hint) <= LONGEST_HINT
    TALLY.judge(found and helps and not any(harm in hint for harm in HARMFUL), it.name, (ran.returncode, ran.stdout, ran.stderr))


# Files of a folder, each with the place of its fault, if it has one, behind its path.
FILES = {
    "a good one": (WHOLE, None),
    "comma": (HEADER + b"0 71,2 0 #\n1 7 1 #\n", b"4:3: NotANumber: 71,2"),
    "below/cut": (HEADER + FIRST, b"5:1: Missing"),
    "below/good": (WHOLE, None),
    "below/header": (b"goods 4 bids 2\n", b"1:9: Header: bids"),
    "spaces": (HEADER + b"  0\t 5  0 x #\n1 7 1 #\n", b"4:11: NotANumber: x"),
}
IS_FOLDER = b"cannot open: is a folder: name it to 'fault', 'duplicates' or 'sizes'\n"
# The words of a line on these files, the files whose faults are printed, standard error, and the status.
LINES = [
    (("fault", "a good one", "below/good"), (), b"", 0),
    (("fault", "a good one", "comma", "below/good", "spaces"), ("comma", "spaces"), b"", FILE_REFUSED),
    (("fault", "below"), ("below/cut", "below/header"), b"", FILE_REFUSED),
    (("fault", "comma", "none", "below/", "a good one"), ("comma", "below/cut", "below/header"), b"none: cannot open: no such file\n", DEVICE_FAILED),
    (("fault", "locked", "spaces"), ("spaces",), b"locked: cannot open: permission denied\n", DEVICE_FAILED),
    (("lp", "none"), (), b"none: cannot open: no such file\n", DEVICE_FAILED),
    (("explain", "locked"), (), b"locked: cannot open: permission denied\n", DEVICE_FAILED),
    (("diff", "a good one", "below"), (), b"below: " + IS_FOLDER, DEVICE_FAILED),
    (("check", "none"), (), b"cannot open\n", DEVICE_FAILED),
]


def leave_root():
    os.setgroups([])
    os.setgid(NOBODY)
    os.setuid(NOBODY)


def judge_line(program, folder, words, faulty, err, status):
    """Whether each place is below the path of its own file, each with a hint behind it, and nothing is printed of the others."""
    ran = subprocess.run([program, *words], cwd=folder, capture_output=True, timeout=SECONDS, preexec_fn=None if os.getuid() else leave_root)
    TALLY.count_run()
    lines = ran.stdout.splitlines()
    places = [name.encode() + b":" + FILES[name][1] for name in faulty]
    hints = [hint for hint in lines[1::2] if 0 < len(hint) <= LONGEST_HINT and b":" not in hint.split(b" ")[0]]
    found = lines[::2] == places and len(hints) == len(places)
    TALLY.judge(found and ran.stderr == err and ran.returncode == status, words, (ran.returncode, ran.stdout, ran.stderr))


def judge_lines(program):
    with tempfile.TemporaryDirectory() as folder:
        os.chmod(folder, 0o755)
        for name, text in [*((name, text) for name, (text, _) in FILES.items()), ("locked", WHOLE)]:
            path = os.path.join(folder, name)
            os.makedirs(os.path.dirname(path), exist_ok=True)
            with open(path, "wb") as file:
                file.write(text)
        os.chmod(os.path.join(folder, "locked"), 0)
        copy = shutil.copy(program, folder)
        os.chmod(copy, 0o755)
        for it in LINES:
            judge_line(copy, folder, *it)


def main():
    for it in ROWS:
        judge(sys.argv[1], it)
    judge_lines(sys.argv[1])
    return TALLY.status()


if __name__ == "__main__":
    sys.exit(main())
