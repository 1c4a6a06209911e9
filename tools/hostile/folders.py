"""Runs the commands on many files where memory, reads, writes and opening fail, and judges each answer: such a run reports the file
and continues with the others. Also lists of paths, folders, names that are escaped, and files that the step limit refuses.

    folders.py PROGRAM CALLS GENERATED LARGE [full]

The words are those of runs.py. Prints what is wrong and 'N runs, M wrong'; the status is 0 where M is 0, and else 1.
"""
import os
import resource
import select
import socket
import stat
import sys
import tempfile
import threading
import tty
from concurrent.futures import ThreadPoolExecutor
from itertools import count

from runs import BIDDERS, DEVICE_FAILED, FILE_REFUSED, LADDER, LARGER_BID, NO_MEMORY, PIECE, PIPE, SINGLES, Answer, Case, case, ended, feed, full, header, reads_of
from runs import run, start, write_file
from tally import TALLY, some_of

STEP_LIMIT, WRONG_USAGE = 3, 64

WANT = b"want of memory\n"


class OfFolder(Case):
    """A case whose files are all those of a folder, in order, which is given in their place."""

    def words(self, files=None):
        return [*self.command, os.path.dirname(self.files[0])]

    def __str__(self):
        return f"{super().__str__()}, by their folder"


def beside(one, left_out):
    """What the run answers on the other files."""
    return run([*one.command, *(path for path in one.files if path != left_out)])


def makes_table(one):
    """Whether a refused file is a row of the table, and no line on standard error."""
    return one.command[0] == "sizes"


def refused_row(path, line):
    """The row of a file that was not read."""
    return 8 * b"\t" + line.removesuffix(b"\n") + b"\t" + os.fsencode(path) + b"\n"


def reported(one, path, status, line):
    """What a run answers that cannot judge one of its files: the line on it is among those on the others, or its row is, in the order of the files."""
    others = beside(one, path)
    if makes_table(one):
        header, *rows = one.own.out.splitlines(True)
        rows[one.files.index(path)] = refused_row(path, line)
        return (max(status, others.status), b"".join((header, *rows)), b"")
    lines = {its.split(b": ")[0]: its for its in others.err.splitlines(True)}
    lines[os.fsencode(path)] = os.fsencode(path) + b": " + line
    err = b"".join(lines[name] for name in map(os.fsencode, one.files) if name in lines)
    return (max(status, others.status), others.out, err)


def opens(one):
    """Each file cannot be opened, though it is there."""
    for call, line in (("open", b"cannot open\n"), ("denied", b"cannot open: permission denied\n")):
        for number, path in enumerate(one.files, 1):
            answer = run(one.words(), call=call, number=number)
            TALLY.judge(answer.printed() == reported(one, path, DEVICE_FAILED, line), f"{one}: {call} {number}", answer)


def reads(one, piece):
    """Each read fails. Where a file has a fault no more of it is read, so such files are not among these."""
    number = 0
    for path, many in zip(one.files, reads_of(one, piece)):
        for _ in range(many):
            number += 1
            answer = run(one.words(), call="read", number=number, piece=piece)
            TALLY.judge(answer.printed() == reported(one, path, DEVICE_FAILED, b"Device\n"), f"{one}: read {number}", answer)
    answer = run(one.words(), call="read", number=number + 1, piece=piece)
    TALLY.judge(answer == one.own, f"{one}: no read of {piece} bytes", answer)


def begins_table(one, out):
    """Whether these are the first rows of the run, whole, of which some may say that memory was refused."""
    header, *rows = one.own.out.splitlines(True)
    known = [(header,), *((row, refused_row(path, WANT)) for row, path in zip(rows, one.files))]
    printed = out.splitlines(True)
    return len(printed) <= len(known) and all(line in allowed for line, allowed in zip(printed, known))


def is_whole_run_refused(one, answer):
    """Whether the run ended for want of memory, before a file was read, when all were, or, of a table, behind any of its rows."""
    lines = answer.err.splitlines(True)
    is_begun = answer.out == b"" or (makes_table(one) and begins_table(one, answer.out))
    return answer.status == NO_MEMORY and is_begun and bool(lines) and lines[-1] == WANT


def memory(one, rest):
    """Each allocation is refused, alone or with all that come after it: a file is reported and the others are judged, or the run ends. No line
    needs memory: if all is refused, each file is reported. A row needs memory: without it the run ends."""
    refused = {reported(one, path, NO_MEMORY, WANT) for path in one.files}
    if rest:
        refused = set() if makes_table(one) else {(NO_MEMORY, b"", b"".join(os.fsencode(path) + b": " + WANT for path in one.files))}
    whats, what = set(), f"{one}: allocation{' and all later' if rest else ''}"
    for number in count(1):
        answer = run(one.words(), call="allocation", number=number, rest=rest)
        if not answer.failures:
            break
        printed = answer.printed()
        is_right = is_whole_run_refused(one, answer) or printed == one.own.printed() or printed in refused
        TALLY.judge(is_right, f"{what} {number}", answer)
        whats.add(printed)
    TALLY.judge(answer.printed() == one.own.printed(), f"{what}: none", answer)
    if not rest:
        TALLY.judge(refused <= whats, f"{what}: a file was never reported for want of memory", refused - whats)
    TALLY.judge(any(printed[0] == NO_MEMORY for printed in whats), f"{what}: no want of memory was reported", None)


def writes(one):
    """The output fails at its first byte, alone or with all that comes after it."""
    for rest in (False, True):
        answer = run(one.words(), call="write", number=1, piece=PIECE, rest=rest)
        wanted = (DEVICE_FAILED, b"", b"" if rest else b"output failed after 0 bytes\n")
        TALLY.judge(answer.printed() == wanted, f"{one}: the first write", answer)


def other_inputs(one):
    """A device that gives nothing and a path where nothing is are among the files."""
    for path, status, line in (
        ("/dev/null", FILE_REFUSED, b"line 1: Missing\n"),
        ("/nothing", DEVICE_FAILED, b"cannot open: no such file\n"),
    ):
        for at in range(len(one.files) + 1):
            files = [*one.files[:at], path, *one.files[at:]]
            answer = run([*one.command, *files])
            told = (one.own.out, os.fsencode(path) + b": " + line)
            if makes_table(one):
                header, *rows = one.own.out.splitlines(True)
                told = (b"".join((header, *rows[:at], refused_row(path, line), *rows[at:])), b"")
            wanted = Answer(max(status, one.own.status), *told)
            TALLY.judge(answer == wanted, f"{one}: {path} as file {at + 1}", answer)


def is_told(answer, status, out, lines):
    """Whether the run answered this, with a line on standard error for each of these beginnings."""
    printed = answer.err.splitlines(True)
    return answer.printed()[:2] == (status, out) and len(printed) == len(lines) and all(map(bytes.startswith, printed, lines))


def lists(folder):
    """Paths in a list: with the last NUL and without it, none, one twice, an empty one, and such as cannot be opened."""
    names = os.path.join(os.fsencode(folder), b"names")
    os.mkdir(names)
    paths = [os.path.join(names, name.encode()) for name in ("a b", "\u00e9\u4e2d", "$x;*'\"")]
    for path in paths:
        with open(path, "w", encoding="ascii") as file:
            file.write(LADDER)
    one, listed, folder_of_files = paths[0], b"".join(path + b"\0" for path in paths), names + b"/"
    below = b"".join(path + b"\n" for path in sorted(paths))
    groups, pair = b"".join(path + b"\n" for path in paths), one + b"\n" + one + b"\n"
    rows = [
        (listed, 0, groups, []),
        (listed[:-1], 0, groups, []),
        (b"", 0, b"", []),
        (one, 0, b"", []),
        (one + b"\0" + one + b"\0", 0, pair, []),
        (one + b"\0\0" + one, DEVICE_FAILED, pair, [b": cannot open: no such file\n"]),
        (b"\0", DEVICE_FAILED, b"", [b": cannot open: no such file\n"]),
        (one + b"\0" + names + b"/none\0" + one, DEVICE_FAILED, pair, [names + b"/none: cannot open: no such file\n"]),
        (one + b"\0" + names + b"/b\xff\0" + one, DEVICE_FAILED, pair, [names + rb"/b\xff" + b": cannot open\n"]),
        (one + b"\0" + folder_of_files + b"\0" + one, 0, one + b"\n" + below + one + b"\n", []),
        (names, 0, below, []),
    ]
    path = os.path.join(os.fsencode(folder), b"list")
    for text, status, out, lines in rows:
        with open(path, "wb") as file:
            file.write(text)
        answer = run(["duplicates", "--files0-from", path])
        TALLY.judge(is_told(answer, status, out, lines), f"the list {text}", answer)
    # the output of one run is the list of another
    with open(path, "wb") as file:
        file.write(listed)
    for option in ("-0", "--null"):
        answer = run(["duplicates", option, "--files0-from", path])
        TALLY.judge(is_told(answer, 0, listed, []), f"the list with {option}", answer)
    header = b"goods\tbids\tor_bids\txor_bidders\tdummies\tkept\tkept_or\tkept_xor\tfault\tfile\n"
    answer = run(["sizes", "--files0-from", "/dev/null"])
    TALLY.judge(is_told(answer, 0, header, []), "no path", answer)
    # lists that are not read, and words that are not UTF-8
    for words, status, line in (
        (["sizes", "--files0-from", names + b"/none"], DEVICE_FAILED, names + b"/none: cannot open: no such file\n"),
        (["duplicates", "--files0-from", folder_of_files], DEVICE_FAILED, folder_of_files + b": cannot open: is a folder: name it to 'fault', 'duplicates' or 'sizes'\n"),
        (["sizes", one, b"\xff", b"\xfe"], WRONG_USAGE, b"argument 3 is not UTF-8; with --files0-from LIST, "),
        ([b"\xc3", one], WRONG_USAGE, b"argument 1 is not UTF-8; with --files0-from LIST, "),
    ):
        answer = run(words)
        TALLY.judge(is_told(answer, status, b"", [line]), f"{words}", answer)
    for words in (["sizes", "--files0-from", path, one], ["duplicates", "--files0-from", path, "--files0-from", path], ["sizes"]):
        answer = run(words)
        TALLY.judge(answer.printed()[:2] == (WRONG_USAGE, b"") and answer.err.startswith(b"error: "), f"{words}", answer)


# Names whose bytes are escaped on a line, and how they are printed there.
NAMES = {
    b"a\nb": rb"a\nb",
    b"a\tb": rb"a\tb",
    b"\x1b[2J": rb"\x1b[2J",
    b"a\\nb": rb"a\\nb",
    b"\x7f\x01": rb"\x7f\x01",
    b"\xc3\xa9\xc2\x9b": b"\xc3\xa9" + rb"\xc2\x9b",
    b"\xe2\x80\xaeb": rb"\xe2\x80\xaeb",
    b"a\xe2\x80\x8fb\xef\xbb\xbf": rb"a\xe2\x80\x8fb\xef\xbb\xbf",
    b"-0": b"-0",
}


def names(folder):
    """Files with such names: each is escaped on a line, and is as it is with NUL. And a folder with one file."""
    place = os.path.join(os.fsencode(folder), b"escaped") + b"/"
    os.mkdir(place)
    for name in NAMES:
        with open(place + name, "w", encoding="ascii") as file:
            file.write(LADDER)
    paths = [place + name for name in NAMES]
    lines = [place + line for line in NAMES.values()]
    listed = b"".join(path + b"\0" for path in paths)
    path = os.path.join(os.fsencode(folder), b"list of names")
    with open(path, "wb") as file:
        file.write(listed)
    for words in (paths, ["--files0-from", path]):
        answer = run(["duplicates", *words])
        TALLY.judge(is_told(answer, 0, b"".join(line + b"\n" for line in lines), []), "escaped names", answer)
        answer = run(["duplicates", "-0", *words])
        TALLY.judge(is_told(answer, 0, listed, []), "names with NUL", answer)
        answer = run(["sizes", *words])
        printed = [line.split(b"\t", 9)[-1] for line in answer.out.splitlines()[1:]]
        TALLY.judge(answer.printed()[::2] == (0, b"") and printed == lines, "escaped names in a table", answer)
        answer = run(["sizes", "-0", *words])
        printed = [line.split(b"\t", 9)[-1] for line in answer.out.split(b"\0")[1:-1]]
        TALLY.judge(answer.printed()[::2] == (0, b"") and printed == paths, "names with NUL in a table", answer)
    # such names of files that are not there
    absent = [path + b"/" + name for name in NAMES]
    lines = [path + b"/" + line + b": cannot open\n" for line in NAMES.values()]
    answer = run(["duplicates", "-0", "--progress", *absent])
    read = [b"%d of %d " % (number, len(NAMES)) + line.removesuffix(b": cannot open\n") + b"\n" for number, line in enumerate(lines, 1)]
    TALLY.judge(is_told(answer, DEVICE_FAILED, b"", [it for both in zip(read, lines) for it in both]), "names that are not there", answer)
    answer = run(["duplicates", paths[0]])
    TALLY.judge(is_told(answer, 0, b"", []), "one file", answer)


def is_utf8(name):
    try:
        name.decode()
    except UnicodeDecodeError:
        return False
    return True


def files_below(folder):
    """The files below a folder, as Python finds them. What has a name that is not UTF-8 is one, as it cannot be looked at, and so is a folder
    that cannot be read."""
    start, found = folder if folder.endswith(b"/") else folder + b"/", []
    for top, folders, others in os.walk(start, onerror=lambda error: found.append(error.filename)):
        paths = [os.path.join(top, name) for name in (*folders, *others)]
        found += [path for path in paths if not is_utf8(path) or stat.S_ISREG(os.lstat(path).st_mode)]
        folders[:] = filter(is_utf8, folders)
    return sorted(found)


def make_tree(tree):
    """A folder with files that are all one auction, and with what is left out, and some names that are not UTF-8."""
    for name in (b"", b"/a", b"/a/y", b"/a/empty", b"/a.c", b"/\xfe"):
        os.mkdir(tree + name)
    for name in (b"/b", b"/a/z", b"/a.b", b"/a/y/x", b"/a/y/.hidden", b"/a.c/d\ne", b"/\xc3\xa9", b"/\xff", b"/\xfe/f"):
        with open(tree + name, "w", encoding="ascii") as file:
            file.write(LADDER)
    os.symlink(b"b", tree + b"/link")
    os.symlink(b"a", tree + b"/link to a folder")
    os.symlink(b"..", tree + b"/a/above")
    os.symlink(b"nothing", tree + b"/link to nothing")
    os.mkfifo(tree + b"/a/fifo")
    with socket.socket(socket.AF_UNIX) as it:
        it.bind(tree + b"/a/socket")


def judge_paths(words, paths, refused=()):
    """The files of a run are those at these paths, in order, all of one auction; of the refused ones the path and the reason are given."""
    refused = dict(refused)
    lines = [path.replace(b"\xff", rb"\xff").replace(b"\xfe", rb"\xfe") + b": " + refused[path] for path in paths if path in refused]
    judged = [path + b"\0" for path in paths if path not in refused]
    status, groups = DEVICE_FAILED if lines else 0, b"".join(judged) if len(judged) > 1 else b""
    answer = run(["duplicates", "-0", *words])
    TALLY.judge(answer.printed() == (status, groups, b"".join(lines)), f"the groups of {words}", answer)
    answer = run(["sizes", "-0", *words])
    printed = [line.split(b"\t", 9)[-1] for line in answer.out.split(b"\0")[1:-1]]
    TALLY.judge(answer.printed()[::2] == (status, b"") and printed == paths, f"the table of {words}", answer)


def trees(folder):
    """Folders among the paths: the files below each are judged."""
    folder = os.fsencode(folder)
    tree, again, path = folder + b"/tree", folder + b"/again", folder + b"/list of folders"
    make_tree(tree)
    os.symlink(b"tree", again)
    below = files_below(tree)
    wanted = [b"/a.b", b"/a.c/d\ne", b"/a/y/.hidden", b"/a/y/x", b"/a/z", b"/b", b"/\xc3\xa9", b"/\xfe", b"/\xff"]
    TALLY.judge(below == [tree + name for name in wanted], "the files below the folder", below)
    refused = {path: b"cannot open\n" for path in below if not is_utf8(path)}
    inner = files_below(tree + b"/a")
    judge_paths([tree], below, refused)
    judge_paths([tree + b"/"], below, refused)
    judge_paths([tree, tree], below + below, refused)
    judge_paths([tree + b"/b", tree + b"/a", tree + b"/a.b"], [tree + b"/b", *inner, tree + b"/a.b"])
    judge_paths([tree + b"/a", tree + b"/a/y/x"], [*inner, tree + b"/a/y/x"])
    judge_paths([tree + b"/a/empty"], [])
    judge_paths([tree + b"/a/empty", tree + b"/a/empty/"], [])
    judge_paths([tree + b"/a//"], [tree + b"/a//" + name[len(tree + b"/a/") :] for name in inner])
    # a link on the line is followed
    for link in (again, again + b"/"):
        judge_paths([link + b"/a"], files_below(link + b"/a"))
    judge_paths([tree + b"/link to a folder", tree + b"/link"], [*files_below(tree + b"/link to a folder"), tree + b"/link"])
    # no folder is looked for at a path that is not UTF-8, and no FIFO is opened that a list names
    fifo = tree + b"/a/fifo"
    with open(path, "wb") as file:
        file.write(tree + b"/a\0" + tree + b"/\xfe\0" + fifo + b"\0" + again)
    turned = files_below(again)
    refused.update({path: b"cannot open\n" for path in turned if not is_utf8(path)})
    refused[fifo] = b"cannot open: not a file\n"
    judge_paths(["--files0-from", path], [*inner, tree + b"/\xfe", fifo, *turned], refused)
    named(fifo, tree + b"/b")
    if os.geteuid() != 0:
        locked(tree + b"/a")


def named(fifo, same):
    """A FIFO on the line is read, as a file with the same text is."""
    for command in ("duplicates", "sizes"):
        own = run([command, same, same])
        threading.Thread(target=feed, args=(fifo, LADDER.encode(), 7), daemon=True).start()
        answer = run([command, fifo, same])
        TALLY.judge(answer == own._replace(out=own.out.replace(same, fifo, 1)), f"{command} of a FIFO", answer)


def locked(folder):
    """A folder on the line, and one below it, without permission to read."""
    inner = folder + b"/y"
    os.chmod(inner, 0)
    refused = {inner: b"cannot open: permission denied\n"}
    judge_paths([inner], [inner], refused)
    judge_paths([folder, folder], 2 * files_below(folder), refused)
    os.chmod(inner, 0o700)


def unread(folder):
    """A folder cannot be opened or read, or what is in it cannot be looked at: it is reported as a file that cannot be opened. If it can be
    opened afterwards, it is reported as a folder."""
    top = os.path.join(os.fsencode(folder), b"top")
    os.makedirs(top + b"/b")
    paths = [top + name for name in (b"/a", b"/b/c", b"/d")]
    for path in paths:
        with open(path, "w", encoding="ascii") as file:
            file.write(LADDER)

    def refusal(path, why):
        files = {top: []}.get(path, [it for it in paths if not (it + b"/").startswith(path + b"/")])
        return (DEVICE_FAILED, b"".join(it + b"\n" for it in files), path + b": cannot open: " + why + b"\n")

    own = (0, b"".join(path + b"\n" for path in paths), b"")
    denied, is_folder = b"permission denied", b"is a folder: name it to 'fault', 'duplicates' or 'sizes'"
    folders = [refusal(path, is_folder) for path in (top, top + b"/b")]
    for call, rest, wanted in (
        ("folder", False, folders),
        ("folder", True, [refusal(path, denied) for path in (top, top + b"/b")]),
        ("names", False, folders),
        ("look", False, [own, folders[1], *(refusal(path, denied) for path in paths)]),
    ):
        printed = []
        for number in count(1):
            answer = run(["duplicates", top], call=call, number=number, rest=rest)
            if not answer.failures:
                break
            TALLY.judge(answer.printed() in wanted, f"a folder: {call} {number}", answer)
            printed.append(answer.printed())
        TALLY.judge(answer.printed() == own, f"a folder: no {call}", answer)
        TALLY.judge(all(it in printed for it in wanted), f"a folder: {call}: not all was printed that may be", printed)


# An auction with bids on which a search takes three steps, and the same with the bids in another order, with bids that a single other bid
# replaces, and with another price for the bid that others replace together, which is seen by a search alone.
HEAVY = LARGER_BID
TURNED = header(2, 3, 5) + "1 7 1 0 #\n0 4 1 #\n2 3.0 0 #\n"
REPLACED = header(2, 6, 0) + "0 3 0 #\n1 2 0 #\n2 4 1 #\n3 7 0 1 #\n4 6 0 1 #\n5 0 1 #\n"
LESS = header(2, 3, 0) + "0 3 0 #\n1 4 1 #\n2 6 0 1 #\n"

# The same bids beside two XOR bidders, and these with other dummy goods.
BESIDE = header(2, 5, 2) + "0 3 0 #\n1 4 1 #\n2 7 0 1 #\n3 5 0 2 #\n4 6 1 3 #\n"
RENAMED = header(2, 5, 3) + "0 3 0 #\n1 4 1 #\n2 7 0 1 #\n3 6 1 2 #\n4 5 0 4 #\n"


def alike(folder):
    """Files that the step limit refuses are grouped behind the others if they are alike without any search, and are reported all the same."""
    texts = {
        "s": SINGLES, "heavy": HEAVY, "beside": BESIDE, "turned": TURNED, "less": LESS, "bidders": BIDDERS, "s2": SINGLES,
        "renamed": RENAMED, "replaced": REPLACED,
    }
    place = os.path.join(folder, "alike")
    os.mkdir(place)
    paths = {name: os.fsencode(write_file(place, name, text)) for name, text in texts.items()}
    refused = [paths[name] + b": step limit " for name in ("heavy", "beside", "turned", "less", "renamed", "replaced")]
    heavy = [["heavy", "turned", "replaced"], ["beside", "renamed"]]
    for options, groups in (([], [["s", "s2"], *heavy]), (["--all"], [["s", "s2"], ["bidders"], *heavy])):
        for null, end in (([], b"\n"), (["-0"], b"\0")):
            out = end.join(b"".join(paths[name] + end for name in group) for group in groups)
            answer = run(["duplicates", "--steps", "2", *options, *null, *paths.values()])
            TALLY.judge(is_told(answer, STEP_LIMIT, out, refused), f"files alike {options}", answer)
    answer = run(["duplicates", "--steps", "2", paths["heavy"], paths["less"], paths["s"]])
    TALLY.judge(is_told(answer, STEP_LIMIT, b"", refused[:1] + refused[3:4]), "files that are not alike", answer)
    answer = run(["duplicates", "--steps", "3", *paths.values()])
    group = b"".join(paths[name] + b"\n" for name in ("s", "heavy", "turned", "less", "s2", "replaced"))
    TALLY.judge(is_told(answer, 0, group + b"\n" + b"".join(paths[name] + b"\n" for name in heavy[1]), []), "files that are searched", answer)


def terminal(path):
    """If standard error is a terminal, one line says which file is read, and is gone before a fault is printed."""
    read = b"\x1b[?7l%d of %d %s\x1b[?7h\n\x1b[A\x1b[K"
    refused, absent, there = b"/nothing: cannot open: no such file\n", b"/nothing", os.fsencode(path)
    rows = (
        (["duplicates", "--progress", path, "/nothing", path], read % (1, 3, there) + read % (2, 3, absent) + refused + read % (3, 3, there)),
        (["sizes", "--progress", "/nothing"], read % (1, 1, absent)),
        (["duplicates", "/nothing", path], refused),
    )
    for words, wanted in rows:
        master, slave = os.openpty()
        tty.setraw(slave)
        answer, said = ended(*start(words, err=slave)), b""
        # a terminal may pass on each line by itself
        while select.select([master], [], [], 0.2 if len(said) >= len(wanted) else 5)[0]:
            said += os.read(master, PIPE)
        TALLY.judge(said == wanted, f"{words} on a terminal", (said, answer))
        os.close(slave)
        os.close(master)


def work(folder):
    lists(folder)
    names(folder)
    trees(folder)
    unread(folder)
    alike(folder)
    terminal(write_file(folder, "file", LADDER))
    place = os.path.join(folder, "files")
    os.mkdir(place)
    files = tuple(
        write_file(place, name, text)
        for name, text in (("larger", LARGER_BID), ("singles", SINGLES), ("ladder", LADDER), ("bidders", BIDDERS), ("again", LADDER))
    )
    for command in (("sizes",), ("duplicates",), ("sizes", "--round"), ("duplicates", "--round")):
        one, below = case(command, files), OfFolder(*case(command, tuple(sorted(files))))
        TALLY.judge(run(below.words()) == below.own, f"{below}", below.own)
        calls = [lambda: opens(one), lambda: reads(one, PIECE), lambda: reads(one, 7), lambda: writes(one), lambda: other_inputs(one)]
        calls += [lambda: opens(below), lambda: reads(below, PIECE)]
        calls += [lambda it=it, rest=rest: memory(it, rest) for it in (one, below) for rest in (False, True)]
        with ThreadPoolExecutor(os.cpu_count()) as pool:
            list(pool.map(lambda call: call(), some_of(calls)))
        full(one)


def main():
    resource.setrlimit(resource.RLIMIT_CORE, (0, 0))
    with tempfile.TemporaryDirectory() as folder:
        work(folder)
    return TALLY.status()


if __name__ == "__main__":
    sys.exit(main())
