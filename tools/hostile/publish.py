"""Runs `cats publish` where texts cannot be written, beside another run, and until it is killed, and judges each answer and what is left.

    publish.py PROGRAM CALLS GENERATED LARGE [full]

The words are those of runs.py. Texts are wanted as canonical.py makes them, slowly. Whatever happens, below the folder of the texts each file is
one of these, whole, or was there before and has not changed, and each row that names a text names one that is there. Prints what is wrong, what
could not be tried, and 'N runs, M wrong'; the status is 0 if M is 0, and else 1.
"""
import os
import random
import resource
import shutil
import signal
import stat
import subprocess
import sys
import tempfile
import threading
import time
from itertools import count
from pathlib import Path
from typing import NamedTuple

from canonical import canonical
from folders import NAMES, WRONG_USAGE
from runs import BIDDERS, DEVICE_FAILED, FILE_REFUSED, LADDER, LARGER_BID, NO_MEMORY, ONE_BIDDER, PROGRAM, SECONDS, SINGLES, TOGETHER, Answer, feed, header, run
from tally import FULL, TALLY, some_of

HEADER = b"file\ttext\tsame_as\tgoods\tbids\tkept\trounded\tzeroed\tfault\n"
COLUMNS = HEADER.split()
# What a text is called until it is whole.
DRAFT = b".cats-publish-"
EXISTS, DENIED, NO_SPACE, NO_FOLDER = (b"cannot write: " + why for why in (b"it exists already", b"permission denied", b"no space", b"not a folder"))
# Who may write into no folder of another.
NOBODY = 65534
# A file of somebody, at which no text is to be.
MINE = b"mine.txt"
# The files below a folder: two use one name, some are one auction, and one is none.
FILES = {
    b"a/0000.txt": LARGER_BID, b"a/0001.txt": LADDER, b"b/0000.txt": SINGLES, b"b/c/0000.txt": BIDDERS, b"b/c/0001.txt": LADDER,
    b"b/no file": "nothing", b"c d": TOGETHER, b"e": ONE_BIDDER,
}
REFUSED = b"line 1: Header"
# What may be at a path: a file, a folder, and links.
OTHERS = {
    "a file": lambda path: Path(os.fsdecode(path)).write_bytes(b"mine"),
    "a folder": os.mkdir,
    "a link to nothing": lambda path: os.symlink(b"nothing", path),
    "a link to a folder": lambda path: os.symlink(b"..", path),
}


class Wanted(NamedTuple):
    """What a run has to answer on files, and the texts that it has to write, by their paths below the folder."""

    status: int
    out: bytes
    texts: dict


# ---- files, and what is wanted of them

def make_files(folder, files):
    for name, text in files.items():
        path = Path(os.fsdecode(os.path.join(folder, name)))
        path.parent.mkdir(parents=True, exist_ok=True)
        path.write_text(text, encoding="ascii")
    return folder


def shown(path):
    """A path as it is printed, whose last part alone may be one that is escaped."""
    folder, slash, name = path.rpartition(b"/")
    return folder + slash + NAMES.get(name, name)


def wanted_of(folder, files, every=False, faults=()):
    """What is wanted of the files below a folder, of which these texts cannot be written, each for a reason."""
    rows, texts, first, faults = [], {}, {}, dict(faults)
    for name in sorted(files):
        path = shown(os.path.join(folder, name))
        if files[name] == "nothing":
            rows.append([path, *[b""] * 7, REFUSED])
            continue
        text = canonical(files[name]).encode()
        same_as = first.get(text, b"")
        first.setdefault(text, path)
        is_written = every or not same_as
        fault = faults.get(name, b"") if is_written else b""
        numbers = [files[name].split()[1], files[name].split()[3], text.split()[3].decode(), "0", "0"]
        rows.append([path, shown(name) if is_written and not fault else b"", same_as, *(it.encode() for it in numbers), fault])
        if is_written and not fault:
            texts[name] = text
    status = max(FILE_REFUSED * any(row[-1] for row in rows), DEVICE_FAILED * any(row[-1].startswith(b"cannot") for row in rows))
    return Wanted(status, HEADER + b"".join(b"\t".join(row) + b"\n" for row in rows), texts)


def found_in(folder):
    """The files and links below a folder, by their paths below it: the bytes of each, or where it leads."""
    found = {}
    for top, folders, names in os.walk(folder):
        for path in (os.path.join(top, name) for name in (*folders, *names)):
            if os.path.islink(path):
                found[os.path.relpath(path, folder)] = os.readlink(path), "link"
            elif not os.path.isdir(path):
                with open(path, "rb") as file:
                    found[os.path.relpath(path, folder)] = file.read()
    return found


def rows_in(out):
    """The whole rows of an output, by the names of the columns."""
    lines = out[: out.rfind(b"\n") + 1].splitlines()[1:]
    return [dict(zip(COLUMNS, line.split(b"\t"))) for line in lines]


def judge_folder(what, folder, texts, out, before=None, drafts=False):
    """Whether each file is a whole text or was there before, what was there has not changed, and each row with a text names a whole one."""
    found, before = found_in(folder), before or {}
    left = [path for path in found if os.path.basename(path).startswith(DRAFT) and path not in before]
    changed = [path for path, content in before.items() if found.get(path) != content]
    wrong = [path for path, content in found.items() if path not in before and path not in left and texts.get(path) != content]
    named = [row[b"text"] for row in rows_in(out) if row.get(b"text")]
    lost = [path for path in named if path not in map(shown, found)]
    is_right = len(named) == len(set(named)) and not (changed or wrong or lost or (left and not drafts))
    TALLY.judge(is_right, f"{what}: files below the folder", {"changed": changed, "not whole": wrong, "not there": lost, "drafts": left})
    return found


def judge_run(what, words, wanted, folder, before=None, err=b""):
    """Whether a run answers what is wanted, and writes the texts that are wanted and no others."""
    before = {} if before is None else before
    answer = run(["publish", *words])
    TALLY.judge(answer.printed() == (wanted.status, wanted.out, err), f"{what}: the answer", answer)
    found = judge_folder(what, folder, wanted.texts, answer.out, before)
    TALLY.judge(set(found) == {*wanted.texts, *before}, f"{what}: the texts that are there", sorted(found))


def judge_refusal(what, words, status, err, folder, before=None):
    """Whether a run refuses to write anything, and says so in a line."""
    answer = run(["publish", *words])
    TALLY.judge(answer.printed() == (status, b"", err), f"{what}: the refusal", answer)
    TALLY.judge(found_in(folder) == (before or {}), f"{what}: what is there after it", found_in(folder))


# ---- whole runs, and refusals before anything is written

def whole(place, given):
    """All is written, into a folder that is made, one that is there, and one to which a link leads; files by their names, and in a list."""
    for every in (False, True):
        to = place + b"/whole%d/texts" % every
        judge_run(f"all files, {every}", ["--all"] * every + [to, given], wanted_of(given, FILES, every), to)
        modes = {stat.S_IMODE(os.lstat(os.path.join(to, name)).st_mode) for name in found_in(to)}
        TALLY.judge(modes == {0o666 & ~MASK}, "the permissions of the texts", modes)
    os.makedirs(place + b"/there/of others")
    Path(os.fsdecode(place), "there", os.fsdecode(MINE)).write_bytes(b"mine")
    os.symlink(b"there", place + b"/link")
    judge_run("by links", [place + b"/link/", given + b"/"], wanted_of(given, FILES), place + b"/there", {MINE: b"mine"})
    single = {name: FILES[name] for name in (b"c d", b"e")}
    paths = [os.path.join(given, name) for name in single]
    judge_run("files by their names", [place + b"/single", *paths], wanted_of(given, single), place + b"/single")
    Path(os.fsdecode(place + b"/list")).write_bytes(b"\0".join(paths))
    judge_run("files in a list", ["--files0-from", place + b"/list", place + b"/listed"], wanted_of(given, single), place + b"/listed")


def misplaced(place, given):
    """Texts that would be at one path, at that of a folder of another one, or not below the folder: nothing is made."""
    one, other, to = given + b"/a/0000.txt", given + b"/b/0000.txt", place + b"/misplaced"
    make_files(place + b"/a file", {b"a": LADDER})
    collision, outside = b"%s: cannot write: its text would be at or below that of %s\n", b"%s: cannot write: its text would not be below the folder\n"
    rows = (
        ([one, other], collision % (other, one)),
        ([given + b"/a", given + b"/b"], collision % (other, one)),
        ([one, one], collision % (one, one)),
        ([place + b"/a file", given], collision % (one, place + b"/a file/a")),
        ([given, place + b"/a file"], collision % (one, place + b"/a file/a")),
        ([one, given + b"/none/.."], outside % (given + b"/none/..")),
        ([one, given + b"/none/"], outside % (given + b"/none/")),
    )
    for words, err in rows:
        judge_refusal(f"{words}", [to, *words], WRONG_USAGE, err, to)
        TALLY.judge(not os.path.lexists(to), f"{words}: the folder is made", to)


def taken(place, given):
    """Something is at the path of a text, or in the place of the folder; a link above a text leads out of the folder, or a file is there."""
    for what, make in OTHERS.items():
        to = place + b"/taken by " + what.encode()
        os.makedirs(to + b"/b")
        make(to + b"/b/0000.txt")
        judge_refusal(what, [to, given], DEVICE_FAILED, to + b"/b/0000.txt: " + EXISTS + b"\n", to, found_in(to))
    before = {b"file": b"mine", b"link": (b"nothing", "link")}
    os.mkdir(place + b"/no folders")
    OTHERS["a file"](place + b"/no folders/file")
    OTHERS["a link to nothing"](place + b"/no folders/link")
    for to in (b"/file", b"/file/texts", b"/link"):
        to = place + b"/no folders" + to
        judge_refusal(f"{to}", [to, given], DEVICE_FAILED, to + b": " + NO_FOLDER + b"\n", place + b"/no folders", before)
    for number, make in enumerate((OTHERS["a file"], lambda path: os.symlink(place + b"/outside", path))):
        to = place + b"/above%d" % number
        os.makedirs(to)
        os.makedirs(place + b"/outside", exist_ok=True)
        make(to + b"/b")
        wanted = wanted_of(given, FILES, faults=[(name, NO_FOLDER) for name in FILES if name.startswith(b"b/")])
        judge_run(f"no folder above a text {number}", [to, given], wanted, to, found_in(to))
    TALLY.judge(not os.listdir(place + b"/outside"), "a link that leads out is followed", found_in(place + b"/outside"))


def odd_names(place, _):
    """Names whose bytes are escaped, and such as are not UTF-8; FIFOs and links among the files."""
    given, to = place + b"/odd", place + b"/odd texts"
    files = {name: header(1, 1, 0) + f"0 {number} 0 #\n" for number, name in enumerate(NAMES, 1)}
    make_files(given, files)
    os.mkfifo(given + b"/fifo")
    os.symlink(b"-0", given + b"/link")
    judge_run("names that are escaped", [to, given], wanted_of(given, files), to)
    judge_run("a name that is escaped", [to + b"\x1b", given + b"/a\nb"], wanted_of(given, {b"a\nb": files[b"a\nb"]}), to + b"\x1b")
    judge_refusal("a text with such a name", [to, given + b"/a\nb"], DEVICE_FAILED, to + rb"/a\nb: " + EXISTS + b"\n", to, found_in(to))
    threading.Thread(target=feed, args=(given + b"/fifo", LADDER.encode(), 7), daemon=True).start()
    judge_run("a FIFO", [to + b" 2", given + b"/fifo"], wanted_of(given, {b"fifo": LADDER}), to + b" 2")
    bytes_alone = place + b"/bytes"
    make_files(bytes_alone, {b"\xff": LADDER, b"\xfe/f": LADDER, b"f": LADDER})
    own = wanted_of(bytes_alone, {b"f": LADDER})
    rows = b"".join(bytes_alone + name + b"\t" * 8 + b"cannot open\n" for name in (rb"/\xfe", rb"/\xff"))
    judge_run("names that are not UTF-8", [to + b" 3", bytes_alone], Wanted(DEVICE_FAILED, own.out + rows, own.texts), to + b" 3")
    answer = run(["publish", to + b"\xff", given])
    TALLY.judge(answer.printed()[:2] == (WRONG_USAGE, b"") and not os.path.lexists(to + b"\xff"), "a folder whose name is not UTF-8", answer)


# ---- texts that cannot be written

def started(words, setup, program=PROGRAM, **streams):
    """A run that begins with a call of the system."""
    streams = {"stdout": subprocess.PIPE, "stderr": subprocess.PIPE, **streams}
    TALLY.count_run()
    return subprocess.Popen([program, "publish", *words], stdin=subprocess.DEVNULL, env={}, preexec_fn=setup, **streams)


def answered(process):
    out, err = process.communicate(timeout=SECONDS)
    return Answer(process.returncode, out, err)


def leave_root():
    if os.getuid() == 0:
        os.setgroups([])
        os.setgid(NOBODY)
        os.setuid(NOBODY)


def denied(place, given):
    """The folder of the texts, or the one above it, may not be written; or nothing may be looked at in it."""
    program = shutil.copy(PROGRAM, os.fsdecode(place))
    os.chmod(program, 0o755)
    closed = place + b"/closed"
    os.makedirs(closed + b"/a")
    os.chmod(closed + b"/a", 0o555)
    os.chmod(closed, 0o555)
    wanted = wanted_of(given, FILES, faults=[(name, DENIED) for name in FILES])
    answer = answered(started([closed, given], leave_root, program))
    TALLY.judge(answer.printed() == (wanted.status, wanted.out, b""), "a folder that may not be written", answer)
    answer = answered(started([closed + b"/texts", given], leave_root, program))
    TALLY.judge(answer.printed() == (DEVICE_FAILED, b"", closed + b"/texts: " + DENIED + b"\n"), "a folder that may not be made", answer)
    os.chmod(closed, 0)
    answer = answered(started([closed, given], leave_root, program))
    TALLY.judge(answer.printed()[:2] == (DEVICE_FAILED, b"") and answer.err.startswith(closed), "a folder that may not be looked into", answer)
    os.chmod(closed, 0o755)
    judge_folder("folders that may not be written", closed, {}, b"")


def limited(place, given):
    """A file may have so many bytes alone. By a signal, or, if that is ignored, by an error."""
    longest = max(map(len, wanted_of(given, FILES).texts.values()))
    for size in some_of(range(longest + 2)):
        for action in (signal.SIG_IGN, signal.SIG_DFL):
            to = place + b"/limited %d %d" % (size, action)

            def setup(size=size, action=action):
                signal.signal(signal.SIGXFSZ, action)
                resource.setrlimit(resource.RLIMIT_FSIZE, (size, size))

            long = [(name, b"cannot write") for name, text in wanted_of(given, FILES).texts.items() if len(text) > size]
            wanted = wanted_of(given, FILES, faults=long)
            answer = answered(started([to, given], setup))
            is_ended = action == signal.SIG_DFL and long and answer.status == -signal.SIGXFSZ
            TALLY.judge(is_ended or answer.printed() == (wanted.status, wanted.out, b""), f"files of {size} bytes", answer)
            judge_folder(f"files of {size} bytes", to, wanted.texts, answer.out, drafts=action == signal.SIG_DFL)


def full_disk(place, given):
    """A disk that has room for two texts, and then may only be read."""
    disk = place + b"/disk"
    os.mkdir(disk)
    page = resource.getpagesize()
    mounted = subprocess.run(["mount", "-t", "tmpfs", "-o", f"size={2 * page}", "tmpfs", disk], stdout=subprocess.DEVNULL, stderr=subprocess.DEVNULL, check=False)
    if mounted.returncode:
        print("not tried, as no file system can be mounted here: a full disk, and one that may only be read")
        return
    try:
        texts = wanted_of(given, FILES).texts
        wanted = wanted_of(given, FILES, faults=[(name, NO_SPACE) for name in sorted(texts)[2:]])
        judge_run("a full disk", [disk + b"/texts", given], wanted, disk + b"/texts")
        subprocess.run(["mount", "-o", "remount,ro", disk], check=True)
        err = disk + b"/other: " + DENIED + b"\n"
        judge_refusal("a disk that may only be read", [disk + b"/other", given], DEVICE_FAILED, err, disk + b"/other")
    finally:
        subprocess.run(["umount", disk], check=True)


# How each call of the system fails, and why a text, or the folder of all, is not written then.
CALLS = {"write": NO_SPACE, "sync": b"cannot write", "link": DENIED, "mkdir": DENIED, "open": b"cannot write", "denied": DENIED, "unlink": b""}
UNREAD = [b"cannot open", b"cannot open: permission denied"]


def is_reported(call, answer, to):
    """Whether a run in which this call failed once says so: in a row, or in a line if the output failed or the folder is not there."""
    faults = [row[b"fault"] for row in rows_in(answer.out) if row[b"fault"] not in (b"", REFUSED)]
    lines = (b"output failed after ", to + b": " + CALLS[call] + b"\n")
    is_said = answer.err.startswith(lines) if answer.err else faults in [[why] for why in (CALLS[call], *UNREAD)]
    return answer.status == DEVICE_FAILED and is_said and len(faults) <= 1


def calls(place, given):
    """Each call that writes fails in turn: the text that is not written is no part of one, and its row says why; the others are there."""
    own, made = wanted_of(given, FILES, every=True), count()
    for call in CALLS:
        for number in count(1):
            to = place + b"/call%d" % next(made)
            answer = run(["publish", "--all", to, given], call=call, number=number)
            judge_folder(f"{call} {number}", to, own.texts, answer.out, drafts=call == "unlink")
            # a folder that is there need not be made, and a text has its name before the other one is removed
            is_own = answer.printed() == (own.status, own.out, b"")
            if not answer.failures:
                break
            TALLY.judge(is_own if call == "unlink" else is_own and call == "mkdir" or is_reported(call, answer, to), f"{call} {number}", answer)
        TALLY.judge(is_own and number > 1, f"no {call} fails", answer)


def memory(place, given):
    """Each allocation is refused in turn: there is no text without a row."""
    own = wanted_of(given, {b"e": FILES[b"e"]})
    for number in count(1):
        to = place + b"/memory%d" % number
        answer = run(["publish", to, given + b"/e"], call="allocation", number=number)
        found = judge_folder(f"allocation {number}", to, own.texts, answer.out)
        if not answer.failures:
            break
        is_refused = answer.status == NO_MEMORY and (answer.out + answer.err).endswith(b"want of memory\n")
        is_right = is_refused and not found or answer.printed() == (own.status, own.out, b"")
        TALLY.judge(is_right and len(rows_in(answer.out)) >= len(found), f"allocation {number}", answer)
    TALLY.judge(answer.printed() == (own.status, own.out, b"") and number > 1, "no allocation is refused", answer)


def outputs(place, given):
    """The output is full or closed: then no more is written."""
    pipe, closed = os.pipe()
    os.close(pipe)
    with open("/dev/full", "wb") as full:
        for name, out in (("full", full), ("closed", closed)):
            to = place + b"/" + name.encode()
            answer = answered(started([to, given], None, stdout=out))
            TALLY.judge((answer.status, answer.err) == (DEVICE_FAILED, b"output failed after 0 bytes\n"), f"a {name} output", answer)
            TALLY.judge(not found_in(to), f"texts without rows, as the output is {name}", found_in(to))
    os.close(closed)


# ---- others that write too

def meanwhile(place, given):
    """Something comes to the path of a text, or to that of a folder above it, once the run has looked there: it stays. The run waits in a line of
    --progress, for which its standard error has no room."""
    for where, why in ((b"b", NO_FOLDER), (b"b/0000.txt", EXISTS)):
        for what, make in OTHERS.items():
            if (where, what) == (b"b", "a folder"):
                continue
            to = place + b"/meanwhile " + where.replace(b"/", b" ") + what.encode()
            reads, writes = os.pipe()
            os.set_blocking(writes, False)
            fill(writes)
            os.set_blocking(writes, True)
            process = started(["--progress", "--all", to, given], None, stderr=writes)
            os.close(writes)
            until(lambda to=to: os.path.isdir(to))
            os.makedirs(os.path.dirname(os.path.join(to, where)), exist_ok=True)
            make(os.path.join(to, where))
            before = found_in(to)
            threading.Thread(target=drain, args=(reads,), daemon=True).start()
            answer = answered(process)
            names = [name for name in FILES if (name + b"/").startswith(where + b"/")]
            wanted = wanted_of(given, FILES, every=True, faults=[(name, why) for name in names])
            TALLY.judge(answer.printed()[:2] == (wanted.status, wanted.out), f"{what} comes to {where}", answer)
            judge_folder(f"{what} comes to {where}", to, wanted.texts, answer.out, before)


def fill(pipe):
    try:
        while os.write(pipe, bytes(4096)):
            pass
    except BlockingIOError:
        pass


def drain(pipe):
    while os.read(pipe, 65536):
        pass
    os.close(pipe)


def until(is_so):
    end = time.monotonic() + SECONDS
    while not is_so() and time.monotonic() < end:
        time.sleep(0.001)


def many_files(place, many):
    """A folder of files that are different auctions, and what is wanted of it."""
    files = {b"%d/%04d.txt" % (number % 3, number): header(9, 9, 0) + "".join(f"{at} {number + at + 1} {at} #\n" for at in range(9)) for number in range(many)}
    return make_files(place + b"/many", files), files


def side_by_side(place, _):
    """Two runs write into one folder at once: each text is written by one of them, and the other says that it is there."""
    given, files = many_files(place, 60)
    wanted = wanted_of(given, files)
    for number in range(40 if FULL else 8):
        to = place + b"/both%d" % number
        answers = [answered(it) for it in [started([to, given], None) for _ in range(2)]]
        rows = [rows_in(it.out) for it in answers]
        named = sorted(row[b"text"] for it in rows for row in it if row[b"text"])
        faults = {row[b"fault"] for it in rows for row in it if row[b"fault"]}
        refused = [it for it in answers if not it.out]
        is_right = named == sorted(wanted.texts) and faults <= {EXISTS} and all(it.err.endswith(EXISTS + b"\n") for it in refused)
        TALLY.judge(is_right and {it.status for it in answers} <= {0, DEVICE_FAILED}, "two runs at once", (answers[0].err, answers[1].err, faults, len(named)))
        judge_folder("two runs at once", to, wanted.texts, b"")


def killed(place, _):
    """A run is ended at a random moment. The texts of the rows that came are there, and each text is whole. A later run goes on beside what is left."""
    given, files = many_files(place, 60)
    wanted, choose = wanted_of(given, files), random.Random(1)
    begun = time.monotonic()
    judge_run("a run that is not killed", [place + b"/not killed", given], wanted, place + b"/not killed")
    seconds = time.monotonic() - begun
    for number in range(300 if FULL else 30):
        to, ends = place + b"/killed%d" % number, choose.choice((signal.SIGKILL, signal.SIGKILL, signal.SIGTERM, signal.SIGINT))
        os.mkdir(to)
        Path(os.fsdecode(to), os.fsdecode(MINE)).write_bytes(b"mine")
        process = started([to, given], None)
        time.sleep(choose.random() * seconds)
        process.send_signal(ends)
        answer = answered(process)
        TALLY.judge(wanted.out.startswith(answer.out) and answer.status in (0, -ends), f"a run that gets {ends!r}", answer)
        found = judge_folder(f"a run that gets {ends!r}", to, wanted.texts, answer.out, {MINE: b"mine"}, drafts=True)
        for name in wanted.texts:
            if name in found:
                os.remove(os.path.join(to, name))
        judge_run("a run after one that was killed", [to, given], wanted, to, found_in(to))


MASK = os.umask(0)
os.umask(MASK)
TRIALS = [whole, misplaced, taken, odd_names, denied, limited, full_disk, calls, memory, outputs, meanwhile, side_by_side, killed]


def main():
    resource.setrlimit(resource.RLIMIT_CORE, (0, 0))
    for trial in TRIALS:
        with tempfile.TemporaryDirectory() as folder:
            os.chmod(folder, 0o755)
            place = os.fsencode(folder)
            trial(place, make_files(place + b"/given", FILES))
    return TALLY.status()


if __name__ == "__main__":
    sys.exit(main())
