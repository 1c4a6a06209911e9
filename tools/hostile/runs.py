"""Runs the built program where memory, reads, writes and opening fail, and judges each answer.

    runs.py PROGRAM CALLS GENERATED LARGE [full]

CALLS is the library made of calls.c. GENERATED and LARGE are bid files, the first of some hundred bids, the second of so many
that its texts do not fit into a pipe. Prints what is wrong and 'N runs, M wrong'; the status is 0 where M is 0, and else 1.
"""
import fcntl
import os
import resource
import subprocess
import sys
import tempfile
import threading
import time
from concurrent.futures import ThreadPoolExecutor
from itertools import count
from typing import NamedTuple

from commands import NAMES
from tally import TALLY, some_of

PROGRAM, CALLS, GENERATED, LARGE = sys.argv[1:5]
SECONDS = 60

DIFFERENT, FILE_REFUSED, NO_MEMORY, DEVICE_FAILED = 1, 2, 4, 5

# How many bytes a pipe holds, and fcntl's command that says so.
PIPE = 65_536
SET_PIPE_SIZE = getattr(fcntl, "F_SETPIPE_SZ", 1031)

# What the program reads at once.
PIECE = 65_536

# So many runs share one standard error.
SHARED = 400


class Answer(NamedTuple):
    """What a run answered, and how many of its calls failed. Its output is None where it went somewhere else."""

    status: int
    out: bytes
    err: bytes
    failures: int = 0

    def printed(self):
        return self[:3]


class Case(NamedTuple):
    """A command on files, and what it answers where nothing fails."""

    command: tuple
    files: tuple
    goods: tuple
    own: Answer

    def words(self, files=None):
        return [*self.command, *(files or self.files), *self.goods]

    def counts(self, many):
        """What `--round` reports of the first so many files: how many prices of each were rounded, and became 0."""
        lines = self.own.err.splitlines(True) if "--round" in self.command else []
        return b"".join([line for line in lines if b" rounded" in line][:many])

    def __str__(self):
        return " ".join([*self.command, *map(os.path.basename, self.files), *self.goods])


def environment(fault, report):
    """What calls.c reads: each word of a fault by its name."""
    if not fault:
        return {}
    words = {f"FAULTS_{name.upper()}": str(value) for name, value in fault.items() if value}
    return {"LD_PRELOAD": CALLS, "FAULTS_REPORT": str(report), **words}


def ended(process, report):
    """Waits for a process, and answers what it printed."""
    try:
        out, err = process.communicate(timeout=SECONDS)
    except subprocess.TimeoutExpired:
        process.kill()
        out, err = process.communicate()
    failures = len(os.read(report, PIPE))
    os.close(report)
    TALLY.count_run()
    return Answer(process.returncode, out, err, failures)


def start(words, out=subprocess.PIPE, err=subprocess.PIPE, **fault):
    """Starts the program under a fault, and answers its process and the descriptor on which failures are counted."""
    report, counted = os.pipe()
    process = subprocess.Popen(
        [PROGRAM, *words],
        stdin=subprocess.DEVNULL,
        stdout=out,
        stderr=err,
        env=environment(fault, counted),
        pass_fds=[counted],
    )
    os.close(counted)
    return process, report


def run(words, **how):
    return ended(*start(words, **how))


def case(command, files, goods=()):
    own = run([*command, *files, *goods])
    TALLY.judge(own.status in (0, DIFFERENT, FILE_REFUSED), f"{command} {files}", own)
    return Case(command, files, goods, own)


def header(goods, bids, dummy):
    return f"goods {goods}\nbids {bids}\ndummy {dummy}\n"


# Six small auctions, each with another that it is compared with.
LARGER_BID = header(2, 3, 0) + "0 3 0 #\n1 4 1 #\n2 7 0 1 #\n"
SINGLES = header(2, 2, 0) + "0\t3\t0\t#\n1\t4\t1\t#\n"
LADDER = header(2, 3, 1) + "0 5 0 2 #\n1 5 0 1 2 #\n2 6 0 1 2 #\n"
BIDDERS = header(2, 5, 2) + "0 1 0 2 #\n1 2 0 1 2 #\n2 1 0 3 #\n3 1 0 1 3 #\n4 2 0 1 3 #\n"
ONE_BIDDER = header(2, 2, 1) + "0 1 0 2 #\n1 2 0 1 2 #\n"
APART = header(2, 4, 2) + "0 1 0 2 #\n1 2 1 2 #\n2 2 0 3 #\n3 1 1 3 #\n"
TOGETHER = header(2, 5, 2) + "0 1 0 2 #\n1 1 1 2 #\n2 2 0 1 2 #\n3 2 0 3 #\n4 2 1 3 #\n"
AUCTIONS = {
    "nothing": (header(0, 0, 0), header(0, 0, 0), ()),
    "larger_bid": (LARGER_BID, SINGLES, ("0", "1")),
    "ladder": (LADDER, LADDER, ("1", "0")),
    "bidders": (BIDDERS, ONE_BIDDER, ("0", "1")),
    "apart": (APART, TOGETHER, ("0", "1")),
    "together": (TOGETHER, LARGER_BID, ("1",)),
}

# A file two of whose prices are rounded. `round --exact` refuses it.
SIX_DIGITS = header(2, 4, 0) + "0\t1.02345e+06\t0\t#\n1\t0.0123456\t1\t#\n2\t2.5e-07\t0\t1\t#\n3\t7\t0\t#\n"

# Another with such prices.
FINE = header(2, 2, 0) + "0\t1e-7\t0\t#\n1\t1.0000005\t1\t#\n"

# A file with a fault, and how many of its bytes are read before that is reported.
FAULTY = header(2, 2, 2) + "0 1 0 2 #\n1 1 1 2 3 #\n"
FAULT_AT = 43


def write_file(folder, name, text):
    path = os.path.join(folder, name)
    with open(path, "w", encoding="ascii") as file:
        file.write(text)
    return path


def cases_of(path, other, goods):
    """Each subcommand on a file, or on it and another."""
    return [case((name,), (path, other)[:many], goods if name == "value" else ()) for name, many in NAMES.items() if many]


def small_cases(folder):
    cases = []
    for name, (text, other, goods) in AUCTIONS.items():
        path = write_file(folder, name, text)
        cases += cases_of(path, write_file(folder, f"{name}_other", other), goods)
    six_digits, fine = write_file(folder, "six_digits", SIX_DIGITS), write_file(folder, "other_prices", FINE)
    rounded = [case((command, "--round"), (six_digits,)) for command in ("check", "normalise", "explain")]
    rounded += [case((command, "--round"), (six_digits, fine)) for command in ("compare", "diff")]
    return [*cases, case(("round",), (six_digits,)), *rounded]


def prefixes(one):
    """How the lines of a case's files begin, in the order in which the files are read."""
    return [b"first: ", b"second: "] if len(one.files) == 2 else [b""]


def is_want_of_memory(one, answer):
    """Whether a run printed want of memory, of one of its files or of neither, or of the command line."""
    lines = [which + b"want of memory\n" for which in (b"", *prefixes(one))]
    lines = [one.counts(many) + line for many in range(len(one.files) + 1) for line in lines]
    return answer.status == NO_MEMORY and answer.out == b"" and answer.err in lines


def places(answers):
    """For each want of memory in a run on two files 1 for the first file, 2 for the second and 3 for neither; those of the command line,
    before it, are left out."""
    found = [{b"first:": 1, b"second": 2}.get(it.err.splitlines()[-1][:6], 3) for it in answers]
    begun = next((at for at, place in enumerate(found) if place < 3), 0)
    return found[begun:]


def memory(one, rest):
    """Each allocation is refused, alone or with all that come after it. Answers the want of memory that was printed."""
    wants, what = [], f"{one}: allocation{' and all later' if rest else ''}"
    for number in count(1):
        answer = run(one.words(), call="allocation", number=number, rest=rest)
        if not answer.failures:
            break
        is_want = is_want_of_memory(one, answer)
        TALLY.judge(is_want or answer.printed() == one.own.printed(), f"{what} {number}", answer)
        wants += [answer] * is_want
    TALLY.judge(answer.printed() == one.own.printed(), f"{what}: none", answer)
    TALLY.judge(wants, f"{what}: no want of memory was printed", None)
    if one.own.err == one.counts(2) and len(one.files) == 2 and not rest:
        found = places(wants)
        TALLY.judge(found == sorted(found), f"{what}: the files are reported out of order", found)
        # the text is made once both files are canonical, so memory that is refused for it is reported of neither
        TALLY.judge(found[-1:] == [3], f"{what}: the last is reported of a file", found)
    return wants


def both_orders(one):
    """Each allocation of a run on two files, in either order of the files. A file needs about as much memory as the second that it needs as
    the first. So what is refused while the files are compared is not reported of the second: it would have many more."""
    turned = case(one.command, one.files[::-1], one.goods)
    found, found_turned = places(memory(one, rest=False)), places(memory(turned, rest=False))
    for it, this, other in ((one, found, found_turned), (turned, found_turned, found)):
        more = this.count(2) - other.count(1)
        TALLY.judge(2 * more < max(1, this.count(3)), f"{it}: want of memory is reported of the second file {more} times too often", this)


def reads_of(one, piece):
    """How many reads each of the files takes, the last of which finds its end."""
    return [-(-os.path.getsize(path) // piece) + 1 for path in one.files]


def reads(one, piece, counts=None):
    """Each read fails, of so many bytes each. Of each file there are as many as given, or else up to its end."""
    lines = [one.counts(at) + which + b"Device\n" for at, which in enumerate(prefixes(one))]
    failing = [line for line, many in zip(lines, counts or reads_of(one, piece)) for _ in range(many)]
    for number, line in enumerate(failing, 1):
        answer = run(one.words(), call="read", number=number, piece=piece)
        wanted = Answer(DEVICE_FAILED, b"", line, 1)
        TALLY.judge(answer == wanted, f"{one}: read {number} of {piece} bytes", answer)
    answer = run(one.words(), call="read", number=len(failing) + 1, piece=piece)
    TALLY.judge(answer == one.own, f"{one}: no read of {piece} bytes", answer)


def cut_off(one, is_output, at, rest):
    """What is printed if the output, or else standard error, fails after so many bytes. If the rest fails too, nothing more is. A run that is not
    refused reports there which prices were changed, and fails without that."""
    if is_output:
        return (DEVICE_FAILED, one.own.out[:at], b"" if rest else one.counts(2) + b"output failed after %d bytes\n" % at)
    return (DEVICE_FAILED if one.own.status in (0, DIFFERENT) else one.own.status, one.own.out, one.own.err[:at])


def writes(one, piece, rest):
    """Each write fails, alone or with all that come after it. The output is written by so many bytes. A line on standard error is written in
    parts of no known length, and each failure cuts it off behind the one before."""
    output, last = range(0, len(one.own.out), piece), -1
    for number in count(1):
        answer = run(one.words(), call="write", number=number, piece=piece, rest=rest)
        if not answer.failures:
            break
        if number <= len(output):
            is_right = answer.printed() == cut_off(one, True, output[number - 1], rest)
        else:
            at = len(answer.err)
            is_right = answer.printed() == cut_off(one, False, at, rest) and last < at < len(one.own.err)
            last = at
        TALLY.judge(is_right, f"{one}: write {number} of {piece} bytes", answer)
    TALLY.judge(answer == one.own and number > len(output), f"{one}: no write of {piece} bytes", answer)
    TALLY.judge(not one.own.err or 0 <= len(one.own.err) - last <= piece, f"{one}: a write of standard error never failed", last)


# The commands that do not say why a file cannot be opened.
WITHOUT_REASON = ("check", "show", "value", "normalise", "compare")


def opens(one):
    """Each file cannot be opened, though it is there."""
    for number, (which, path) in enumerate(zip(prefixes(one), one.files), 1):
        answer = run(one.words(), call="open", number=number)
        begins = which if one.command[0] in WITHOUT_REASON else os.fsencode(path) + b": "
        wanted = Answer(DEVICE_FAILED, b"", begins + b"cannot open\n", 1)
        TALLY.judge(answer == wanted, f"{one}: open {number}", answer)


def short(one):
    """Every read and every write moves one byte."""
    answer = run(one.words(), piece=1)
    TALLY.judge(answer == one.own, f"{one}: a byte a call", answer)


def full(one):
    """The output is a full device, and then standard error too."""
    status, _, line = cut_off(one, True, 0, False) if one.own.out else one.own.printed()
    with open("/dev/full", "wb") as device:
        answer = run(one.words(), out=device)
        TALLY.judge(answer.printed() == (status, None, line), f"{one}: a full output", answer)
        answer = run(one.words(), out=device, err=device)
        TALLY.judge(answer.printed() == (status, None, None), f"{one}: a full output and standard error", answer)


def read_from_pipe(pipe, size):
    """The first bytes that come on a pipe, which is then closed."""
    came = b""
    while len(came) < size:
        more = os.read(pipe, size - len(came))
        if not more:
            break
        came += more
    os.close(pipe)
    return came


def closed(one, size):
    """The output is a pipe, which is closed once so many bytes were read: what is in it by then counts as written."""
    pipe, out = os.pipe()
    fcntl.fcntl(pipe, SET_PIPE_SIZE, PIPE)
    if size == 0:
        os.close(pipe)
    process, report = start(one.words(), out=out)
    os.close(out)
    came = read_from_pipe(pipe, size) if size else b""
    answer = ended(process, report)
    most = size + PIPE if size else 0
    lines = {one.counts(2) + b"output failed after %d bytes\n" % at for at in range(size, min(most + 1, len(one.own.out)))}
    is_whole = answer.printed() == (one.own.status, None, one.own.err) and len(one.own.out) <= most
    is_cut_off = answer.status == DEVICE_FAILED and answer.err in lines
    is_right = (is_whole or is_cut_off) and came == one.own.out[:size]
    TALLY.judge(is_right, f"{one}: an output that is closed after {size} bytes", answer)


def feed(path, text, piece):
    """Writes a text into a FIFO, piece by piece."""
    try:
        with open(path, "wb", buffering=0) as opened:
            for at in range(0, len(text), piece):
                opened.write(text[at : at + piece])
                time.sleep(0.0005)
    except BrokenPipeError:
        pass


def fifos(one, piece):
    """The files come in pieces, through FIFOs."""
    with tempfile.TemporaryDirectory() as folder:
        paths = [os.path.join(folder, str(at)) for at in range(len(one.files))]
        for path, file in zip(paths, one.files):
            os.mkfifo(path)
            with open(file, "rb") as opened:
                text = opened.read()
            threading.Thread(target=feed, args=(path, text, piece), daemon=True).start()
        answer = run(one.words(paths))
    err = one.own.err
    for path, file in zip(paths, one.files):
        err = err.replace(os.fsencode(file) + b": ", os.fsencode(path) + b": ")
    TALLY.judge(answer == one.own._replace(err=err), f"{one}: FIFOs in pieces of {piece} bytes", answer)


# What is in place of a file, and what is reported of it: a directory, and a device that gives nothing.
NO_FILES = {"/": (DEVICE_FAILED, b"Device\n"), "/dev/null": (FILE_REFUSED, b"line 1: Missing\n")}
# What is reported of a directory by commands that say why a file cannot be opened.
IS_FOLDER = b"/: cannot open: is a folder: name it to 'fault', 'duplicates' or 'sizes'\n"


def other_inputs(one, at, path):
    """Something else is in place of a file. If it cannot be opened, none is read."""
    status, line = NO_FILES[path]
    line = one.counts(at) + prefixes(one)[at] + line if path != "/" or one.command[0] in WITHOUT_REASON else IS_FOLDER
    files = [*one.files[:at], path, *one.files[at + 1 :]]
    answer = run(one.words(files))
    TALLY.judge(answer == Answer(status, b"", line), f"{one}: {path} as file {at + 1}", answer)


def refused_cases(folder):
    """Each subcommand on a file with a fault, and how many reads of a byte it takes of each file until that is reported."""
    faulty = write_file(folder, "faulty", FAULTY)
    nothing = write_file(folder, "nothing", header(0, 0, 0))
    fine = write_file(folder, "fine", SIX_DIGITS)
    ended = os.path.getsize(nothing) + 1
    one_file = [case((name,), (faulty,)) for name, many in NAMES.items() if many == 1 and name != "round"]
    pairs = {(faulty, nothing): (FAULT_AT, 0), (nothing, faulty): (ended, FAULT_AT)}
    compared = {case((name,), pair): counts for name, many in NAMES.items() if many == 2 for pair, counts in pairs.items()}
    # to round prices the whole file is read
    rounded = {case(words, (faulty,)): (len(FAULTY) + 1,) for words in (("round",), ("check", "--round"))}
    rounded.update({case(words, (fine,)): (len(SIX_DIGITS) + 1,) for words in (("round", "--exact"), ("check", "--round-exact"))})
    return {**{one: (FAULT_AT,) for one in one_file}, **rounded, **compared}


def share_standard_error(folder):
    """Four runs at a time report refused files on one standard error: each line is whole."""
    faulty = write_file(folder, "shared", FAULTY)
    words = ["xargs", "-P", "4", "-n", "1", PROGRAM, "check"]
    ran = subprocess.run(words, input=f"{faulty}\n".encode() * SHARED, capture_output=True, timeout=SECONDS, check=False)
    TALLY.count_run()
    TALLY.judge(ran.stderr == b"line 5: TwoDummies\n" * SHARED, f"{SHARED} runs that share standard error", ran.stderr)


def large_cases(folder):
    """Runs whose text does not fit into a pipe."""
    bidders = write_file(folder, "many_bidders", header(1, 0, 65_536))
    return [one for one in (*cases_of(LARGE, LARGE, ()), case(("value",), (bidders,))) if len(one.own.out) > PIPE]


def side_by_side(one, piece):
    """The runs on a case that may run beside others."""
    yield lambda: both_orders(one) if len(one.files) == 2 else memory(one, rest=False)
    yield lambda: memory(one, rest=True)
    yield lambda: reads(one, PIECE)
    yield lambda: reads(one, piece)
    yield lambda: writes(one, PIECE, rest=False)
    yield lambda: writes(one, piece, rest=False)
    yield lambda: writes(one, piece, rest=True)


def on_its_own(one, piece):
    """The runs on a case that run alone, since another that begins could hold their pipes open."""
    opens(one)
    short(one)
    full(one)
    closed(one, 0)
    closed(one, 1)
    fifos(one, piece)
    for at in range(len(one.files)):
        for path in NO_FILES:
            other_inputs(one, at, path)


def work(folder):
    small, generated = small_cases(folder), cases_of(GENERATED, GENERATED, ("0", "1", "2"))
    refused, large = refused_cases(folder), large_cases(folder)
    pieces = {**{one: 5 for one in small}, **{one: 64 for one in generated}}
    calls = [call for one, piece in pieces.items() for call in side_by_side(one, piece)]
    for one, counts in refused.items():
        calls += [lambda it=one, counts=counts: reads(it, 1, counts), lambda it=one: writes(it, 1, rest=False)]
        calls += [lambda it=one, rest=rest: memory(it, rest) for rest in (False, True)]
    with ThreadPoolExecutor(os.cpu_count()) as pool:
        list(pool.map(lambda call: call(), some_of(calls)))
    for one, piece in pieces.items():
        on_its_own(one, piece)
    for one, size in ((one, size) for one in large for size in (0, 1, PIPE)):
        closed(one, size)
    for one in refused:
        full(one)
    share_standard_error(folder)


def main():
    resource.setrlimit(resource.RLIMIT_CORE, (0, 0))
    with tempfile.TemporaryDirectory() as folder:
        work(folder)
    return TALLY.status()


if __name__ == "__main__":
    sys.exit(main())
