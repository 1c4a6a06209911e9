"""The library libcats: where it is, and its one call, as in cats.h."""
from __future__ import annotations

import ctypes
import enum
import os
import threading
from ctypes import POINTER, byref, c_bool, c_char, c_char_p, c_size_t, c_uint8, c_uint16, c_uint32, c_uint64, sizeof
from typing import Any, List, Sequence, Tuple

# The limit on the steps of each search, if none is given: CATS_STEPS.
STEPS = 1_000_000

# That of all searches of a text together, of the functions whose program has one if none is given: CATS_TOTAL.
TOTAL = 50_000_000

# What the library takes for no limit on the steps of all searches of a text: CATS_NO_TOTAL.
NO_TOTAL = 0


class Task(enum.IntEnum):
    """The commands of the program: `enum cats_task`."""

    CHECK = 0
    FAULT = 1
    SHOW = 2
    VALUE = 3
    REVENUE = 4
    NORMALISE = 5
    EXPLAIN = 6
    ROUND = 7
    LP = 8
    COMPARE = 9
    DIFF = 10
    DUPLICATES = 11
    SIZES = 12
    PUBLISH = 13


class Status(enum.IntEnum):
    """What a call returns: `enum cats_status`."""

    DONE = 0
    DIFFERENT = 1
    REFUSED = 2
    STEP_LIMIT = 3
    WANT_OF_MEMORY = 4
    WRONG_USAGE = 64


class Prices(enum.IntEnum):
    """How a text is read, or each of two: `enum cats_prices`."""

    AS_WRITTEN = 0
    ROUNDED = 1
    ROUNDED_EXACTLY = 2


def struct(**fields: Any) -> Any:
    """A struct with these fields, in order."""
    return type("Struct", (ctypes.Structure,), {"_fields_": list(fields.items())})


# What is requested, and a text with its name: `struct cats_request` and `struct cats_text`.
Request = struct(
    goods=POINTER(c_uint16), goods_count=c_size_t, bids=POINTER(c_uint32), bids_count=c_size_t, steps=c_uint64, total=c_uint64, task=c_uint8,
    prices=c_uint8, bound=c_bool, all=c_bool, null=c_bool, table=c_bool,
)
Text = struct(bytes=c_char_p, length=c_size_t, name=c_char_p, name_length=c_size_t)


def load(path: str) -> ctypes.CDLL:
    """The library at a path. OSError: there is none."""
    library = ctypes.CDLL(path)
    for name, answer in (("cats_version", c_uint32), ("cats_call", c_uint8)):
        try:
            getattr(library, name).restype = answer
        except AttributeError as error:
            raise ImportError(f"the library {path} has no function {name}: it is of another version than this package") from error
    return library


def find_library() -> ctypes.CDLL:
    """The library: in the folder of this package, as in a wheel; or beside that folder; or where the system looks."""
    package = os.path.dirname(os.path.abspath(__file__))
    beside = os.path.dirname(package)
    for path in (os.path.join(package, "libcats.so"), os.path.join(beside, "libcats.so"), os.path.join(beside, "libcats.so.2")):
        if os.path.exists(path):
            return load_or_raise(path, path)
    try:
        return load("libcats.so.2")
    except OSError:
        return load_or_raise("libcats.so", f"libcats.so in {package} or {beside}, or where the system looks")


def load_or_raise(path: str, where: str) -> ctypes.CDLL:
    """The library at a path, which is the last that is tried."""
    try:
        return load(path)
    except OSError as error:
        raise ImportError(f"the library cannot be loaded: {where}: {error}") from error


LIBRARY = find_library()
CALL = LIBRARY.cats_call


def check_version(version: str) -> None:
    """Raises an ImportError if the package of this version has a library of another one, but for the patch."""
    number = LIBRARY.cats_version()
    if number // 100 != 100 * int(version.split(".")[0]) + int(version.split(".")[1]):
        found = f"{number // 10_000}.{number // 100 % 100}.{number % 100}"
        raise ImportError(f"the library {LIBRARY._name} is of version {found}, and this package of {version}")


# ---- calls. All that is passed has its type in C, so the function needs no `argtypes`, by which a call would take twice as long.

# The bytes of a buffer that is used again: room for what is printed of a small text, and for any line on a fault, which may name each good.
ROOM = 32_768

# The buffer for a larger text: so many bytes for each of the text, which mostly suffice.
TIMES = {Task.SHOW: 1, Task.VALUE: 1, Task.NORMALISE: 1.5, Task.EXPLAIN: 4, Task.ROUND: 1, Task.LP: 5, Task.COMPARE: 1, Task.DIFF: 2}


class Frame:
    """What a call on a text or two is made with: a request, texts, and buffers of these sizes. It takes longer to make than the call on a small text,
    so it is used again."""

    def __init__(self, size: int = ROOM, err_size: int = ROOM) -> None:
        self.request = Request((c_uint16 * 1)(), 0, (c_uint32 * 1)(), 0, STEPS, NO_TOTAL, 0, 0, True, False, False, False)
        texts = (Text * 2)(Text(b"", 0, b"", 0), Text(b"", 0, b"", 0))
        # the pointer and the length of each text in these, by which they are set in less time than as fields
        self.texts = [(c_char_p.from_buffer(texts, at), c_size_t.from_buffer(texts, at + Text.length.offset)) for at in (0, sizeof(Text))]
        self.out: Any = (c_char * size)()
        self.err: Any = (c_char * err_size)()
        self.needed, self.err_needed = c_size_t(), c_size_t()
        outputs = self.out, c_size_t(size), byref(self.needed), self.err, c_size_t(err_size), byref(self.err_needed)
        # all that is passed, by the number of texts
        self.words = [(byref(self.request), texts, c_size_t(count), *outputs) for count in range(3)]


# A call of these commands on texts with more bytes than SMALL may search for longer than a second, and any on more than LARGE read for so long.
SEARCHES = {Task.VALUE, Task.NORMALISE, Task.EXPLAIN, Task.COMPARE, Task.DIFF, Task.SIZES}
SMALL = 512
LARGE = 16_777_216


def status_of(frame: Frame, texts: Sequence[bytes]) -> int:
    """The status of the call of a frame. Ctrl-C ends one that may take long: what it began goes on in a thread until it ends or meets a limit, and
    nothing reads what that writes."""
    size, request = sum(map(len, texts)), frame.request
    is_short = size <= LARGE and (request.task not in SEARCHES or (size <= SMALL and request.steps <= STEPS))
    if is_short or threading.current_thread() is not threading.main_thread():
        return int(CALL(*frame.words[len(texts)]))
    statuses: List[int] = []
    # the function keeps the frame and the texts
    thread = threading.Thread(target=lambda: statuses.append(CALL(*frame.words[len(texts)])), daemon=True)
    thread.start()
    thread.join()
    return statuses[0]


# The frames of which no call is made. Calls of several threads, or one within another, as in the handler of a signal, take different ones.
FREE: List[Frame] = []


def call(
    task: Task, texts: Sequence[bytes], prices: Prices = Prices.AS_WRITTEN, limits: Tuple[int, int] = (STEPS, NO_TOTAL),
    goods: Sequence[int] = (), bids: Sequence[int] = (),
) -> Tuple[int, bytes, bytes]:
    """The status of a request on a text or two, and the outputs. If one was cut, the call is made again with room for all of it."""
    size = int(sum(map(len, texts)) * TIMES.get(task, 0))
    try:
        frame = FREE.pop() if size <= ROOM else Frame(size)
    except IndexError:
        frame = Frame()
    while True:
        request = frame.request
        request.task, request.prices, (request.steps, request.total) = task, prices, limits
        request.goods_count, request.bids_count = len(goods), len(bids)
        if goods:
            request.goods = (c_uint16 * len(goods))(*goods)
        if bids:
            request.bids = (c_uint32 * len(bids))(*bids)
        for (pointer, count), text in zip(frame.texts, texts):
            pointer.value, count.value = text, len(text)
        status = status_of(frame, texts)
        needed, err_needed = frame.needed.value, frame.err_needed.value
        if needed <= len(frame.out) and err_needed <= len(frame.err):
            break
        frame = Frame(needed, err_needed)
    answer = status, frame.out[:needed], frame.err[:err_needed]
    for pointer, _ in frame.texts:
        pointer.value = b""
    if len(frame.out) == ROOM:
        FREE.append(frame)
    return answer
