"""Runs a program, and measures what its process took by the kernel's own count."""
import os
import subprocess
import tempfile
from typing import NamedTuple

MEBIBYTE = 1_048_576


class Measure(NamedTuple):
    """What a run took: processor seconds, the most bytes that it held, and the beginning of what it printed on standard error."""

    seconds: float
    held: int
    printed: str


def measure(words):
    """Runs a command, whose output is dropped, and waits for its end. What it held is reported as at least what this process holds."""
    with tempfile.TemporaryFile() as err:
        process = subprocess.Popen(words, stdout=subprocess.DEVNULL, stderr=err)
        _, status, used = os.wait4(process.pid, 0)
        process.returncode = os.waitstatus_to_exitcode(status)
        err.seek(0)
        printed = err.read(30).decode(errors="replace").strip()
    return Measure(used.ru_utime + used.ru_stime, used.ru_maxrss * 1024, printed or f"status {process.returncode}")


def measure_alternately(commands, times):
    """Runs commands in turn, so many times. Answers for each the least time and the most memory."""
    taken = [[] for _ in commands]
    for _ in range(times):
        for runs, words in zip(taken, commands):
            runs.append(measure(words))
    return [Measure(min(it.seconds for it in runs), max(it.held for it in runs), runs[0].printed) for runs in taken]
