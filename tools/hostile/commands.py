"""The commands of the program, and the words with which runs.py and rounded.py try each."""
import pathlib
import runpy
from typing import NamedTuple


class Command(NamedTuple):
    """The words before the files, how many files there are, 0 for any number, and the words behind them."""

    words: tuple
    files: int
    behind: tuple

    def line(self, files, flags=()):
        """A command line with its flags, the last of two behind the files."""
        name, *options = self.words
        return [name, *flags[:1], *options, *files, *self.behind, *flags[1:]]


# Options for arguments of commands, and words that are behind the files.
OPTIONS = {
    "Bound": "--bound", "Bounded": "--bound", "Steps": "--steps 1", "TotalSteps": "--bound --total-steps 2", "Progress": "--progress", "Null": "-0",
    "All": "--all", "Times": "--times 1000",
}
BEHIND = {"Goods": ("0 1", "0 4095"), "Bids": ("1 0", "65535")}


def lines():
    """Command lines of each command of the program that writes into no folder: without options, with each that has a row above, and with each word
    behind the files."""
    for name, arguments in runpy.run_path(str(pathlib.Path(__file__).resolve().parents[2] / "docs/tables"))["commands"]():
        named = arguments.split(", ")
        if "Folder" in named:
            continue
        files = 0 if "Files" in named else named.count("File") + named.count("SecondFile")
        behind = next((BEHIND[it] for it in named if it in BEHIND), ("",))
        options = [OPTIONS[it] if "Bound" in named else OPTIONS[it].removeprefix("--bound ") for it in named if it in OPTIONS]
        for option, words in [*(("", words) for words in behind), *((option, behind[0]) for option in options)]:
            yield Command((name, *option.split()), files, tuple(words.split()))


LINES = list(lines())

# How many files each command takes.
NAMES = {it.words[0]: it.files for it in LINES}
