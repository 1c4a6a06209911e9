"""What the functions of the package take, and those that read a text as `round` says, each as one of a text: with it in each place of a text."""
import inspect
from functools import partial

from texts import BIDS

import yinchaku
from yinchaku._library import Task

# The function of each command on texts, by its name. Of `fault` there is none. `publish`, which takes paths alone, is tried in test_publish.py.
FUNCTIONS = {
    it.name.lower(): getattr(yinchaku, "round_prices" if it == Task.ROUND else it.name.lower(), None) for it in Task if it != Task.PUBLISH
}

# The names of what a function takes.
TAKEN = {name: set(inspect.signature(function).parameters) if function else set() for name, function in FUNCTIONS.items()}

# The functions of two texts.
OF_PAIRS = [FUNCTIONS[name] for name, taken in TAKEN.items() if "left" in taken]

OF_TEXT = {
    "read": lambda text, **words: yinchaku.read(text, **words).text,
    "duplicates": lambda text, **words: list(map(len, yinchaku.duplicates([text, BIDS], all=True, **words))),
    "sizes": lambda text, **words: yinchaku.read(text, **words).sizes()[:-1],
    "winners": lambda text, **words: yinchaku.winners(text, SOLUTION, **words),
}
# That of BIDS.
SOLUTION = b"# Objective value = 7\nx0 1\nx1 1\n"

for name, taken in [(name, taken) for name, taken in TAKEN.items() if "round" in taken and name not in OF_TEXT]:
    function = partial(FUNCTIONS[name], **{kind: [0] for kind in ("goods", "bids") if kind in taken})
    OF_TEXT.update({f"{name}, left": partial(function, right=BIDS), f"{name}, right": partial(function, BIDS)} if "left" in taken else {name: function})
