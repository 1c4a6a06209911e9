"""How many runs a script of this folder made, and what was wrong; how much it tries; and the kinds of files that tools/generate makes."""
import random
import sys
import threading

KINDS = ("l1", "l2", "l3", "l4", "l5", "l6", "l7", "arbitrary", "regions", "paths", "matching", "scheduling")


class Tally:
    """How many runs there were, and what was wrong."""

    def __init__(self):
        self.lock = threading.Lock()
        self.runs, self.wrong = 0, 0

    def count_run(self):
        with self.lock:
            self.runs += 1

    def judge(self, is_right, what, answer):
        """Prints what was answered if it is not right."""
        if not is_right:
            with self.lock:
                self.wrong += 1
                print(f"wrong: {what}: {str(answer)[:400]}", flush=True)

    def status(self):
        """What a script ends with, which prints how many were wrong."""
        print(f"{self.runs} runs, {self.wrong} wrong")
        return 1 if self.wrong else 0


TALLY = Tally()

# A script that is given this word tries all, as before a release; without it, as in the gate, a tenth of what repeats.
FULL = "full" in sys.argv


def some_of(them):
    """All of these, or a tenth: the same ones each time, in their order."""
    them = list(them)
    chosen = random.Random(len(them)).sample(range(len(them)), -(-len(them) // 10))
    return them if FULL else [them[at] for at in sorted(chosen)]
