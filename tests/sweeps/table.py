"""The rows of the table of sweeps, and which runs a sweep makes."""

import itertools
import sys
import time

from sweep import Bad

# How many runs are begun before any is looked at: few at first, since many sweeps are short.
FIRST, AT_ONCE = 8, 64
# After how many bad runs a sweep ends.
MOST_BAD = 100
# How many runs in a row meet no call before a sweep of campaigns ends.
FEW = 16
# Many growths are refused from one of so many on behind the first line, each third of them: before it none listens.
BEHIND, THIRD = 90, 3
# Sessions whose growths are refused by chance: one growth in so many.
SEEDS, SEEDS_FULL, CHANCES = 2, 10, (12, 40)
# How many growths in a row are refused.
IN_A_ROW = (2, 10, 40)


class Sweep:
    """One row of the table."""

    def __init__(self, name):
        self.name, self.runs, self.told, self.bad = name, 0, 0, []
        self.began = time.monotonic()

    def show(self):
        seconds = time.monotonic() - self.began
        if not self.told:
            self.bad.append(f"{self.name}: no call went wrong in {self.runs} runs")
        print(f"| {self.name} | {self.runs} | {self.told} | {len(self.bad)} | {seconds:.0f} s |", flush=True)
        for message in self.bad[:5]:
            print(f"bad: {message}", file=sys.stderr, flush=True)


def sweep_all(pool, sweep, one, numbers, is_certain=True, many=AT_ONCE):
    """Makes the run of each number until one meets no such call; where threads make their number uncertain, until
    so many in a row meet none. Ends too after many bad runs. `one` answers whether the refusal was told, or nothing
    where no such call was made."""
    numbers, size = iter(numbers), FIRST if is_certain else many
    while batch := list(itertools.islice(numbers, size)):
        size = min(2 * size, many)
        answers = [pool.submit(one, number) for number in batch]
        said = []
        for answer in answers:
            sweep.runs += 1
            try:
                said.append(answer.result())
            except Bad as bad:
                sweep.bad.append(str(bad))
                said.append(False)
            sweep.told += bool(said[-1])
            if is_certain and said[-1] is None:
                return
        if all(it is None for it in said) or len(sweep.bad) > MOST_BAD:
            return


def or_none(made):
    """No call of that number is the end of a sweep."""
    return True if made else None


def growths_behind(first):
    """The growths from this one on that are refused with others: each third of some."""
    return range(first, first + BEHIND, THIRD)


def seeds_of(is_full):
    """The seeds of the growths that are refused by chance."""
    return range(1, 1 + (SEEDS_FULL if is_full else SEEDS))
