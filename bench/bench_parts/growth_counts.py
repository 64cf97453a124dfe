"""What uses of a store ask of a chip for a transaction, on the average and at the worst, by the
rules."""
from __future__ import annotations

from typing import Dict, List, NamedTuple, Tuple

from .growth_rules import GrowingRules
from .growth_uses import Step, Use, at_random, in_transactions
from .units import PAGES, SECTOR_PAYLOAD, SLOTS
from .workloads import LONG_VALUE, Workload, four_random_puts, one_put, one_random_put

FRAMES = 16
ALL_PLACES = [5, 57, 257, 1028]
# By the number of places.
BY_PLACES: Dict[str, Workload] = {
    "one put, over the names in turn": one_put,
    "one put at random": one_random_put,
    "four puts at random": four_random_puts,
}
# By the number of puts.
PUTS_ON = 57
BY_PUTS: Dict[int, Workload] = {1: one_random_put, 4: four_random_puts, 16: at_random(16),
                                60: at_random(60)}
# By the number of frames.
FRAMES_ON = 8
ALL_FRAMES = [2, 4, 8, 16, 32, 64]


class Asking(NamedTuple):
    """What is asked for a transaction, on the average; the most programs and erases between two
    answers; and how many units were merged since their numbers didn't fit."""
    reads: float
    programs: float
    erases: float
    worst_programs: int
    worst_erases: int
    merged: int


class Sums:
    """What was asked for so many transactions together."""

    def __init__(self) -> None:
        self.transactions = self.reads = self.programs = self.erases = 0
        self.worst_programs = self.worst_erases = 0

    def add(self, step: Step) -> None:
        programs, erases = step.asked.programs, step.asked.erases
        self.transactions += step.transactions
        self.reads += step.asked.reads
        self.programs += programs
        self.erases += erases
        # What a user asks at an idle time keeps nobody waiting.
        if step.transactions:
            self.worst_programs = max(self.worst_programs, programs)
            self.worst_erases = max(self.worst_erases, erases)


def fill(rules: GrowingRules) -> None:
    """Each name has a value of 108 bytes, and no unit has a log."""
    for unit in rules.units:
        unit.slots = [dict.fromkeys(range(SLOTS), LONG_VALUE) for _ in range(PAGES)]
        unit.pieces = [-(-SLOTS * (3 + LONG_VALUE) // SECTOR_PAYLOAD)] * PAGES


def opened(places: int, frames: int, is_full: bool = False) -> GrowingRules:
    """A store over a chip that was formatted, and filled if it is said."""
    rules = GrowingRules(places, frames)
    if is_full:
        fill(rules)
    rules.asked_by("open")
    return rules


def asking(rules: GrowingRules, use: Use, count: int) -> Asking:
    """The averages of so many transactions, behind as many others; and the worst of all these."""
    first, counted = Sums(), Sums()
    for step in use(rules):
        if first.transactions < count:
            first.add(step)
            continue
        counted.add(step)
        if counted.transactions >= count:
            break
    each = [total / counted.transactions
            for total in (counted.reads, counted.programs, counted.erases)]
    return Asking(*each, max(first.worst_programs, counted.worst_programs),
                  max(first.worst_erases, counted.worst_erases), rules.merged)


def by_places(count: int) -> Dict[str, List[Tuple[int, Asking]]]:
    """By the name of the workload, what it asks on chips of each size."""
    return {name: [(places, asking(opened(places, FRAMES), in_transactions(workload), count))
                   for places in ALL_PLACES]
            for name, workload in BY_PLACES.items()}


def by_puts(puts: int) -> List[Tuple[int, Asking]]:
    """What transactions ask that have so many puts together, by the puts of one."""
    return [(each, asking(opened(PUTS_ON, FRAMES), in_transactions(workload), puts // each))
            for each, workload in BY_PUTS.items()]


def by_frames(count: int) -> List[Tuple[int, Asking]]:
    return [(frames, asking(opened(FRAMES_ON, frames), in_transactions(four_random_puts), count))
            for frames in ALL_FRAMES]
