"""The cliff of many places: where live log sectors have more committed numbers than a new status
place keeps, so that a commit merges units; where it begins, and what a user does against it."""
from __future__ import annotations

from typing import Callable, Dict, List, NamedTuple, Optional, Tuple

from .growth_counts import FRAMES, Asking, asking, opened
from .growth_uses import (BETWEEN_IDLE, Use, at_random, in_batches, in_transactions,
                          merging_fullest, merging_in_turn, on_units, side_by_side, together,
                          units_in_turn, with_values)
from .rules import MOST_KEPT, MOST_OVERFLOW_PLACES, RESERVED_PLACES, SECTORS
from .units import LOG_SECTORS
from .workloads import LONG_VALUE, SESSIONS, one_random_put

ALL_PLACES = [257, 510, 600, 800, 1028]
FEWEST_PLACES, MOST_PLACES = 5, 1028
# The log of each unit is filled so often, while it is looked for a commit that merges units.
FILLINGS = 2
# On so many places or fewer no commit does where a log sector has records of one transaction.
SAFE_PLACES = RESERVED_PLACES + (MOST_KEPT - MOST_OVERFLOW_PLACES * (SECTORS - 1)) // LOG_SECTORS

# What a user does who merges units: by turns behind so many transactions, or as long as by the
# user's own count more numbers are live.
EVERY, FEWER, MOST_LIVE = 8, 7, 3640
# What a user does who keeps to fewer units.
FEWER_UNITS = 380


class Beginning(NamedTuple):
    """A use for which it is looked where the cliff begins, and how many transactions fill the log
    of each unit once, for so many units."""
    use: Use
    to_fill: Callable[[int], int]


def filling_by(sectors: float) -> Callable[[int], int]:
    """Where a transaction has so many log sectors."""
    return lambda units: round(LOG_SECTORS * units / sectors)


BEGINNINGS: Dict[str, Beginning] = {
    "one put, over the units in turn": Beginning(in_transactions(units_in_turn), filling_by(1)),
    "one put at random": Beginning(in_transactions(one_random_put), filling_by(1)),
    "two puts at random": Beginning(in_transactions(at_random(2)), filling_by(2)),
    "four puts at random": Beginning(in_transactions(at_random(4)), filling_by(4)),
    f"{SESSIONS} puts beside one another at random, a batch of as many sessions":
        Beginning(in_batches(side_by_side), filling_by(1 / 8)),
    "the same with values of 8 bytes":
        Beginning(in_batches(with_values(side_by_side, 8)), filling_by(1 / 16)),
    f"{SESSIONS} puts beside one another at random, in one transaction":
        Beginning(in_transactions(together(side_by_side)), filling_by(4)),
}

# Each with whether the chip was full before.
SPREADING: Dict[str, Tuple[Use, bool]] = {
    "one put at random": (in_transactions(one_random_put), False),
    "one put, over the units in turn": (in_transactions(units_in_turn), False),
    "one put of 108 bytes at random, on a full chip":
        (in_transactions(with_values(one_random_put, LONG_VALUE)), True),
}

AGAINST: Dict[str, Use] = {
    "nothing": in_transactions(one_random_put),
    f"a `merge` behind each {EVERY} transactions, the units in turn":
        merging_in_turn(one_random_put, EVERY),
    f"a `merge` behind each {FEWER} transactions, the units in turn":
        merging_in_turn(one_random_put, FEWER),
    f"behind each {BETWEEN_IDLE} transactions a `merge` of the fullest units, until at most "
    f"{MOST_LIVE:,} numbers are live": merging_fullest(one_random_put, MOST_LIVE),
    f"puts to the names of {FEWER_UNITS} units alone":
        in_transactions(on_units(one_random_put, FEWER_UNITS)),
    "four puts a transaction": in_transactions(at_random(4)),
    f"the units in turn, and a batch of {SESSIONS} sessions": in_batches(units_in_turn),
}


def merges(beginning: Beginning, places: int) -> bool:
    """Whether a commit merges units whose numbers don't fit."""
    rules, done = opened(places, FRAMES), 0
    wanted = FILLINGS * beginning.to_fill(places - RESERVED_PLACES)
    for step in beginning.use(rules):
        done += step.transactions
        if rules.merged or done >= wanted:
            break
    return rules.merged > 0


def least_places(beginning: Beginning) -> Optional[int]:
    """The least chip on which a commit merges units, by halving; nothing where none does."""
    without, least = FEWEST_PLACES - 1, MOST_PLACES
    if not merges(beginning, least):
        return None
    while least - without > 1:
        middle = (least + without) // 2
        if merges(beginning, middle):
            least = middle
        else:
            without = middle
    return least


def beginnings() -> Dict[str, Optional[int]]:
    return {name: least_places(beginning) for name, beginning in BEGINNINGS.items()}


def spreading(count: int) -> Dict[str, List[Tuple[int, Asking]]]:
    """By the name of the use, what it asks on chips of each size."""
    return {name: [(places, asking(opened(places, FRAMES, is_full), use, count))
                   for places in ALL_PLACES] for name, (use, is_full) in SPREADING.items()}


def against(count: int) -> Dict[str, Asking]:
    """By what a user does, what is asked on the most places."""
    return {name: asking(opened(MOST_PLACES, FRAMES), use, count) for name, use in AGAINST.items()}
