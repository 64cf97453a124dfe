"""How often a model of the program erases each place of a chip, how long a part lasts by it, and a
script whose erases are worked out by hand."""
from __future__ import annotations

import os
import statistics
import sys
from typing import Iterator, List, NamedTuple, Tuple

from .known import replies_of
from .program import make_file, run_untraced
from .rules import RESERVED_PLACES, Rules, WornOut
from .trace import Asked
from .workloads import WEARING, Transaction, numbers

# What a place of a part lasts.
MOST_ERASES = 100_000


class Wear(NamedTuple):
    """How often each place was erased in so many transactions."""
    erases: List[int]
    transactions: int

    @property
    def unevenness(self) -> float:
        """How much more often the most worn place was erased than places are on the average."""
        return max(self.erases) / statistics.mean(self.erases)

    @property
    def life(self) -> int:
        """So many transactions until a place was erased as often as it lasts, where all goes on."""
        return MOST_ERASES * self.transactions // max(self.erases)


def asks(rules: Rules, transaction: Transaction) -> None:
    rules.asked = Asked()
    rules.begin(0)
    for put in transaction:
        rules.put(0, put.name, put.value)
    rules.commit(0)


def worn_by(transactions: Iterator[Transaction], places: int, frames: int) -> Wear:
    """The wear of a chip that is formatted and opened, and then has these transactions."""
    rules, count = Rules(places, frames), 0
    rules.asked_by("open")
    for count, transaction in enumerate(transactions, 1):
        asks(rules, transaction)
    return Wear(rules.erases, count)


class Part(NamedTuple):
    """A part under a workload: its units, its places to spare, and how often a place is erased before
    it is worn. With a seed above 0 that is drawn for each place, from a fifth less to a fifth more."""
    workload: str
    units: int
    spares: int
    erases: int
    seed: int

    @property
    def places(self) -> int:
        return self.units + RESERVED_PLACES + self.spares

    @property
    def lasts(self) -> List[int]:
        if not self.seed:
            return [self.erases] * self.places
        spread = self.erases // 5
        drawn = numbers(self.seed)
        return [self.erases - spread + next(drawn) % (2 * spread + 1) for _ in range(self.places)]

    def life(self, frames: int) -> int:
        """So many transactions are done until one place more is worn than are spare."""
        rules, count = Rules(self.places, frames, self.spares, self.lasts), 0
        transactions = WEARING[self.workload](self.units + RESERVED_PLACES, sys.maxsize)
        try:
            rules.asked_by("open")
            for transaction in transactions:
                asks(rules, transaction)
                count += 1
        except WornOut:
            pass
        return count


# On a chip of five places: each line of two runs, and the place that it erases. The format puts unit
# 0 at place 0 and the status at place 1, and erases each place once. So the opening takes place 2,
# and the merges take 1 and 0, and then 3 and 4, that were erased no more than once. Each place was
# erased twice then, and the lowest free one is 0.
#
# The restart finds the unit at place 0 and the status at place 2, and of 1, 3 and 4 takes the lowest.
# Place 2 is free then, and was erased twice, as 3 and 4 were.
FIRST_RUN: List[Tuple[str, int]] = [
    ("open", 2), ("merge 0", 1), ("merge 0", 0), ("merge 0", 3), ("merge 0", 4), ("merge 0", 0),
    ("restart", 1), ("merge 0", 2), ("merge 0", 3)]
# The headers say that place 4 was erased twice and the others three times.
SECOND_RUN: List[Tuple[str, int]] = [("open", 4), ("merge 0", 0)]
# At the end, by place.
KNOWN_ERASES = [4, 3, 3, 3, 3]
KNOWN_PLACES = len(KNOWN_ERASES)


# A part of six places, one of which is spare, and of which 2 and 0 are worn once the format has erased
# them. The opening takes place 3 in the stead of 2, and then the first commit takes 1, to merge the
# unit. Fifteen commits of one put fill its log, and the sixteenth, which merges it again, finds 0 worn.
WORN_LASTS = [1, 9, 1, 9, 9, 9]
TAKEN_BY_COMMITS = [[3], [1]] + 14 * [[]]


def takes_as_known() -> bool:
    """Whether the model takes the places of a part that wears out as it is worked out by hand."""
    rules = Rules(6, 2, 1, WORN_LASTS)
    taken = [erased(rules.asked_by("open"))]
    try:
        for _ in range(16):
            rules.asked_by("begin 0")
            rules.asked_by("put 0 5 61")
            taken.append(erased(rules.asked_by("commit 0")))
    except WornOut:
        pass
    if taken != TAKEN_BY_COMMITS or rules.retired != {2}:
        print(f"wear: the model takes {taken} and retires {rules.retired}")
        return False
    return True


def erased(asked: Asked) -> List[int]:
    return [int(write[1:]) for write in asked.writes if write.startswith("e")]


def erased_in(program: str, folder: str, chip: str, known: List[Tuple[str, int]]) -> bool:
    """Whether each line of a run erases the place that is known; says where it doesn't."""
    lines = [line for line, _ in known[1:]]
    same = True
    for (line, place), reply in zip(known, replies_of(program, ["run", chip], folder, lines)):
        found = erased(reply.asked)
        if found != [place]:
            print(f"wear: {line}: {found} and not {place}")
            same = False
    return same


def try_known(program: str, folder: str) -> str:
    """Compares both runs with what is known, and answers the chip file that they leave, or nothing."""
    path = os.path.join(folder, "known")
    chip = f"file:{KNOWN_PLACES}:{path}"
    make_file(path, KNOWN_PLACES)
    run_untraced(program, ["format", chip], os.devnull)
    runs = [erased_in(program, folder, chip, known) for known in (FIRST_RUN, SECOND_RUN)]
    return path if all(runs) else ""
