"""What openings and transactions take of time and memory on chips of many sizes, by the program."""
from __future__ import annotations

import os
import statistics
from typing import Dict, Iterator, List, NamedTuple, Optional, Tuple

from .counts import Script
from .growth_counts import FRAMES, opened
from .growth_rules import GrowingRules
from .known import replies_of
from .opened import get_script
from .program import Failed, make_file, run_untraced
from .rules import RESERVED_PLACES
from .sizes import counting_library, counts_of
from .starts import FILLING_FRAMES
from .timed import run_timed, seconds_to_get, shortest
from .wear import asks
from .workloads import (MOST_PENDING, SHORT_VALUE, UNIT_NAMES, Put, Transaction, Workload, value_of)

# The name that is got of each chip, and one of each unit that has a record.
GOT = 5


class Opening(NamedTuple):
    """What an opening reads, the bytes that its run has of malloc at most, and the milliseconds
    from the start of the process to its reply to a get, where it was timed."""
    reads: int
    memory: int
    milliseconds: Optional[float]


class Meter(NamedTuple):
    """A program that is measured, in files of a folder: so many rounds and openings are timed, none
    where there are no rounds."""
    program: str
    folder: str
    rounds: int
    openings: int

    @property
    def path(self) -> str:
        return os.path.join(self.folder, "chip")

    def words(self, places: int, frames: int) -> List[str]:
        """Those of a run on a chip in the file."""
        return ["run", f"file:{places}:{self.path}", "--frames", str(frames)]

    def memory(self, places: int, frames: int, library: str) -> int:
        """The bytes that a run for a get has of malloc at most."""
        words = [self.program, *self.words(places, frames)]
        return counts_of(words, Script(get_script(self.folder), []), library).most

    def milliseconds(self, places: int) -> Optional[float]:
        """From the start of a process to its reply to a get, the median of all openings."""
        if not self.rounds:
            return None
        words, script = [self.program, *self.words(places, FRAMES)], get_script(self.folder)
        return 1e3 * statistics.median(seconds_to_get(words, script) for _ in range(self.openings))

    def script(self, transactions: Iterator[Transaction], name: str = "script") -> Script:
        return Script.written(os.path.join(self.folder, name), transactions, iter([]))

    def microseconds(self, places: int, frames: int, workload: Workload,
                     count: int) -> Optional[float]:
        """User and system time of each of so many transactions, behind as many others, on a chip
        in memory: what a run of both takes more than one of the first, by the shortest of each."""
        if not self.rounds:
            return None
        words = [self.program, "run", f"ram:{places}", "--format", "--frames", str(frames)]
        first = self.script(workload(places, count), "first")
        both = self.script(workload(places, 2 * count), "both")
        runs = [(run_timed(words, first), run_timed(words, both)) for _ in range(self.rounds)]
        less, more = [shortest(list(of_script), count) for of_script in zip(*runs)]
        return more.user + more.system - less.user - less.system


def one_of_each_unit(places: int) -> Iterator[Transaction]:
    """Transactions that put a value at one name of each unit."""
    units = places - RESERVED_PLACES
    for first in range(0, units, MOST_PENDING):
        yield [Put(UNIT_NAMES * unit + GOT, value_of(unit, SHORT_VALUE))
               for unit in range(first, min(first + MOST_PENDING, units))]


def make_chip(meter: Meter, places: int) -> GrowingRules:
    """Makes a chip of which each unit has a record, and answers the rules that it goes by."""
    make_file(meter.path, places)
    script = meter.script(one_of_each_unit(places))
    words = [*meter.words(places, FILLING_FRAMES), "--format"]
    if run_untraced(meter.program, words, script.path) != "ok\n" * script.ends[-1]:
        raise Failed("a put was refused while the chip was filled")
    rules = opened(places, FILLING_FRAMES)
    for transaction in one_of_each_unit(places):
        asks(rules, transaction)
    return rules


def opening_reads(meter: Meter, rules: GrowingRules) -> int:
    """The sectors that an opening reads, which the rules say too."""
    words = meter.words(rules.places, FRAMES)
    asked = replies_of(meter.program, words, meter.folder, [])[0].asked
    if asked != rules.asked_by("open"):
        raise Failed(f"{rules.places} places: an opening asked for other things than the rules say")
    return asked.reads


def opening(meter: Meter, places: int, library: str) -> Opening:
    rules = make_chip(meter, places)
    return Opening(opening_reads(meter, rules), meter.memory(places, FRAMES, library),
                   meter.milliseconds(places))


def openings(meter: Meter, all_places: List[int]) -> List[Tuple[int, Opening]]:
    library = counting_library(meter.folder)
    return [(places, opening(meter, places, library)) for places in all_places]


def memory_by_frames(meter: Meter, places: int, all_frames: List[int]) -> Dict[int, int]:
    library = counting_library(meter.folder)
    make_chip(meter, places)
    return {frames: meter.memory(places, frames, library) for frames in all_frames}
