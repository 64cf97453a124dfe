"""The tables of how a store grows, for docs/COSTS.md."""
from __future__ import annotations

from statistics import linear_regression
from typing import Dict, List, Optional, Sequence, Tuple

from .comparison_tables import number
from .growth_cliff import FILLINGS, MOST_PLACES, SAFE_PLACES
from .growth_counts import FRAMES, FRAMES_ON, PUTS_ON, Asking
from .growth_times import Opening
from .rules import MOST_KEPT

# Of reads, programs and erases for a transaction; a slope has some more.
ASKED_DIGITS, OPENING_DIGITS = [2, 2, 3], [0, 0, 2]
MORE_DIGITS = 2
ASKED = ["sectors read", "programs", "erases"]
WORST = ["programs at the worst", "erases at the worst"]
OF_CLIFF = [*ASKED, *WORST, "units merged"]

# The values of a row, where they were measured.
Values = Sequence[Optional[float]]
# By a size, what is asked there.
Measured = List[Tuple[int, Asking]]


def table(heads: Sequence[str], rows: Sequence[Sequence[str]]) -> str:
    lines = [heads, ["---"] * len(heads), *rows]
    return "".join("| " + " | ".join(cells) + " |\n" for cells in lines)


def cells(values: Values, digits: Sequence[int]) -> List[str]:
    return [number(value, places) for value, places in zip(values, digits)]


def slope(sizes: Sequence[int], values: Values) -> Optional[float]:
    """By how much a value grows for one more, by least squares."""
    return None if None in values else linear_regression(sizes, values).slope


def with_slope(name: str, sizes: Sequence[int], rows: Sequence[Values],
               digits: Sequence[int]) -> List[List[str]]:
    """A row for each size, and one for their slopes."""
    slopes = [slope(sizes, column) for column in zip(*rows)]
    return [*[[f"{size:,}", *cells(values, digits)] for size, values in zip(sizes, rows)],
            [name, *cells(slopes, [more + MORE_DIGITS for more in digits])]]


def openings_text(openings: List[Tuple[int, Opening]]) -> str:
    sizes, rows = zip(*openings)
    heads = ["places", "sectors read", "bytes of `malloc` at most", "ms to get a value"]
    return table(heads, with_slope("for each place more", sizes, rows, OPENING_DIGITS))


def asked(asking: Asking) -> List[float]:
    return [asking.reads, asking.programs, asking.erases]


def worst(asking: Asking) -> List[float]:
    return [asking.worst_programs, asking.worst_erases]


def places_text(by_places: Dict[str, Measured], times: Dict[str, List[Optional[float]]],
                count: int) -> str:
    rows = []
    for name, measured in by_places.items():
        sizes = [places for places, _ in measured]
        values = [[*asked(asking), took]
                  for (_, asking), took in zip(measured, times[name])]
        rows += [[name, *row]
                 for row in with_slope("for each place more", sizes, values, [*ASKED_DIGITS, 1])]
    return (f"For a transaction, with {FRAMES} frames, on the average of {count:,} behind as many "
            "others:\n\n" + table(["Transactions of", "places", *ASKED, "µs"], rows))


def puts_text(by_puts: Measured, times: List[Optional[float]], puts: int) -> str:
    sizes, rows = [each for each, _ in by_puts], []
    for (each, asking), took in zip(by_puts, times):
        rows.append([*asked(asking), *worst(asking), took, asking.programs / each,
                     took and took / each])
    heads = ["puts", *ASKED, *WORST, "µs", "programs a put", "µs a put"]
    return (f"For a transaction on {PUTS_ON} places with {FRAMES} frames, on the average of those "
            f"that have {puts:,} puts together, behind as many others:\n\n"
            + table(heads, with_slope("for each put more", sizes, rows,
                                      [*ASKED_DIGITS, 0, 0, 1, 2, 1])))


def frames_text(by_frames: Measured, memory: Dict[int, int], times: List[Optional[float]],
                count: int) -> str:
    sizes = [frames for frames, _ in by_frames]
    rows = [[*asked(asking), memory[frames], took]
            for (frames, asking), took in zip(by_frames, times)]
    heads = ["frames", *ASKED, "bytes of `malloc` at most", "µs"]
    return (f"For a transaction of four puts at random on {FRAMES_ON} places, on the average of "
            f"{count:,} behind as many others:\n\n"
            + table(heads, with_slope("for each frame more", sizes, rows, [*ASKED_DIGITS, 0, 1])))


def cliff_cells(asking: Asking) -> List[str]:
    return cells([*asked(asking), *worst(asking), asking.merged], [*ASKED_DIGITS, 0, 0, 0])


def beginnings_text(beginnings: Dict[str, Optional[int]]) -> str:
    rows = [[name, f"{least:,}" if least else f"none up to {MOST_PLACES:,}"]
            for name, least in beginnings.items()]
    return ("The least number of places on which a commit merges such units, while the log of each "
            f"unit is filled {FILLINGS} times, found by halving. On {SAFE_PLACES} places or fewer "
            "none does where a log sector has records of one transaction alone: all logs together "
            f"have no more than {MOST_KEPT:,} numbers then.\n\n"
            + table(["Transactions of", "places"], rows))


def spreading_text(spreading: Dict[str, Measured], count: int) -> str:
    rows = [[name, f"{places:,}", *cliff_cells(asking)]
            for name, measured in spreading.items() for places, asking in measured]
    return (f"For a transaction, on the average of {count:,} behind as many others; and of both "
            "the worst transaction, and the units that commits merged since their numbers didn't "
            "fit:\n\n" + table(["Transactions of", "places", *OF_CLIFF], rows))


def against_text(against: Dict[str, Asking]) -> str:
    rows = [[name, *cliff_cells(asking)] for name, asking in against.items()]
    return (f"The same on {MOST_PLACES:,} places with one put at random, where a user does "
            "something against it. The averages have the merges that a user asks for among them; "
            "the worst has not, and is that of a batch where there are some:\n\n"
            + table(["What a user does", *OF_CLIFF], rows))


def cliff_text(beginnings: Dict[str, Optional[int]], spreading: Dict[str, Measured],
               against: Dict[str, Asking], count: int) -> str:
    return "\n".join([beginnings_text(beginnings), spreading_text(spreading, count),
                      against_text(against)])
