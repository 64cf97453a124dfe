"""What a picture marks: the fill of each sector, the words for each place, a few lines over all."""
from __future__ import annotations

from dataclasses import dataclass
from enum import Enum
from typing import Dict, Iterable, Iterator, List, Optional, Set, Tuple

from .faults import faults, greatest_found, missing_units
from .layout import Layout, Spot
from .sectors import Bad, Erased, Kind, Sector, Strange
from .values import Fault, SectorSort, Survey, unit_log

MOST_FAULTS = 12
MOST_RANGES = 12


class Fill(Enum):
    """What stands in a sector, with its letter and its words in the legend."""
    HEADER = ("H", "header")
    BASE = ("B", "base sector")
    LOG = ("L", "log sector")
    COMMIT = ("C", "commit sector")
    MARK = ("M", "mark of a clean close")
    OLD_HEADER = ("h", "header, left over")
    OLD_BASE = ("b", "base sector, left over")
    OLD_LOG = ("l", "log sector, left over")
    OLD_COMMIT = ("c", "commit sector, left over")
    OLD_MARK = ("m", "mark of a clean close, left over")
    ERASED = (".", "erased")
    TORN = ("x", "torn: its sum is wrong")
    STRANGE = ("?", "strange: another rule is broken")
    FAULT = ("!", "at fault")

    def __init__(self, letter: str, words: str) -> None:
        self.letter = letter
        self.words = words


# The fill of a sector: where it counts, and where it is left over.
FILLS: Dict[SectorSort, Tuple[Fill, Fill]] = {
    Erased: (Fill.ERASED, Fill.ERASED),
    Bad: (Fill.TORN, Fill.TORN),
    Strange: (Fill.STRANGE, Fill.STRANGE),
    Kind.DATA: (Fill.HEADER, Fill.OLD_HEADER),
    Kind.STATUS: (Fill.HEADER, Fill.OLD_HEADER),
    Kind.OVERFLOW: (Fill.HEADER, Fill.OLD_HEADER),
    Kind.BASE: (Fill.BASE, Fill.OLD_BASE),
    Kind.LOG: (Fill.LOG, Fill.OLD_LOG),
    Kind.COMMIT: (Fill.COMMIT, Fill.OLD_COMMIT),
    Kind.MARK: (Fill.MARK, Fill.OLD_MARK),
}


class Use(Enum):
    """Whether anything counts at a place, and whether it may be taken."""
    CURRENT = "current"
    RETIRED = "retired"
    LEFT_OVER = "left over"
    FREE = "free"


@dataclass(frozen=True)
class PlaceMark:
    """What a picture shows of one place."""
    place: int
    kind: str
    numbers: str
    erases: str
    use: Use
    fills: List[Fill]


@dataclass(frozen=True)
class ChipMarks:
    """What a picture shows of a chip."""
    lines: List[str]
    fault_lines: List[str]
    places: List[PlaceMark]


def counting_spots(layout: Layout) -> Set[Spot]:
    """The sectors that count but those of pages: what an opening goes by."""
    header_places = [*layout.homes.values(), *layout.overflow_places]
    if layout.status is not None:
        header_places.append(layout.status)
    spots = {Spot(place, 0) for place in header_places}
    spots.update(layout.commits, layout.live)
    if layout.close_mark is not None:
        spots.add(layout.close_mark)
    return spots


def fills_by_place(layout: Layout, survey: Survey, found_faults: List[Fault]) -> List[List[Fill]]:
    """The fill of each sector of each place."""
    fills = [[FILLS[sort][1] for sort in sorts] for sorts in survey.sorts]
    for place, number in counting_spots(layout):
        fills[place][number] = FILLS[survey.sorts[place][number]][0]
    for unit, found in survey.units.items():
        for number in found.sound:
            fills[layout.homes[unit]][number] = Fill.BASE
    for fault in found_faults:
        if fault.spot is not None:
            fills[fault.spot.place][fault.spot.sector] = Fill.FAULT
    return fills


def kind_words(layout: Layout, place: int, fills: List[Fill]) -> str:
    """What a place is for, by its sector 0."""
    first = layout.firsts[place]
    if isinstance(first, Erased):
        is_free = all(fill == Fill.ERASED for fill in fills)
        return "erased" if is_free else "no header"
    if not isinstance(first, Sector):
        return "unreadable header"
    if first.kind == Kind.DATA:
        return f"data of unit {first.unit}"
    if first.kind.is_header:
        return first.kind.name.lower()
    return f"no header but a {first.kind.name.lower()} sector"


def number_words(header: Optional[Sector]) -> str:
    """The generation of a place, and the serial of its header where it is another number."""
    if header is None:
        return ""
    serial = "" if header.serial == header.generation else f", serial {header.serial}"
    return f"generation {header.generation}{serial}"


def is_in_use(layout: Layout, place: int) -> bool:
    """Whether a place is that of a unit, the status place or an overflow place in use."""
    header = layout.headers.get(place)
    is_home = header is not None and layout.homes.get(header.unit) == place
    return is_home or place == layout.status or place in layout.overflow_places


def place_mark(layout: Layout, place: int, fills: List[Fill]) -> PlaceMark:
    kind = kind_words(layout, place, fills)
    use = Use.FREE if kind == "erased" else Use.LEFT_OVER
    if is_in_use(layout, place):
        use = Use.CURRENT
    elif place in layout.retired:
        use = Use.RETIRED
    erases = counted(layout.erases[place], "erase")
    return PlaceMark(place, kind, number_words(layout.headers.get(place)), erases, use, fills)


def counted(number: int, one: str) -> str:
    return f"{number} {one}" if number == 1 else f"{number} {one}s"


def ranges(numbers: List[int]) -> Iterator[str]:
    """Rising numbers as runs: 1, 2, 3, 7 are 1 to 3, and 7."""
    start = 0
    for end in range(1, len(numbers) + 1):
        if end == len(numbers) or numbers[end] != numbers[end - 1] + 1:
            first, last = numbers[start], numbers[end - 1]
            yield str(first) if first == last else f"{first} to {last}"
            start = end


def at_most(most: int, words: Iterable[str]) -> List[str]:
    """The first of some words, and how many more there are."""
    listed = list(words)
    more = len(listed) - most
    return listed[:most] + ([f"and {more} more"] if more > 0 else [])


def log_line(layout: Layout) -> str:
    """How much log counts, and how many of its records are committed."""
    if not layout.live:
        return "no live log sector"
    found = committed = 0
    for unit in layout.logs:
        for record in unit_log(layout, unit):
            found += 1
            committed += record.transaction in layout.committed
    sectors = counted(len(layout.live), "live log sector")
    return f"{sectors} with {counted(found, 'record')}, {committed} of them committed"


def erase_line(layout: Layout) -> str:
    """How often the places were erased, as far as their headers say it."""
    least, most = min(layout.erases), max(layout.erases)
    each = counted(least, "erase") if least == most else f"{least} to {most} erases"
    return f"{each} a place, {sum(layout.erases)} in all"


def size_words(layout: Layout) -> str:
    """How many places and units the chip has, and how many of the places are spare, where any is."""
    places, units = f"{len(layout.chart)} places", counted(layout.units, "unit")
    if not layout.spares:
        return f"{places} and {units}"
    return f"{places}, {units} and {counted(layout.spares, 'spare place')}"


def summary(layout: Layout, survey: Survey, found_faults: List[Fault]) -> List[str]:
    """The lines over all: the size, what the chip stands for, its log, its numbers, its wear."""
    holds = "no records are listed, for its faults"
    if not found_faults:
        holds = counted(survey.records, "record")
    numbers = counted(len(layout.committed), "committed number")
    lines = [f"chip of {size_words(layout)}: {holds}", f"{numbers}; {log_line(layout)}",
             f"greatest number found: {greatest_found(layout)}", erase_line(layout)]
    if layout.retired:
        retired = ", ".join(at_most(MOST_RANGES, ranges(list(layout.retired))))
        lines.append(f"retired places: {retired}")
    if layout.marked_units:
        marked = ", ".join(at_most(MOST_RANGES, ranges(sorted(layout.marked_units))))
        lines.append(f"units whose erased log sectors are marked as clean: {marked}")
    missing = missing_units(layout)
    if missing:
        listed = ", ".join(at_most(MOST_RANGES, ranges(missing)))
        lines.append(f"units without a current header: {listed}")
    return lines


def chip_marks(layout: Layout) -> ChipMarks:
    survey = Survey(layout)
    found_faults = faults(layout, survey)
    fills = fills_by_place(layout, survey, found_faults)
    places = [place_mark(layout, place, fills[place]) for place in range(len(fills))]
    fault_lines = at_most(MOST_FAULTS, (f"fault: {fault}" for fault in found_faults))
    return ChipMarks(summary(layout, survey, found_faults), fault_lines, places)
