"""A picture of a chip in letters: each place with its label, and a letter for each sector."""
from __future__ import annotations

from typing import Iterator, List

from .marks import ChipMarks, Fill, PlaceMark
from .sectors import SECTORS

SECTORS_IN_ROW = 64
LEGEND_ENTRIES_IN_ROW = 4


def row_of(fills: List[Fill], first: int) -> str:
    letters = "".join(fill.letter for fill in fills[first:first + SECTORS_IN_ROW])
    return f"{first:5} {letters}"


def place_rows(mark: PlaceMark) -> Iterator[str]:
    """The label of a place, and its rows of sectors but for those that are all erased."""
    words = [mark.kind, mark.numbers, mark.erases, mark.use.value]
    yield f"place {mark.place}: " + ", ".join(word for word in words if word)
    for first in range(0, SECTORS, SECTORS_IN_ROW):
        if any(fill != Fill.ERASED for fill in mark.fills[first:first + SECTORS_IN_ROW]):
            yield row_of(mark.fills, first)


def legend_rows() -> Iterator[str]:
    """The letters of which a picture is made, small ones for what is left over."""
    upright = [fill for fill in Fill if not fill.letter.islower() or fill == Fill.TORN]
    for start in range(0, len(upright), LEGEND_ENTRIES_IN_ROW):
        entries = upright[start:start + LEGEND_ENTRIES_IN_ROW]
        yield "   ".join(f"{fill.letter} {fill.words}" for fill in entries)
    yield "in small letters: left over; rows that aren't shown are erased"


def text_picture(marks: ChipMarks) -> str:
    rows = [*marks.lines, *marks.fault_lines, ""]
    for mark in marks.places:
        rows.extend(place_rows(mark))
    rows.extend(["", *legend_rows()])
    return "".join(row + "\n" for row in rows)
