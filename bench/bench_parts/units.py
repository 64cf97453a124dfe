"""What the rules are about: sessions, and units, with the lengths of their values and their log."""
from __future__ import annotations

from typing import Dict, List, NamedTuple, Optional, Set, Tuple

LOG_SECTORS = 15
PAGES, SLOTS, UNIT_NAMES = 15, 64, 960
SECTOR_PAYLOAD = 480

Page = Tuple[int, int]
Spot = Tuple[int, int]


class Record(NamedTuple):
    """A put of so many bytes, or a delete."""
    page: int
    slot: int
    number: int
    length: Optional[int]

    @property
    def size(self) -> int:
        return 12 + (self.length or 0)


class Session:
    def __init__(self, number: int) -> None:
        self.number = number
        self.pages: Set[Page] = set()


class Unit:
    """A unit: its place, its pages with the lengths of their values, and its log."""

    def __init__(self, place: int) -> None:
        self.place = place
        self.slots: List[Dict[int, int]] = [{} for _ in range(PAGES)]
        self.pieces = [0] * PAGES
        self.log: List[List[Record]] = []
        # So many of the 15 aren't known to be clean: those written, or all where nothing is known.
        self.used, self.is_known = LOG_SECTORS, False
        self.spots: List[Spot] = []

    @property
    def records(self) -> List[Record]:
        return [record for sector in self.log for record in sector]

    @property
    def log_reads(self) -> int:
        """The header and the log."""
        return 1 + self.used + len(self.spots)

    def page_reads(self, page: int) -> int:
        """The header, the log sectors that name the page, and its base sectors."""
        naming = [sector for sector in self.log if any(record.page == page for record in sector)]
        return 1 + len(naming) + self.pieces[page]

    def forget(self) -> None:
        """Nothing is known of the log sectors any more."""
        self.used, self.is_known = LOG_SECTORS, False

    def apply(self, committed: Set[int]) -> None:
        """The records of committed numbers become values."""
        for record in self.records:
            if record.number in committed and record.length is None:
                self.slots[record.page].pop(record.slot, None)
            elif record.number in committed:
                self.slots[record.page][record.slot] = record.length or 0
        for page in {record.page for record in self.records}:
            text = sum(3 + length for length in self.slots[page].values())
            self.pieces[page] = -(-text // SECTOR_PAYLOAD)

    def carried(self, active: Set[int]) -> List[List[Record]]:
        """The last record of each name of an open session, packed in order."""
        last = {(record.page, record.slot): record for record in self.records
                if record.number in active}
        packs: List[List[Record]] = []
        for record in self.records:
            if last.get((record.page, record.slot)) is not record:
                continue
            if not packs or size_of(packs[-1]) + record.size > SECTOR_PAYLOAD:
                packs.append([])
            packs[-1].append(record)
        return packs


def size_of(records: List[Record]) -> int:
    return sum(record.size for record in records)


def page_of(name: int) -> Page:
    return name // UNIT_NAMES, name // SLOTS % PAGES
