"""The values of pages, by docs/RECOVERY.md: their base sectors, and the log applied to them."""
from __future__ import annotations

from dataclasses import dataclass
from typing import Dict, Iterator, List, Optional, Tuple, Union

from .layout import Layout, Spot
from .sectors import (Bad, Kind, LogRecord, MOST_TEXT_BYTES, PAGES, PIECE_BYTES, SLOTS, Sector,
                      SectorClass, log_records, page_slots, text_size)

Slots = Dict[int, bytes]


@dataclass(frozen=True)
class Fault:
    """One thing that is wrong with a chip, in the words of an opening, and the sector with it."""
    note: str
    spot: Optional[Spot] = None

    def __str__(self) -> str:
        if self.spot is None or str(self.spot) in self.note:
            return self.note
        return f"{self.note} ({self.spot})"


def malformed(spot: Spot) -> Fault:
    return Fault(f"malformed {spot}", spot)


def damaged(spot: Spot, sector: Bad) -> Fault:
    sums = f"stored {sector.stored:08x} computed {sector.computed:08x}"
    return Fault(f"damaged {spot} {sums}", spot)


def is_base(header: Sector, number: int, sector: SectorClass, is_last: bool) -> bool:
    """Whether nothing is wrong with a base sector of a page by itself, by its unit's header."""
    if not isinstance(sector, Sector) or sector.kind != Kind.BASE:
        return False
    # Piece i of page p has serial 16 p + i, and stands in the sector of the next number.
    wanted = header.version, header.unit, header.generation, number - 1
    is_its_own = (sector.version, sector.unit, sector.generation, sector.serial) == wanted
    length = len(sector.payload)
    return is_its_own and (length > 0 if is_last else length == PIECE_BYTES)


def base_fault(spot: Spot, sector: SectorClass) -> Fault:
    """What is wrong with a base sector with which something is."""
    return damaged(spot, sector) if isinstance(sector, Bad) else malformed(spot)


def unit_log(layout: Layout, unit: int) -> List[LogRecord]:
    """The records of a unit's log in the order in which they apply, committed or not."""
    sectors = [layout.live[spot] for spot in layout.logs.get(unit, [])]
    return [record for sector in sectors for record in log_records(sector) or []]


def base_slots(layout: Layout, unit: int, page: int, sectors: List[SectorClass],
               sound: List[int]) -> Union[Slots, Fault]:
    """The values of a page without its log, or the first fault of its base sectors, by the sectors of
    its unit's place. The numbers of those with which nothing is wrong by themselves become sound."""
    header, numbers = layout.home_header(unit), layout.base_numbers(unit, page)
    wrong = [number for number in numbers
             if not is_base(header, number, sectors[number], number == numbers[-1])]
    sound.extend(number for number in numbers if number not in wrong)
    if wrong:
        return base_fault(Spot(layout.homes[unit], wrong[0]), sectors[wrong[0]])
    text = b"".join(sectors[number].payload for number in numbers)
    slots = page_slots(text, header.version)
    return malformed(Spot(layout.homes[unit], numbers[0])) if slots is None else slots


def unit_pages(layout: Layout, unit: int, sectors: List[SectorClass],
               sound: List[int]) -> Iterator[Union[Slots, Fault]]:
    """The values of each page of a unit, its log applied, or its fault: that of its base sectors, or
    that of its unit's header where a page has no room for the values."""
    committed = [record for record in unit_log(layout, unit) if record.transaction in layout.committed]
    for page in range(PAGES):
        slots = base_slots(layout, unit, page, sectors, sound)
        if isinstance(slots, Fault):
            yield slots
            continue
        for record in committed:
            if record.page == page:
                slots.pop(record.slot, None)
                if record.value is not None:
                    slots[record.slot] = record.value
        is_full = text_size(slots) > MOST_TEXT_BYTES
        yield malformed(Spot(layout.homes[unit], 0)) if is_full else slots


@dataclass(frozen=True)
class UnitSurvey:
    """What the pages of a unit hold, without their values: the numbers of the base sectors that are
    sound, the faults of pages, and how many records the others have."""
    sound: List[int]
    faults: List[Fault]
    records: int


# A kind, or of a sector that doesn't check what it is.
SectorSort = Union[Kind, type]


class Survey:
    """What a pass over all places finds that is to be known of all of them: what each sector is, by
    place, and what the pages of each unit hold that has a current place."""

    def __init__(self, layout: Layout) -> None:
        self.sorts: List[List[SectorSort]] = []
        self.units: Dict[int, UnitSurvey] = {}
        at_home = {place: unit for unit, place in layout.homes.items()}
        for place in range(len(layout.chart)):
            sectors = layout.chart.sectors(place)
            self.sorts.append([sector.kind if isinstance(sector, Sector) else type(sector)
                               for sector in sectors])
            if place in at_home:
                self.units[at_home[place]] = survey_of(layout, at_home[place], sectors)

    @property
    def records(self) -> int:
        """How many records a chip without a fault has."""
        return sum(unit.records for unit in self.units.values())


def survey_of(layout: Layout, unit: int, sectors: List[SectorClass]) -> UnitSurvey:
    sound: List[int] = []
    faults, records = [], 0
    for read in unit_pages(layout, unit, sectors, sound):
        if isinstance(read, Fault):
            faults.append(read)
        else:
            records += len(read)
    return UnitSurvey(sound, faults, records)


def records(layout: Layout) -> Iterator[Tuple[int, bytes]]:
    """The records of a chip without a fault, by rising name."""
    for unit in range(layout.units):
        sectors = layout.chart.sectors(layout.homes[unit])
        for page, slots in enumerate(unit_pages(layout, unit, sectors, [])):
            assert not isinstance(slots, Fault)
            for slot in sorted(slots):
                yield (unit * PAGES + page) * SLOTS + slot, slots[slot]
