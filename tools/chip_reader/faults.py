"""What is wrong with a chip, by docs/RECOVERY.md, in the order in which an opening tells it."""
from __future__ import annotations

from typing import Callable, Dict, Iterator, List, Set, Tuple

from .layout import Layout, Spot
from .sectors import Kind, Sector, log_records, marked_units, transaction_numbers, units_of
from .values import Fault, Survey, malformed

MOST_SPOTS_ELSEWHERE = 16
MOST_OVERFLOW_PLACES = 2
FIRST_SPENT_NUMBER = 2 ** 63


def size_faults(layout: Layout) -> Iterator[Fault]:
    """The chosen headers that were written for a chip of another size."""
    statuses = [] if layout.status is None else [layout.status]
    for place in statuses + [layout.homes[unit] for unit in sorted(layout.homes)]:
        if units_of(layout.headers[place].payload) not in (None, layout.units):
            yield Fault("geometry", Spot(place, 0))


def missing_units(layout: Layout) -> List[int]:
    return [unit for unit in range(layout.units) if unit not in layout.homes]


def header_faults(layout: Layout) -> Iterator[Fault]:
    if layout.status is None:
        yield Fault("not formatted")
    yield from size_faults(layout)
    for unit in missing_units(layout)[:1]:
        yield Fault(f"missing unit {unit}")
    for unit in sorted(layout.homes):
        if layout.data_header(unit) is None:
            yield malformed(Spot(layout.homes[unit], 0))
    if layout.status is not None and layout.status_header is None:
        yield malformed(Spot(layout.status, 0))


def commit_faults(layout: Layout) -> Iterator[Fault]:
    """The commit sectors, and the marks of clean closes among them, that aren't in the grammar."""
    for spot, sector in sorted({**layout.commits, **layout.close_marks}.items()):
        is_mark = sector.kind == Kind.MARK
        said = marked_units(sector.payload, layout.units) if is_mark else transaction_numbers(sector.payload)
        if said is None:
            yield malformed(spot)


def log_faults(layout: Layout) -> Iterator[Fault]:
    """The live log sectors that aren't in the grammar, repeat a serial or are one too many."""
    serials: Set[Tuple[int, int]] = set()
    elsewhere: Dict[int, int] = {}
    for spot, sector in layout.live.items():
        is_elsewhere = spot.place != layout.homes[sector.unit]
        before = elsewhere.get(sector.unit, 0)
        is_surplus = is_elsewhere and before >= MOST_SPOTS_ELSEWHERE
        is_repeated = (sector.unit, sector.serial) in serials
        if is_surplus or is_repeated or log_records(sector) is None:
            yield malformed(spot)
        serials.add((sector.unit, sector.serial))
        elsewhere[sector.unit] = before + is_elsewhere


def found_numbers(layout: Layout) -> Iterator[Tuple[int, Spot]]:
    """The numbers that an opening reads, each with its sector."""
    sectors = {Spot(place, 0): header for place, header in layout.headers.items()}
    read = {**sectors, **layout.commits, **layout.close_marks, **layout.log_sectors}
    for spot, sector in read.items():
        yield sector.generation, spot
        yield sector.serial, spot
        for number in transactions_in(sector):
            yield number, spot


def transactions_in(sector: Sector) -> List[int]:
    """The transaction numbers in a log or commit sector whose payload is in its grammar."""
    if sector.kind == Kind.COMMIT:
        return transaction_numbers(sector.payload) or []
    if sector.kind == Kind.LOG:
        return [record.transaction for record in log_records(sector) or []]
    return []


def greatest_found(layout: Layout) -> int:
    return max((number for number, _ in found_numbers(layout)), default=0)


def number_faults(layout: Layout) -> Iterator[Fault]:
    number, spot = max(found_numbers(layout), default=(0, None))
    if number >= FIRST_SPENT_NUMBER:
        yield Fault("numbers spent", spot)


def overflow_faults(layout: Layout) -> Iterator[Fault]:
    count = len(layout.overflow_places)
    if count > MOST_OVERFLOW_PLACES:
        yield Fault(f"no spare {count}")


def page_faults(survey: Survey) -> Iterator[Fault]:
    for unit in sorted(survey.units):
        yield from survey.units[unit].faults


FAULT_GROUPS: Tuple[Callable[[Layout], Iterator[Fault]], ...] = (
    header_faults, commit_faults, log_faults, number_faults, overflow_faults)


def faults(layout: Layout, survey: Survey) -> List[Fault]:
    """All that is wrong, in the order of telling: an opening tells the first."""
    told = [fault for group in FAULT_GROUPS for fault in group(layout)]
    return [*told, *page_faults(survey)]
