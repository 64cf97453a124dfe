"""What counts on a chip, by docs/RECOVERY.md: the winners of the headers, commits, the live log."""
from __future__ import annotations

from functools import cached_property
from typing import Dict, FrozenSet, Iterator, List, NamedTuple, Optional, Set, Tuple

from .sectors import (Chart, DataHeader, FIRST_LOG_SECTOR, Kind, MOST_PIECES, RESERVED_PLACES,
                      Sector, SectorClass, StatusHeader, data_header, erases_of, marked_units,
                      may_have_units, status_header, transaction_numbers, units_of)


class Spot(NamedTuple):
    """Where a sector stands. Spots are in rising order of place and sector."""
    place: int
    sector: int

    def __str__(self) -> str:
        return f"place {self.place} sector {self.sector}"


class Layout:
    """What counts on a chip: the winners among the headers, the committed numbers, the live log."""

    def __init__(self, chart: Chart) -> None:
        self.chart = chart

    @cached_property
    def firsts(self) -> List[SectorClass]:
        """Sector 0 of each place."""
        return [self.chart.sectors(place, 0, 1)[0] for place in range(len(self.chart))]

    @cached_property
    def headers(self) -> Dict[int, Sector]:
        """The headers that check, by place."""
        return {place: first for place, first in enumerate(self.firsts)
                if isinstance(first, Sector) and first.kind.is_header}

    def places_of(self, kind: Kind) -> List[int]:
        return [place for place, header in self.headers.items() if header.kind == kind]

    def is_younger(self, place: int, other: Optional[int]) -> bool:
        """Whether the header of a place wins over that of a lower one, if there is any."""
        return other is None or self.headers[place].serial > self.headers[other].serial

    @cached_property
    def homes(self) -> Dict[int, int]:
        """The current place of each unit that has one."""
        homes: Dict[int, int] = {}
        for place in self.places_of(Kind.DATA):
            unit = self.headers[place].unit
            if unit < self.units and self.is_younger(place, homes.get(unit)):
                homes[unit] = place
        return homes

    @cached_property
    def status(self) -> Optional[int]:
        """The status place."""
        status = None
        for place in self.places_of(Kind.STATUS):
            if self.is_younger(place, status):
                status = place
        return status

    @cached_property
    def units(self) -> int:
        """The number of units: what the status header says, and as many as there can be where it says
        nothing, or a number that no chip of this size has."""
        said = None if self.status is None else units_of(self.headers[self.status].payload)
        if said is not None and may_have_units(said, len(self.chart)):
            return said
        return len(self.chart) - RESERVED_PLACES

    @property
    def spares(self) -> int:
        """How many places are spare, for those that wear out."""
        return len(self.chart) - RESERVED_PLACES - self.units

    def home_header(self, unit: int) -> Sector:
        return self.headers[self.homes[unit]]

    def data_header(self, unit: int) -> Optional[DataHeader]:
        """What the current header of a unit says, where its payload is in the grammar."""
        return data_header(self.home_header(unit))

    @cached_property
    def status_header(self) -> Optional[StatusHeader]:
        """What the header of the status place says, where its payload is in the grammar."""
        if self.status is None:
            return None
        return status_header(self.headers[self.status], len(self.chart))

    @cached_property
    def retired(self) -> Tuple[int, ...]:
        """The places that the status header names as retired, by rising number."""
        return self.status_header.retired if self.status_header else ()

    @cached_property
    def erases(self) -> List[int]:
        """How often each place was erased, as an opening takes it."""
        return [erases_of(first) for first in self.firsts]

    @cached_property
    def commits(self) -> Dict[Spot, Sector]:
        """The commit sectors that count, in rising order."""
        if self.status is None:
            return {}
        generation = self.headers[self.status].generation
        return {spot: sector for spot, sector in self.checked(self.status, 1)
                if sector.kind == Kind.COMMIT and sector.generation == generation}

    @cached_property
    def close_marks(self) -> Dict[Spot, Sector]:
        """The marks of clean closes in the status place that have its generation, in rising order."""
        if self.status is None:
            return {}
        generation = self.headers[self.status].generation
        return {spot: sector for spot, sector in self.checked(self.status, 1)
                if sector.kind == Kind.MARK and sector.generation == generation}

    @cached_property
    def close_mark(self) -> Optional[Spot]:
        """The mark that counts: the youngest, where no commit sector is younger."""
        last_commit = max((sector.serial for sector in self.commits.values()), default=0)
        best = None
        for spot, sector in self.close_marks.items():
            if best is None or sector.serial > self.close_marks[best].serial:
                best = spot
        return best if best is not None and self.close_marks[best].serial >= last_commit else None

    @cached_property
    def marked_units(self) -> FrozenSet[int]:
        """The units whose erased log sectors are known to be clean by the mark that counts."""
        if self.close_mark is None:
            return frozenset()
        mark = self.close_marks[self.close_mark]
        said = marked_units(mark.payload, self.units) or frozenset()
        return frozenset(unit for unit in said
                         if unit in self.homes and self.home_header(unit).serial < mark.serial)

    @cached_property
    def committed(self) -> Set[int]:
        """The numbers of the committed transactions."""
        payloads = (transaction_numbers(sector.payload) for sector in self.commits.values())
        return {number for numbers in payloads for number in numbers or ()}

    def checked(self, place: int, first: int) -> Iterator[Tuple[Spot, Sector]]:
        """The sectors of a place that check, from one on."""
        for number, sector in enumerate(self.chart.sectors(place, first), first):
            if isinstance(sector, Sector):
                yield Spot(place, number), sector

    @cached_property
    def log_sectors(self) -> Dict[Spot, Sector]:
        """The log sectors that check where log sectors may stand, live or not, in rising order."""
        first_log_sector = dict.fromkeys(self.homes.values(), FIRST_LOG_SECTOR)
        first_log_sector.update(dict.fromkeys(self.places_of(Kind.OVERFLOW), 1))
        return {spot: sector for place in sorted(first_log_sector)
                for spot, sector in self.checked(place, first_log_sector[place])
                if sector.kind == Kind.LOG}

    def is_live(self, spot: Spot, sector: Sector) -> bool:
        """Whether a log sector counts, that stands where log sectors may stand."""
        home = self.homes.get(sector.unit)
        if home is None or sector.generation != self.headers[home].generation:
            return False
        return spot.place == home or self.headers[spot.place].kind == Kind.OVERFLOW

    @cached_property
    def live(self) -> Dict[Spot, Sector]:
        """The log sectors that count, in rising order of place and sector."""
        return {spot: sector for spot, sector in self.log_sectors.items()
                if self.is_live(spot, sector)}

    @cached_property
    def logs(self) -> Dict[int, List[Spot]]:
        """The live log sectors of each unit that has some, by rising serial."""
        logs: Dict[int, List[Spot]] = {}
        for spot in sorted(self.live, key=lambda spot: self.live[spot].serial):
            logs.setdefault(self.live[spot].unit, []).append(spot)
        return logs

    @cached_property
    def overflow_places(self) -> List[int]:
        """The overflow places that have live log sectors."""
        places = {spot.place for spot in self.live}
        return sorted(places.difference(self.homes.values()))

    def base_numbers(self, unit: int, page: int) -> range:
        """Which sectors of its place the base sectors of a unit's page are, by the current header."""
        header = self.data_header(unit)
        first = 1 + MOST_PIECES * page
        return range(first, first + (header.base_counts[page] if header else 0))
