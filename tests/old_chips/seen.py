"""What stands on a chip, by the reader of tools/chip_map."""
from __future__ import annotations

import os
import sys
from typing import List, Set

TOOLS = os.path.join(os.path.dirname(os.path.realpath(__file__)), "..", "..", "tools")
sys.path.insert(0, TOOLS)

from chip_reader.layout import Layout, Spot
from chip_reader.sectors import (Bad, Kind, LogRecord, MOST_TEXT_BYTES as PAGE_BYTES, PAGES,
                                 PLACE_BYTES, SECTOR_BYTES, Sector, log_records, read_chart,
                                 text_size, transaction_numbers)
from chip_reader.values import page_values, unit_log

SHORT = 108


def layout_of(path: str) -> Layout:
    with open(path, "rb") as file:
        return Layout(read_chart(file))


def youngest(layout: Layout, kind: Kind) -> Spot:
    """The sector of this kind that was written last."""
    return max((sector.serial, Spot(place, number))
               for place, sectors in enumerate(layout.chart)
               for number, sector in enumerate(sectors)
               if isinstance(sector, Sector) and sector.kind == kind)[1]


class Seen:
    """What a chip holds, counted."""

    def __init__(self, layout: Layout) -> None:
        self.layout = layout
        self.log = [record for unit in range(layout.units) for record in unit_log(layout, unit)]
        self.open = [record for record in self.log if record.transaction not in layout.committed]
        self.deletes = [record for record in self.log if record.value is None]
        self.headers = [layout.data_header(unit) for unit in range(layout.units)]
        self.base = [sum(header.base_counts) for header in self.headers]
        self.carried = [header.carried for header in self.headers]
        self.torn = [Spot(place, number) for place, sectors in enumerate(layout.chart)
                     for number, sector in enumerate(sectors) if isinstance(sector, Bad)]

    def overflow_units(self) -> List[Set[int]]:
        """For each overflow place with live log sectors, the units that have some there."""
        live = self.layout.live.items()
        return [{sector.unit for spot, sector in live if spot.place == place}
                for place in self.layout.overflow_places]

    def in_overflow(self) -> List[LogRecord]:
        """The live records that stand in an overflow place."""
        sectors = (sector for spot, sector in self.layout.live.items()
                   if spot.place in self.layout.overflow_places)
        return [record for sector in sectors for record in log_records(sector)]

    def has_open_in_overflow(self) -> bool:
        """Whether one of these isn't committed."""
        return any(record.transaction not in self.layout.committed for record in self.in_overflow())

    def has_long_in_overflow(self) -> bool:
        """Whether one of these has a value that version 1 didn't have."""
        return any(len(record.value or b"") > SHORT for record in self.in_overflow())

    def fills(self, unit: int) -> List[int]:
        """How many bytes the values of each page of a unit take, its log applied."""
        return [text_size(page_values(self.layout, unit, page)) for page in range(PAGES)]

    def header_versions(self) -> List[int]:
        """The version of the current header of each unit."""
        return [self.layout.home_header(unit).version for unit in range(self.layout.units)]

    def versions(self) -> Set[int]:
        """The versions of all sectors that check."""
        return {sector.version for sectors in self.layout.chart for sector in sectors
                if isinstance(sector, Sector)}

    def numbers(self) -> List[int]:
        """For each commit sector of the status place, how many numbers it has."""
        return [len(transaction_numbers(sector.payload)) for sector in self.layout.commits.values()]

    def commits_left_over(self) -> int:
        """How many commit sectors stand in another place than the status place."""
        return sum(isinstance(sector, Sector) and sector.kind == Kind.COMMIT
                   for place, sectors in enumerate(self.layout.chart)
                   if place != self.layout.status for sector in sectors)

    def __str__(self) -> str:
        return (f"{self.layout.units} units, {sum(self.base)} base sectors; "
                f"{len(self.layout.live)} live log sectors ({sum(self.carried)} carried) with "
                f"{len(self.log)} records, {len(self.deletes)} of them deletes and "
                f"{len(self.open)} not committed; overflow places of units "
                f"{self.overflow_units()}; {len(self.numbers())} commit sectors with up to "
                f"{max(self.numbers(), default=0)} numbers, {self.commits_left_over()} elsewhere; "
                f"torn {[str(spot) for spot in self.torn]}")
