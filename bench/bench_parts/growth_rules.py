"""What commands ask of a chip of many places, by the rules: renewals of the status place that merge
units, and batches, which the rules of rules.py don't have."""
from __future__ import annotations

from typing import Iterable, List, Set

from .rules import MOST_KEPT, Rules
from .units import LOG_SECTORS, Unit


class GrowingRules(Rules):
    """The rules, where live log sectors may have more committed numbers than fit."""

    def __init__(self, places: int, frames: int) -> None:
        super().__init__(places, frames)
        # So many units were merged since their numbers didn't fit.
        self.merged = 0
        # The most numbers that a new status place was to keep.
        self.most_live = 0

    def numbers_in(self, units: Iterable[Unit]) -> Set[int]:
        """The committed numbers that live log sectors have."""
        live = {record.number for unit in units for sector in unit.log for record in sector}
        return live & self.committed

    def pass_units(self) -> None:
        """Reads each unit's log, in rising order, and merges those whose numbers don't fit."""
        kept: Set[int] = set()
        for unit in self.units:
            self.asked.reads += unit.log_reads
            more = self.numbers_in([unit]) - kept
            if len(kept) + len(more) <= MOST_KEPT:
                kept |= more
            else:
                self.merge(unit)
                self.merged += 1

    def renew_status(self) -> None:
        self.most_live = max(self.most_live, len(self.numbers_in(self.units)))
        self.pass_units()
        super().switch_status()

    def switch_status(self) -> None:
        """An opening found the numbers on the way, and passes the units where they don't fit."""
        if len(self.numbers_in(self.units)) > MOST_KEPT:
            self.pass_opened_units()
        super().switch_status()

    def pass_opened_units(self) -> None:
        """Whatever a mark says, an opening reads all log sectors beside the pages."""
        known = [(unit, unit.place, unit.used) for unit in self.units]
        for unit in self.units:
            unit.used = LOG_SECTORS
        self.pass_units()
        for unit, place, used in known:
            # A unit that was merged has another place.
            if unit.place == place:
                unit.used = used

    def give_overflow_back(self) -> None:
        if self.overflow:
            super().give_overflow_back()

    def commit(self, number: int, *others: int) -> None:
        """Of several sessions it is a batch, with one commit sector, which writes a page once."""
        if others:
            self.commit_batch([number, *others])
        else:
            super().commit(number)

    def commit_batch(self, numbers: List[int]) -> None:
        sessions = [self.sessions[number] for number in numbers]
        pages = {page for session in sessions for page in session.pages}
        if pages:
            self.ready_status()
            for page in sorted(pages & set(self.pages)):
                self.write_out(page)
            self.barrier()
            self.write(self.status, self.next_commit)
            self.barrier()
            self.next_commit += 1
            self.committed |= {session.number for session in sessions if session.pages}
        for number in numbers:
            del self.sessions[number]
