"""What commands ask of a chip, by the rules of docs/DESIGN.md, docs/RECOVERY.md and docs/COSTS.md.

A store with no bytes and no values but their lengths: which place, which sector, in which order.
It shares no code with the program, and is written from the documents alone. Its places may wear
out."""
from __future__ import annotations

from typing import Dict, List, Optional, Sequence, Set

from .program import Failed
from .trace import Asked
from .units import (LOG_SECTORS, PAGES, SECTOR_PAYLOAD, SLOTS, Page, Record, Session, Spot, Unit,
                    page_of, size_of)

SECTORS = 256
FIRST_LOG_SECTOR = 241
MOST_CARRIED = 7
MOST_SPOTS, MOST_OVERFLOW_PLACES = 16, 2
NUMBERS_IN_SECTOR = 60
MOST_KEPT = 3840
# Places that are no unit's, and not spare.
RESERVED_PLACES = 4


class WornOut(Exception):
    """One place more is worn than are spare."""


class Rules:
    """A store over a chip just formatted, not opened yet. `lasts` has how often each place is
    erased before it is worn, where any wears out."""

    def __init__(self, places: int, frames: int, spares: int = 0,
                 lasts: Optional[Sequence[int]] = None) -> None:
        self.places, self.frames, self.spares, self.lasts = places, frames, spares, lasts
        self.status, self.next_commit = places - RESERVED_PLACES - spares, SECTORS
        self.units = [Unit(place) for place in range(self.status)]
        self.free = set(range(self.status + 1, places))
        # Those found worn, and of these the ones that the status header lists.
        self.retired: Set[int] = set()
        self.listed: Set[int] = set()
        # How often each place was erased: once, by the format.
        self.erases = [1] * places
        # The next clean sector of each overflow place in use.
        self.overflow: Dict[int, int] = {}
        # The places with an overflow header, in use or left over.
        self.overflow_headers: Set[int] = set()
        self.committed: Set[int] = set()
        self.sessions: Dict[int, Session] = {}
        # The pages in frames, the one used longest ago first, with their records in memory.
        self.pages: Dict[Page, List[Record]] = {}
        self.drawn = 0
        # Whether a mark stands that counts at the next opening.
        self.is_marked = False
        # So many log sectors went to overflow places.
        self.elsewhere = 0
        self.asked = Asked()

    @property
    def active(self) -> Set[int]:
        return {session.number for session in self.sessions.values()}

    def write(self, place: int, *sectors: int) -> None:
        self.asked.writes += [f"{place}.{sector}" for sector in sectors]

    def barrier(self) -> None:
        self.asked.writes.append("b")

    def next_place(self) -> int:
        """The free place that was erased least often, the lowest of these, that isn't worn: others
        are retired."""
        while True:
            place = min(self.free, key=lambda place: (self.erases[place], place))
            self.free.remove(place)
            if self.lasts is None or self.erases[place] < self.lasts[place]:
                return place
            if len(self.retired) == self.spares:
                raise WornOut
            self.retired.add(place)

    def take_place(self) -> int:
        """The next place, which is erased."""
        place = self.next_place()
        self.overflow_headers.discard(place)
        self.erases[place] += 1
        self.asked.writes.append(f"e{place}")
        self.barrier()
        return place

    def seal(self, place: int) -> None:
        self.barrier()
        self.write(place, 0)
        self.barrier()

    def merge(self, unit: Unit) -> None:
        self.asked.reads += unit.log_reads
        self.merge_learnt(unit)

    def merge_learnt(self, unit: Unit) -> None:
        """A merge of a unit whose header and log were read."""
        self.asked.reads += sum(unit.pieces)
        packs = unit.carried(self.active)
        place = self.take_place()
        unit.apply(self.committed)
        for page, count in enumerate(unit.pieces):
            self.write(place, *range(1 + 16 * page, 1 + 16 * page + count))
        self.write(place, *range(FIRST_LOG_SECTOR, FIRST_LOG_SECTOR + len(packs)))
        self.seal(place)
        self.free.add(unit.place)
        unit.place, unit.log, unit.used, unit.spots = place, packs, len(packs), []
        unit.is_known = True
        self.give_overflow_back()

    def give_overflow_back(self) -> None:
        """The overflow places that no unit has a log sector in are free."""
        held = {place for unit in self.units for place, _ in unit.spots}
        for place in set(self.overflow) - held:
            del self.overflow[place]
            self.free.add(place)

    def overflow_spot(self, unit: Unit) -> Optional[Spot]:
        """A sector in an overflow place, where one is to be had."""
        clean = [spot for spot in self.overflow.items() if spot[1] < SECTORS]
        if len(unit.spots) == MOST_SPOTS:
            return None
        if not clean and len(self.overflow) < MOST_OVERFLOW_PLACES:
            place = self.take_place()
            self.seal(place)
            self.overflow_headers.add(place)
            clean = [(place, 1)]
        return min(clean, default=None)

    def merged_spot(self, unit: Unit) -> Spot:
        self.merge_learnt(unit)
        return unit.place, FIRST_LOG_SECTOR + unit.used

    def log_spot(self, unit: Unit) -> Spot:
        """Where a log sector goes."""
        if unit.used < LOG_SECTORS:
            return unit.place, FIRST_LOG_SECTOR + unit.used
        self.asked.reads += unit.log_reads
        if len(unit.carried(self.active)) <= MOST_CARRIED:
            return self.merged_spot(unit)
        return self.overflow_spot(unit) or self.merged_spot(unit)

    def write_out(self, page: Page) -> None:
        """The records that a page has in memory, in a log sector."""
        records, unit = self.pages[page], self.units[page[0]]
        if not records:
            return
        place, sector = self.log_spot(unit)
        self.write(place, sector)
        if place == unit.place:
            unit.used += 1
        else:
            self.elsewhere += 1
            unit.spots.append((place, sector))
            self.overflow[place] = sector + 1
        unit.log.append(records)
        self.pages[page] = []

    def use(self, page: Page) -> None:
        """A page that is in a frame is the one used last."""
        self.pages[page] = self.pages.pop(page)

    def bring(self, page: Page) -> None:
        if page in self.pages:
            self.use(page)
            return
        if len(self.pages) == self.frames:
            first = next(iter(self.pages))
            self.write_out(first)
            del self.pages[first]
        self.asked.reads += self.units[page[0]].page_reads(page[1])
        self.pages[page] = []

    def change(self, session: Session, name: int, length: Optional[int]) -> None:
        page = page_of(name)
        record = Record(page[1], name % SLOTS, session.number, length)
        self.bring(page)
        if size_of(self.pages[page]) + record.size > SECTOR_PAYLOAD:
            self.write_out(page)
        self.pages[page].append(record)
        session.pages.add(page)

    def renew_status(self) -> None:
        self.asked.reads += sum(unit.log_reads for unit in self.units)
        self.switch_status()

    def switch_status(self) -> None:
        """A new status place, where the log records that are live were read."""
        live = {record.number for unit in self.units for record in unit.records}
        kept = live & self.committed
        if len(kept) > MOST_KEPT:
            raise Failed("units would be merged, which these rules don't have")
        parts = -(-len(kept) // NUMBERS_IN_SECTOR)
        place = self.take_place()
        self.write(place, *range(1, 1 + parts))
        self.seal(place)
        self.free.add(self.status)
        self.status, self.next_commit, self.committed = place, 1 + parts, kept
        self.listed = set(self.retired)

    def ready_status(self) -> None:
        """The status place gets a clean sector, if it has none."""
        if self.next_commit == SECTORS:
            self.renew_status()

    def end_mark(self) -> None:
        """Without a mark nothing of before is known to be clean. With one the units that it has are
        known as before, and if it has any a barrier comes first; a new status place ends it."""
        if not self.is_marked:
            for unit in self.units:
                unit.forget()
        elif any(unit.is_known for unit in self.units):
            self.barrier()
        self.is_marked = False

    def open(self) -> None:
        """An opening, or a restart, for which no mark stands. How often each place was erased is
        found again, since each that was taken got a header. A place that was retired and isn't
        listed is free."""
        self.sessions, self.pages = {}, {}
        self.free |= self.retired - self.listed
        self.retired = set(self.listed)
        self.overflow = dict.fromkeys(self.overflow, SECTORS)
        whole = 1 + len(self.overflow_headers)
        self.asked.reads += self.places + 255 * whole + LOG_SECTORS * len(self.units)
        self.end_mark()
        self.switch_status()

    def close(self) -> None:
        """A clean close: open sessions are aborted, and a mark says which units are known."""
        for number in list(self.sessions):
            self.abort(number)
        self.ready_status()
        self.barrier()
        self.write(self.status, self.next_commit)
        self.barrier()
        self.next_commit += 1
        self.is_marked = True

    def commit(self, number: int) -> None:
        session = self.sessions[number]
        if session.pages:
            self.ready_status()
            for page in sorted(session.pages & set(self.pages)):
                self.write_out(page)
            self.barrier()
            self.write(self.status, self.next_commit)
            self.barrier()
            self.next_commit += 1
            self.committed.add(session.number)
        del self.sessions[number]

    def abort(self, number: int) -> None:
        dropped = self.sessions.pop(number).number
        for page, records in self.pages.items():
            self.pages[page] = [record for record in records if record.number != dropped]

    def begin(self, number: int) -> None:
        self.drawn += 1
        self.sessions[number] = Session(self.drawn)

    def put(self, number: int, name: int, value: str) -> None:
        self.change(self.sessions[number], name, 0 if value == "-" else len(value) // 2)

    def work(self, line: str) -> None:
        """Does what a line asks that isn't refused."""
        word, *rest = line.split(" ")
        if word == "put":
            self.put(int(rest[0]), int(rest[1]), rest[2])
            return
        numbers = [int(number) for number in rest]
        if word == "del":
            self.change(self.sessions[numbers[0]], numbers[1], None)
        elif word in ("get", "share"):
            self.bring(page_of(numbers[1]))
        elif word == "list":
            for page in range(numbers[0] // SLOTS, numbers[1] // SLOTS + 1):
                self.bring((page // PAGES, page % PAGES))
        elif word == "merge":
            self.merge(self.units[numbers[0]])
        else:
            {"begin": self.begin, "commit": self.commit, "abort": self.abort,
             "restart": self.open}[word](*numbers)

    def asked_by(self, line: str) -> Asked:
        """What a line asks that isn't refused; `open` is the opening, and `close` the close."""
        self.asked = Asked()
        if line == "open":
            self.open()
        elif line == "close":
            self.close()
        else:
            self.work(line)
        return self.asked
