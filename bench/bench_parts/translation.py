"""A page-mapped translation layer, simulated: what it asks of a chip to keep sectors that are
written over and over, where a place is erased whole and a sector is programmed once between erases.

A sector that is written goes to the next clean sector of the place that is open, and what stood
for it before counts no more. Where the open place is full the free place that was erased least
often is opened, the lowest on a tie, and is erased then. One more is kept free: where none would
be, a place is collected, the one with the fewest sectors that count, and of these the one erased
least often. What counts there is moved to a place that is open for moves alone.

The map from sectors to where they stand is in memory, and it costs nothing to keep it over a power
cut. Four places hold no data, as on a chip of ipl with none to spare."""
from __future__ import annotations

from typing import Dict, Hashable, List, Optional, Tuple

from .rules import RESERVED_PLACES, SECTORS


class IsFull(Exception):
    """There is no room for one sector more."""


class Layer:
    def __init__(self, places: int, sectors: int = SECTORS,
                 reserved: int = RESERVED_PLACES) -> None:
        self.sectors, self.room = sectors, (places - reserved) * sectors
        self.where: Dict[Hashable, Tuple[int, int]] = {}
        # What each place holds, and how many of these sectors count.
        self.held: List[List[Optional[Hashable]]] = [[] for _ in range(places)]
        self.counting = [0] * places
        self.erases = [0] * places
        self.free = set(range(places))
        self.open, self.open_for_moves = self.take(), self.take()
        self.programs = self.moves = 0

    def take(self) -> int:
        """The free place that was erased least often, which is erased."""
        place = min(self.free, key=lambda place: (self.erases[place], place))
        self.free.remove(place)
        self.held[place] = []
        self.erases[place] += 1
        return place

    def is_filled(self, place: int) -> bool:
        return len(self.held[place]) == self.sectors

    def write(self, sector: Hashable) -> None:
        """Writes a sector, for the first time or over what stood for it."""
        if sector not in self.where and len(self.where) == self.room:
            raise IsFull
        if self.is_filled(self.open):
            while len(self.free) < 2:
                self.collect()
            self.open = self.take()
        self.program(sector, self.open)

    def give_up(self, sector: Hashable) -> None:
        """The sector isn't wanted any more."""
        self.uncount(*self.where.pop(sector))

    def uncount(self, place: int, index: int) -> None:
        self.held[place][index] = None
        self.counting[place] -= 1

    def program(self, sector: Hashable, place: int) -> None:
        """Programs the next sector of a place. What stood for it before counts until then."""
        if sector in self.where:
            self.uncount(*self.where[sector])
        self.where[sector] = (place, len(self.held[place]))
        self.held[place].append(sector)
        self.counting[place] += 1
        self.programs += 1

    def collect(self) -> None:
        """Frees the place with the fewest sectors that count. As some places hold no data, it has
        one at least that doesn't count."""
        taken = set(range(len(self.held))) - self.free - {self.open, self.open_for_moves}
        place = min(taken, key=lambda place: (self.counting[place], self.erases[place], place))
        for sector in [sector for sector in self.held[place] if sector is not None]:
            if self.is_filled(self.open_for_moves):
                self.open_for_moves = self.take()
            self.program(sector, self.open_for_moves)
            self.moves += 1
        self.free.add(place)


# Of six places of two sectors, three of which hold no data: what is written, or given up where a
# minus stands before it, and then the erases of each place, the programs and the moves, by hand.
# Place 1 is open for moves from the start.
KNOWN = [
    # Places 0, 2 and 3 fill with what counts; 4 and 5 are free.
    ("a b c d e f", [1, 1, 1, 1, 0, 0], 6, 0),
    # Place 4 is opened; places 0 and 2 have one sector each that counts.
    ("a c", [1, 1, 1, 1, 1, 0], 8, 0),
    # Place 5 alone is free, so place 0 is collected: b is moved to place 1. Then place 5 is opened,
    # which was erased less.
    ("d", [1, 1, 1, 1, 1, 1], 10, 1),
    # f finds place 5 full: place 2 has nothing that counts and is collected, and place 0 opened.
    ("e f", [2, 1, 1, 1, 1, 1], 12, 1),
    # b finds place 0 full: places 3 and 4 have nothing that counts, 3 is collected and 2 opened.
    ("a -c b", [2, 1, 2, 1, 1, 1], 14, 1),
    # d has place 4 collected and place 3 opened. The second a has place 5 collected, which was
    # erased less than place 0 with as many: e is moved to place 1, which is full then. Place 4 is
    # opened.
    ("g d a a", [2, 1, 2, 2, 2, 1], 19, 2),
    # b has place 0 collected, and place 5 opened, which was erased less.
    ("f b", [2, 1, 2, 2, 2, 2], 21, 2),
    # The second b has place 2 collected: place 0 is opened for moves, and g is moved there. Only
    # place 2 is free, so place 1 is collected too, and e is moved behind g. Then place 1 is opened.
    ("b b", [3, 2, 2, 2, 2, 2], 25, 4),
]


def is_as_known() -> bool:
    """Compares a layer with what is worked out by hand."""
    layer = Layer(6, 2, 3)
    for words, *known in KNOWN:
        for word in words.split():
            if word.startswith("-"):
                layer.give_up(word[1:])
            else:
                layer.write(word)
        found = [layer.erases, layer.programs, layer.moves]
        if found != known:
            print(f"comparison: behind {words}: {found} and not {known}")
            return False
    try:
        layer.write("h")
    except IsFull:
        print("the translation layer takes, moves and erases as by hand")
        return True
    print("comparison: a layer took a sector more than it has room for")
    return False
