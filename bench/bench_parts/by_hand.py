"""Longer scripts whose operations are worked out by hand, on a chip of five places.

The format erases each place once, and puts unit 0 at place 0 and the status at place 1; the opening
moves the status to place 2. Of the free places that one is taken that was erased least often, the
lowest of these."""
from __future__ import annotations

from typing import List, NamedTuple


class Known(NamedTuple):
    """A line of a script, and what it asks of the chip: reads, and the writes in their order."""
    line: str
    reads: int
    writes: str


FORMAT = Known("format", 0, "e0 e1 e2 e3 e4 b 0.0 1.0 b")
# Five headers, 255 sectors of the status place, 15 log sectors.
OPEN = Known("open", 5 + 255 + 15, "e2 b b 2.0 b")
# The unit's header: the page has no base sectors, and no log sector names it.
FIRST_PUT_READS = 1
# The header and the 15 log sectors, to count what is carried. The merge takes what was counted.
FIRST_LOG_READS = 1 + 15


def transaction(name: int, put_reads: int, commit_reads: int, writes: str) -> List[Known]:
    """A transaction of session 0 that puts a byte at a name."""
    return [Known("begin 0", 0, ""), Known(f"put 0 {name} 61", put_reads, ""),
            Known("commit 0", commit_reads, writes)]


def place_of_merge(number: int) -> int:
    """Where the merges of a unit put it, in their order from 0, while the status stays at place 2.

    The first two find the places below 2 erased once, as 3 and 4 are, which come next. Then these
    four were erased twice, and from there on they take turns."""
    return (1, 0, 3, 4)[number] if number < 4 else (0, 1, 3, 4)[number % 4]


def full_status_place() -> List[Known]:
    """257 transactions of one put: the 256th finds the status place full.

    Each takes a log sector of the unit, and 15 fill a place. So the first merges the unit, and then
    each fifteenth, with the one base sector from the second merge on, which is read from the third
    on. The 256th is the first after 17 full logs. Place 0 was erased six times then, and has the
    unit; the places 1, 3 and 4 were five times, and place 2 twice. Before its log sector the status
    moves to place 1, with the 15 numbers that the log has in one sector, for which the header and 15
    log sectors are read; then place 2 is free, and the unit is merged to it."""
    known = [FORMAT, OPEN]
    for turn in range(1, 256):
        logs_before, used = divmod(turn - 1, 15)
        place = place_of_merge(logs_before)
        commit = f"b 2.{turn} b"
        if turn == 1:
            merge = "e1 b b 1.0 b 1.241"
            known += transaction(5, FIRST_PUT_READS, FIRST_LOG_READS, f"{merge} {commit}")
        elif used > 0:
            known += transaction(5, 0, 0, f"{place}.{241 + used} {commit}")
        else:
            merge = f"e{place} b {place}.1 b {place}.0 b {place}.241"
            base_reads = 0 if turn == 16 else 1
            known += transaction(5, 0, FIRST_LOG_READS + base_reads, f"{merge} {commit}")
    switch, merge = "e1 b 1.1 b 1.0 b", "e2 b 2.1 b 2.0 b 2.241"
    known += transaction(5, 0, 16 + FIRST_LOG_READS + 1, f"{switch} {merge} b 1.2 b")
    known += transaction(5, 0, 0, "2.242 b 1.3 b")
    return known


def full_overflow() -> List[Known]:
    """A session that keeps eight log sectors of records open, until a unit has 16 elsewhere.

    36 records of 120 bytes fill eight log sectors, with four records left in memory. The first of
    these sectors, at the fifth put, merges the unit to place 1. Seven transactions of session 0
    fill its log, and the next 16 the sectors 1 to 16 of an overflow place, place 0. Then the unit
    has 16, and is merged all the same, to place 3: a base sector for name 64, which is on page 1,
    and the eight sectors carried in 241 to 248. Once the session has aborted nothing is carried, and
    the unit is merged to place 4, the only one that was erased no more than once."""
    known = [FORMAT, OPEN, Known("begin 1", 0, "")]
    for name in range(36):
        line = f"put 1 {name} " + "61" * 108
        if name == 0:
            known.append(Known(line, FIRST_PUT_READS, ""))
        elif name == 4:
            known.append(Known(line, FIRST_LOG_READS, "e1 b b 1.0 b 1.241"))
        elif name % 4 == 0:
            known.append(Known(line, 0, f"1.{240 + name // 4}"))
        else:
            known.append(Known(line, 0, ""))
    # Page 1 comes into a frame: the header. The eight log sectors name page 0 alone.
    known += transaction(64, 1, 0, "1.249 b 2.1 b")
    for turn in range(2, 8):
        known += transaction(64, 0, 0, f"1.{248 + turn} b 2.{turn} b")
    known += transaction(64, 0, 16, "e0 b b 0.0 b 0.1 b 2.8 b")
    for turn in range(9, 24):
        known += transaction(64, 0, 16 + turn - 8, f"0.{turn - 7} b 2.{turn} b")
    carried = " ".join(f"3.{sector}" for sector in range(241, 249))
    known += transaction(64, 0, 32, f"e3 b 3.17 {carried} b 3.0 b 3.249 b 2.24 b")
    known.append(Known("abort 1", 0, ""))
    for turn in range(25, 31):
        known += transaction(64, 0, 0, f"3.{225 + turn} b 2.{turn} b")
    known += transaction(64, 0, FIRST_LOG_READS + 1, "e4 b 4.17 b 4.0 b 4.241 b 2.31 b")
    return known
