"""The ten chips of version 2: the runs that make each, and what it has to hold. What version 1 didn't
have is in them: values of up to 464 bytes, pages that are full, and a chip of both versions."""
from __future__ import annotations

from typing import List

from chips import Chip, Lines, NAMES, Run, deletes, put, torn, whole
from seen import Kind, PAGE_BYTES

SLOTS, PAGES = 64, 15
SHORT, LONGEST = 108, 464


def records() -> Chip:
    """Records of many lengths on every page: some in pages, some in the log, some overwritten."""
    def turn_of(turn: int) -> Lines:
        names = [(turn * 6 + i) * 67 % NAMES for i in range(6)]
        return [put(turn, name, (name + 29 * turn) % 465, turn) for name in names]
    first = [line for turn in range(15) for line in whole(turn, turn_of(turn))]
    first += ["begin 15", *turn_of(15), "abort 15", "merge 0"]
    again = [line for turn in range(3) for line in whole(turn, [
        put(turn, turn * 6 * 67 % NAMES, 150, 20), put(turn, 600 + turn, LONGEST)])]
    batch = ["begin 0", "begin 1", "begin 2", put(0, 3, 255), put(1, 70, 0), put(2, 140, 256),
             put(1, 67, 5, 21), "commit 2 0 1"]
    return Chip(5, [Run(first), Run(again + batch)],
                lambda seen: seen.base[0] >= 30 and len(seen.log) >= 10 and not seen.open)


def deleted() -> Chip:
    """Deletes of short and of long values that a merge has done, deletes in the log, and such as don't
    count; and a long value that became a short one, and the other way round."""
    names = [3 * i for i in range(60)]
    first = [line for i in range(0, 60, 6)
             for line in whole(0, [put(0, name, 30 + 7 * name % 400) for name in names[i:i + 6]])]
    first += whole(1, deletes(1, names[0::3])) + ["merge 0"]
    second = whole(2, deletes(2, names[1::3]))
    second += whole(3, [put(3, 6, LONGEST, 1), put(3, 15, 1, 1), put(3, 13, 200), *deletes(3, [13])])
    second += ["begin 4", *deletes(4, [24, 33]), "abort 4"]
    second += ["begin 5", *deletes(5, names[5::12]), put(5, 2, LONGEST)]
    return Chip(5, [Run(first), Run(second, 2)],
                lambda seen: len(seen.deletes) > 24 and any(r.value is None for r in seen.open))


def in_turn(session: int, unit: int) -> Lines:
    """A session whose records fill eight log sectors of a unit, each long one between short ones, and
    twelve transactions beside it, more than there is room for beside the pages."""
    lines = [f"begin {session}"]
    for i in range(4):
        lines += [put(session, NAMES * unit + 2 * i, SHORT),
                  put(session, NAMES * unit + 2 * i + 1, LONGEST - 30 * i)]
    lines += [put(session, NAMES * unit + 20 + i, SHORT) for i in range(4)]
    for turn in range(12):
        lines += whole(0, [put(0, NAMES * unit + 500 + turn % 5, 8 + 38 * (turn % 2), turn)])
    return lines


def overflow() -> Chip:
    """Live log sectors of two units in one overflow place, and of a third in another: committed
    ones and, of a session that was left open, others; long values are in both."""
    first = whole(0, [put(0, 500, 30), put(0, 10, 10), put(0, NAMES, 11), put(0, 2 * NAMES, 12)])
    first += ["merge 0", "merge 1", "merge 2"]
    first += in_turn(1, 0) + in_turn(2, 1)
    # Each is a log sector of its own, which the unit's log has no room for.
    first += [*[put(2, NAMES + 1, LONGEST, turn) for turn in range(1, 4)], "commit 1"]
    second = [*in_turn(3, 2), put(3, 2 * NAMES + 1, 300, 1), "commit 3"]
    return Chip(7, [Run(first), Run(second)],
                lambda seen: seen.overflow_units() in ([{0, 1}, {2}], [{2}, {0, 1}])
                and seen.has_open_in_overflow() and seen.has_long_in_overflow())


def open_sessions() -> Chip:
    """Records of sessions that were open at the end of two runs, those of the first carried by a
    merge, as are those of a session that was aborted; each has a long value among them."""
    first = whole(9, [put(9, NAMES * unit + 64 * i, 20) for unit in range(2) for i in range(15)])
    first += [f"begin {session}" for session in [*range(8), 10]]
    for i in range(3):
        first += [put(session, NAMES * (session % 2) + 64 * i + session, 30, 1)
                  for session in range(8)]
        first += [put(10, 650, 12 + i), *deletes(0, [64 * 10])]
    first += [put(session, NAMES * (session % 2) + 300 + session, 200 + 30 * session, 1)
              for session in range(8)]
    first += ["merge 0", "abort 10", *whole(11, [put(11, 700, 5), put(11, NAMES + 700, 6)])]
    second = whole(1, [put(1, NAMES + 701, 7)])
    second += ["begin 2", *[put(2, NAMES + 64 * i, LONGEST, 2) for i in range(5)],
               *deletes(2, [NAMES + 700])]
    return Chip(6, [Run(first, 2), Run(second, 2)],
                lambda seen: seen.carried[0] > 0 and len(seen.open) >= 20
                and len({record.transaction for record in seen.open}) >= 6)


def several_units() -> Chip:
    """Five units, sessions that write several of them, 32 that are committed together, and a merge
    of one unit that was cut at its header."""
    first: Lines = []
    for turn in range(10):
        names = [NAMES * unit + (turn * 101 + unit * 7) % NAMES for unit in range(5)]
        first += whole(turn, [put(turn, name, (turn * 13 + name) % 465, turn) for name in names])
    first += ["merge 1", "merge 3"]
    batch = [f"begin {session}" for session in range(32)]
    batch += [put(session, NAMES * (session % 5) + 30 * session,
                  LONGEST - session if session < 5 else session, 1) for session in range(32)]
    batch += ["commit " + " ".join(str(session) for session in range(32))]
    batch += whole(4, deletes(4, [101 + 960 + 7, 202 + 2 * 960 + 14]))
    return Chip(9, [Run(first), Run(batch + ["merge 2"], cut=torn({Kind.DATA: 40}))],
                lambda seen: all(seen.base) and max(seen.numbers()) == 32 and len(seen.torn) == 1
                and {sector.unit for sector in seen.layout.live.values()} == {0, 1, 2, 3, 4})


def full_pages() -> Chip:
    """A unit each page of which is full: seventeen records take its 7,680 bytes. One of them is full
    by its log, since a record that was there was deleted, and others took its room."""
    lines: Lines = []
    for page in range(PAGES):
        # The first name, and the last sixteen.
        names = [SLOTS * page + slot for slot in [0, *range(SLOTS - 16, SLOTS)]]
        for first in range(0, 17, 6):
            lines += whole(0, [put(0, name, 205 if name == names[16] else LONGEST)
                               for name in names[first:first + 6]])
    page = SLOTS * 3
    others = [put(1, page + 1, 200, 1), put(1, page + 2, 261, 1)]
    lines += ["merge 0", *whole(1, deletes(1, [page + 50])), *whole(1, others)]
    return Chip(5, [Run(lines)],
                lambda seen: seen.base == [240] and len(seen.log) == 3
                and seen.fills(0) == [PAGE_BYTES] * PAGES)


def renewed_status() -> Chip:
    """A status place that restarts have renewed, and then commits that found it full."""
    def commits(count: int, turn: int) -> List[Lines]:
        return [whole(0, [put(0, 7 * i % 100, 90 + i % 30, turn)]) for i in range(count)]
    restarts = [line for lines in commits(6, 1) for line in [*lines, "restart"]]
    # With eight log sectors at once the unit is merged a few commits before and behind the 256th,
    # which renews the status place, and so doesn't take the place of before.
    many = whole(0, [put(0, 64 * page + 40, 3) for page in range(8)])
    many += [line for lines in commits(257, 2) for line in lines]
    return Chip(5, [Run(restarts + many)],
                lambda seen: max(seen.numbers()) > 1 and len(seen.numbers()) < 20
                and seen.commits_left_over() >= 255)


def cut() -> Chip:
    """Cut twice: in a commit before its first barrier, so that a log sector of a long value is torn
    and there is no commit sector, and at the commit sector of another."""
    first = [line for turn in range(6) for line in whole(turn, [
        put(turn, 70 * turn, 40 + 80 * turn, turn), put(turn, NAMES + 80 * turn, LONGEST, turn)])]
    in_log = [*whole(0, [put(0, 6, 10)]), *whole(1, [put(1, 6, 20, 1), put(1, 700, LONGEST, 1)])]
    at_commit = [*whole(0, [put(0, NAMES + 6, 11)]),
                 *whole(1, [put(1, NAMES + 6, 250, 1), *deletes(1, [NAMES + 80])])]
    runs = [Run(first), Run(in_log, cut=torn({Kind.LOG: 300, Kind.COMMIT: 0})),
            Run(at_commit, cut=torn({Kind.COMMIT: 100}))]
    return Chip(6, runs, lambda seen: len(seen.torn) == 2 and len(seen.open) == 3)


def page_ends() -> Chip:
    """No bytes at the first name of each page and 464 at the last, in the pages of a unit; and in the
    log of another none at the last and 456 at the first, which fill a log sector to its last byte."""
    def ends(unit: int, first: int, last: int, pages: List[int]) -> Lines:
        return [line for page in pages for line in (
            put(0, NAMES * unit + SLOTS * page, first),
            put(0, NAMES * unit + SLOTS * page + SLOTS - 1, last))]
    lines = [line for page in range(0, PAGES, 3)
             for line in whole(0, ends(0, 0, LONGEST, [page, page + 1, page + 2]))] + ["merge 0"]
    for page in (0, 5, 10):
        lines += whole(0, ends(1, 456, 0, [*range(page, page + 5)]))
    return Chip(6, [Run(lines)], lambda seen: seen.base == [15, 0] and len(seen.log) == 30)


def both_versions() -> Chip:
    """The five units of version 1 as that program left them, of which two are written since: they are
    of version 2, the others of version 1 still, and the status place has the numbers of both."""
    lines = whole(0, [put(0, 33, LONGEST), put(0, 3 * NAMES + 33, 109)])
    lines += whole(1, [put(1, 34, 20, 1), *deletes(1, [3 * NAMES + 90])])
    return Chip(9, [Run(lines)], lambda seen: seen.header_versions() == [2, 1, 1, 2, 1],
                "several_units")


CHIPS = {
    "records": records, "deletes": deleted, "overflow": overflow, "open_sessions": open_sessions,
    "several_units": several_units, "full_pages": full_pages, "renewed_status": renewed_status,
    "cut": cut, "page_ends": page_ends, "both_versions": both_versions}
