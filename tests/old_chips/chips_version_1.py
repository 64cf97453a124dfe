"""The ten chips of version 1: the runs that make each, and what it has to hold."""
from __future__ import annotations

from typing import List

from chips import Chip, Lines, NAMES, Run, deletes, put, torn, whole
from seen import Kind


def records() -> Chip:
    """Records of many lengths on every page: some in pages, some in the log, some overwritten."""
    def turn_of(turn: int) -> Lines:
        names = [(turn * 8 + i) * 67 % NAMES for i in range(8)]
        return [put(turn, name, (name + 7 * turn) % 109, turn) for name in names]
    first = [line for turn in range(12) for line in whole(turn, turn_of(turn))]
    first += ["begin 12", *turn_of(12), "abort 12", "merge 0"]
    again = [line for turn in range(3) for line in whole(turn, [
        put(turn, turn * 8 * 67 % NAMES, 50, 20), put(turn, 600 + turn, 108)])]
    batch = ["begin 0", "begin 1", "begin 2", put(0, 3, 40), put(1, 70, 0), put(2, 140, 108),
             put(1, 67, 5, 21), "commit 2 0 1"]
    return Chip(5, [Run(first), Run(again + batch)],
                lambda seen: seen.base[0] >= 15 and len(seen.log) >= 10 and not seen.open)


def deleted() -> Chip:
    """Deletes that a merge has done, deletes in the log, and such as don't count."""
    names = [3 * i for i in range(128)]
    first = [line for i in range(0, 128, 32)
             for line in whole(0, [put(0, name, 30) for name in names[i:i + 32]])]
    first += whole(1, deletes(1, names[0::3])) + ["merge 0"]
    second = whole(2, deletes(2, names[1::3]))
    second += whole(3, [*deletes(3, [5, 12]), put(3, 12, 20, 1), put(3, 13, 9), *deletes(3, [13])])
    second += ["begin 4", *deletes(4, [15, 24]), "abort 4"]
    second += ["begin 5", *deletes(5, names[2::12]), put(5, 2, 60)]
    return Chip(5, [Run(first), Run(second, 2)],
                lambda seen: len(seen.deletes) > 40 and any(r.value is None for r in seen.open))


def long_open(session: int, unit: int) -> Lines:
    """A session whose records fill ten log sectors of a unit, and twelve transactions beside it,
    more than there is room for beside the pages."""
    lines = [f"begin {session}"]
    lines += [put(session, NAMES * unit + 3 * i, 108) for i in range(40)]
    for turn in range(12):
        lines += whole(0, [put(0, NAMES * unit + 500 + turn % 5, 8, turn)])
    return lines


def overflow() -> Chip:
    """Live log sectors of two units in one overflow place, and of a third in another: committed
    ones and, of a session that was left open, others."""
    first = whole(0, [put(0, 500, 30), put(0, 0, 10), put(0, NAMES, 11), put(0, 2 * NAMES, 12)])
    first += ["merge 0", "merge 1", "merge 2"]
    first += long_open(1, 0) + long_open(2, 1)
    # These don't fit the log sector of their page in memory, and the unit's log is full.
    first += [*[put(2, NAMES + 120 + i, 108) for i in range(3)], "commit 1"]
    second = [*long_open(3, 2), "commit 3"]
    return Chip(7, [Run(first), Run(second)],
                lambda seen: seen.overflow_units() in ([{0, 1}, {2}], [{2}, {0, 1}])
                and seen.has_open_in_overflow())


def open_sessions() -> Chip:
    """Records of sessions that were open at the end of two runs, those of the first carried by a
    merge, as are those of a session that was aborted."""
    first = whole(9, [put(9, NAMES * unit + 64 * i, 20) for unit in range(2) for i in range(15)])
    first += [f"begin {session}" for session in [*range(8), 10]]
    for i in range(5):
        first += [put(session, NAMES * (session % 2) + 64 * i + session, 30, 1)
                  for session in range(8)]
        first += [put(10, 650 + i, 12), *deletes(0, [64 * (10 + i)])]
    first += ["merge 0", "abort 10", *whole(11, [put(11, 700, 5), put(11, NAMES + 700, 6)])]
    second = whole(1, [put(1, NAMES + 701, 7)])
    second += ["begin 2", *[put(2, NAMES + 64 * i, 108, 2) for i in range(15)],
               *deletes(2, [NAMES + 700])]
    return Chip(6, [Run(first, 2), Run(second, 2)],
                lambda seen: seen.carried[0] > 0 and len(seen.open) >= 30
                and len({record.transaction for record in seen.open}) >= 6)


def several_units() -> Chip:
    """Five units, sessions that write several of them, 32 that are committed together, and a merge
    of one unit that was cut at its header."""
    first: Lines = []
    for turn in range(10):
        names = [NAMES * unit + (turn * 101 + unit * 7) % NAMES for unit in range(5)]
        first += whole(turn, [put(turn, name, (turn * 13 + name) % 109, turn) for name in names])
    first += ["merge 1", "merge 3"]
    batch = [f"begin {session}" for session in range(32)]
    batch += [put(session, NAMES * (session % 5) + 30 * session, session, 1)
              for session in range(32)]
    batch += ["commit " + " ".join(str(session) for session in range(32))]
    batch += whole(4, deletes(4, [101 + 960 + 7, 202 + 2 * 960 + 14]))
    return Chip(9, [Run(first), Run(batch + ["merge 2"], cut=torn({Kind.DATA: 40}))],
                lambda seen: all(seen.base) and max(seen.numbers()) == 32 and len(seen.torn) == 1
                and {sector.unit for sector in seen.layout.live.values()} == {0, 1, 2, 3, 4})


def full_unit() -> Chip:
    """All 960 names, with values of 108 bytes."""
    lines = [line for first in range(0, NAMES, 48)
             for line in whole(0, [put(0, name, 108) for name in range(first, first + 48)])]
    return Chip(5, [Run(lines + ["merge 0"])], lambda seen: seen.base == [15 * 15])


def renewed_status() -> Chip:
    """A status place that restarts have renewed, and then commits that found it full."""
    def commits(count: int, turn: int) -> List[Lines]:
        return [whole(0, [put(0, 7 * i % 100, i % 30, turn)]) for i in range(count)]
    restarts = [line for lines in commits(6, 1) for line in [*lines, "restart"]]
    # With eight log sectors at once the unit is merged a few commits before and behind the 256th,
    # which renews the status place, and so doesn't take the place of before.
    many = whole(0, [put(0, 64 * page + 40, 3) for page in range(8)])
    many += [line for lines in commits(257, 2) for line in lines]
    return Chip(5, [Run(restarts + many)],
                lambda seen: max(seen.numbers()) > 1 and len(seen.numbers()) < 20
                and seen.commits_left_over() >= 255)


def cut() -> Chip:
    """Cut twice: in a commit before its first barrier, so that a log sector is torn and there is
    no commit sector, and at the commit sector of another."""
    first = [line for turn in range(6) for line in whole(turn, [
        put(turn, 70 * turn, 40, turn), put(turn, NAMES + 80 * turn, 60, turn)])]
    in_log = [*whole(0, [put(0, 6, 10)]), *whole(1, [put(1, 6, 20, 1), put(1, 700, 108, 1)])]
    at_commit = [*whole(0, [put(0, NAMES + 6, 11)]),
                 *whole(1, [put(1, NAMES + 6, 21, 1), *deletes(1, [NAMES + 80])])]
    runs = [Run(first), Run(in_log, cut=torn({Kind.LOG: 300, Kind.COMMIT: 0})),
            Run(at_commit, cut=torn({Kind.COMMIT: 100}))]
    return Chip(6, runs, lambda seen: len(seen.torn) == 2 and len(seen.open) == 3)


def page_ends() -> Chip:
    """No bytes at the first name of each page and 108 at the last, or the other way round: in the
    pages of one unit, and in the log of the other."""
    def ends(unit: int, first: int, last: int) -> Lines:
        pages = [NAMES * unit + 64 * page for page in range(15)]
        return [line for page in pages for line in (put(0, page, first), put(0, page + 63, last))]
    lines = whole(0, ends(0, 0, 108)) + ["merge 0"] + whole(0, ends(1, 108, 0))
    return Chip(6, [Run(lines)], lambda seen: seen.base == [15, 0] and len(seen.log) == 30)


def many_places() -> Chip:
    """57 places, with records in each of the 53 units."""
    lines: Lines = []
    for unit in range(53):
        names = [NAMES * unit + (unit + 320 * i) % NAMES for i in range(3)]
        lines += whole(unit % 32, [put(unit % 32, name, unit + 5 * i)
                                   for i, name in enumerate(names)])
    lines += [f"merge {unit}" for unit in range(0, 53, 4)]
    return Chip(57, [Run(lines)], lambda seen: seen.layout.units == 53 and sum(seen.base) > 20)


CHIPS = {
    "records": records, "deletes": deleted, "overflow": overflow, "open_sessions": open_sessions,
    "several_units": several_units, "full_unit": full_unit, "renewed_status": renewed_status,
    "cut": cut, "page_ends": page_ends, "many_places": many_places}
