"""Scripts of many lines for `serial`, and the view of a script as a model in Python has it, which
shares no code with the program."""
from __future__ import annotations

from collections import Counter
from typing import Callable, Dict, Iterator, List, Set

from .workloads import MOST_PENDING, SLOTS, UNIT_NAMES, value_of

SESSIONS, MOST_NAMES, LONGEST = 32, 256, 464
# What a record takes in its page besides its value, what a page has room for, and what a name weighs
# on which a value of more than 108 bytes is pending.
RECORD_HEAD, PAGE_BYTES, SHORT, LONG_WEIGHT = 3, 7680, 108, 8

# Units enough for 256 names of each session with 48 of a unit.
PLACES = 4 + -(-SESSIONS * MOST_NAMES // MOST_PENDING)

Script = Iterator[str]


def name_at(number: int) -> int:
    """The names of all units in turn, 48 of each."""
    return UNIT_NAMES * (number // MOST_PENDING) + number % MOST_PENDING


def shared_at(number: int) -> int:
    """As many names that none of those is."""
    return name_at(number) + UNIT_NAMES // 2


def one_session(count: int) -> Script:
    """A session that puts 256 names in turn, and after each a name more, which is refused."""
    yield "begin 0"
    for turn in range((count - 2) // 2):
        yield f"put 0 {name_at(turn % MOST_NAMES)} aa"
        # Until it wrote 256 there is room for more.
        other = name_at(MOST_NAMES + turn % MOST_NAMES)
        yield f"put 0 {other} aa" if turn >= MOST_NAMES else "get 0 0"
    yield "commit 0"


def full_sessions(sessions: int) -> Script:
    """Sessions that each wrote and share 256 names."""
    for s in range(sessions):
        yield f"begin {s}"
        for number in range(MOST_NAMES * s, MOST_NAMES * (s + 1)):
            yield f"put {s} {name_at(number)} aa"
            yield f"share {s} {shared_at(number)}"


def commits(sessions: int) -> Script:
    return (f"commit {s}" for s in range(sessions))


def all_sessions(count: int) -> Script:
    """All sessions write and share 256 names, and then put these and others, which are refused."""
    yield from full_sessions(SESSIONS)
    for turn in range(count - SESSIONS * (2 * MOST_NAMES + 2)):
        s = turn % SESSIONS
        number = MOST_NAMES * s + MOST_NAMES - 1
        yield f"put {s} {name_at(number)} aa" if turn % 3 else f"put {s} {UNIT_NAMES - 1} aa"
    yield from commits(SESSIONS)


def full_unit(count: int) -> Script:
    """31 sessions write and share 256 names, and the last puts names of a unit that has 48."""
    yield from full_sessions(SESSIONS - 1)
    yield f"begin {SESSIONS - 1}"
    for turn in range(count - (SESSIONS - 1) * (2 * MOST_NAMES + 2) - 2):
        yield f"put {SESSIONS - 1} {100 + turn % 100} aa"
    yield from commits(SESSIONS)


def short_transactions(count: int) -> Script:
    """Transactions of one put, by all sessions in turn."""
    for turn in range(count // 3):
        s = turn % SESSIONS
        yield from (f"begin {s}", f"put {s} {turn % UNIT_NAMES} aa", f"commit {s}")


def long_transactions(count: int) -> Script:
    """All sessions from the first line to the last, in turn."""
    yield from (f"begin {s}" for s in range(SESSIONS))
    for turn in range(count - 2 * SESSIONS):
        yield f"get {turn % SESSIONS} {turn % UNIT_NAMES}"
    yield from commits(SESSIONS)


def long_values(count: int) -> Script:
    """Puts of 464 bytes to six names, and as many of 465, which are refused."""
    yield "begin 0"
    for turn in range(count - 2):
        yield f"put 0 {name_at(turn // 2 % 6)} {value_of(turn, LONGEST + turn % 2)}"
    yield "commit 0"


def full_pages(count: int) -> Script:
    """Transactions of six puts of 464 bytes, over a page and another unit's, which fill both; from then
    on the puts at names without a record are refused."""
    for turn in range(count // 8):
        names = [turn * 6 % SLOTS + i for i in range(6)]
        unit = UNIT_NAMES * (turn % 2)
        yield "begin 0"
        yield from (f"put 0 {unit + name % SLOTS} {value_of(turn, LONGEST)}" for name in names)
        yield "commit 0"


def aborted(count: int) -> Script:
    """A transaction that is begun and aborted, and a restart now and then."""
    for turn in range(count // 4):
        s = turn % SESSIONS
        end = "restart" if turn % 10 == 0 else f"abort {s}"
        yield from (f"begin {s}", f"put {s} {turn % UNIT_NAMES} aa", end, f"commit {s}")


SCRIPTS: Dict[str, Callable[[int], Script]] = {
    "one session, half of its puts refused": one_session,
    "32 sessions with 256 names written and 256 shared": all_sessions,
    "31 such sessions, and puts to a full unit": full_unit,
    "transactions of one put": short_transactions,
    "32 transactions of all lines": long_transactions,
    "puts of 464 bytes, and of 465": long_values,
    "transactions of puts of 464 bytes to full pages": full_pages,
    "transactions that are aborted": aborted,
}


class Session:
    def __init__(self, position: int) -> None:
        self.turns = [position]
        # Of each name written the sizes of the last value and of the longest, in a page.
        self.last: Dict[int, int] = {}
        self.longest: Dict[int, int] = {}
        self.shared: Set[int] = set()


def weight_of(size: int) -> int:
    """What a name weighs whose longest value takes so much in its page, less than nothing where none
    is pending."""
    if size < 0:
        return 0
    return LONG_WEIGHT if size > RECORD_HEAD + SHORT else 1


class View:
    """The serial view of the lines so far, on a chip of so many places."""

    def __init__(self, places: int) -> None:
        self.names = UNIT_NAMES * (places - 4)
        self.open: Dict[int, Session] = {}
        # Who wrote each name and who shares it, and what the pending names of each unit weigh.
        self.writers: Dict[int, int] = {}
        self.sharers: Dict[int, Set[int]] = {}
        self.pending: Counter[int] = Counter()
        # What each record takes in its page, and what each page may come to take.
        self.sizes: Dict[int, int] = {}
        self.fills: Counter[int] = Counter()
        self.positions: List[int] = []

    def share(self, s: int, name: int) -> bool:
        shared = self.open[s].shared
        if self.writers.get(name, s) != s:
            return False
        if name in shared or name in self.open[s].longest:
            return True
        if len(shared) >= MOST_NAMES:
            return False
        shared.add(name)
        self.sharers.setdefault(name, set()).add(s)
        return True

    def room_of(self, name: int) -> int:
        """What a name may come to take in its page."""
        writer = self.writers.get(name)
        written = 0 if writer is None else self.open[writer].longest[name]
        return max(self.sizes.get(name, 0), written)

    def put(self, s: int, name: int, length: int) -> bool:
        session, unit, size = self.open[s], name // UNIT_NAMES, RECORD_HEAD + length
        if self.writers.get(name, s) != s or self.sharers.get(name, set()) - {s}:
            return False
        if name not in session.longest and len(session.longest) >= MOST_NAMES:
            return False
        before = session.longest.get(name, -1)
        added = weight_of(max(before, size)) - weight_of(before)
        room = self.room_of(name)
        more = max(room, size) - room
        if self.pending[unit] + added > MOST_PENDING or self.fills[name // SLOTS] + more > PAGE_BYTES:
            return False
        session.last[name], session.longest[name] = size, max(before, size)
        self.fills[name // SLOTS] += more
        self.writers[name] = s
        self.pending[unit] += added
        return True

    def close(self, s: int, is_commit: bool) -> List[int]:
        """Closes a session, and answers its turns."""
        session = self.open[s]
        for name, size in session.longest.items():
            room = self.room_of(name)
            del self.writers[name]
            if is_commit:
                self.sizes[name] = session.last[name]
            self.pending[name // UNIT_NAMES] -= weight_of(size)
            self.fills[name // SLOTS] += self.room_of(name) - room
        for name in session.shared:
            self.sharers[name].remove(s)
        del self.open[s]
        return session.turns

    def is_done(self, word: str, s: int, words: List[str]) -> bool:
        """Whether a command of an open session isn't refused."""
        name = int(words[0]) if words else 0
        if name >= self.names:
            return False
        if word == "share":
            return self.share(s, name)
        length = len(words[1]) // 2 if word == "put" else 0
        return word != "put" or (length <= LONGEST and self.put(s, name, length))

    def take(self, position: int, line: str) -> None:
        """The next line, at a position."""
        word, *words = line.split(" ")
        s = int(words[0]) if words else SESSIONS
        if word == "restart":
            for each in list(self.open):
                self.close(each, False)
        elif word == "begin" and s < SESSIONS and s not in self.open:
            self.open[s] = Session(position)
        elif word == "abort" and s in self.open:
            self.close(s, False)
        elif word != "begin" and s in self.open and self.is_done(word, s, words[1:]):
            self.open[s].turns.append(position)
            if word == "commit":
                self.positions += self.close(s, True)


def view_of(script: Script, places: int) -> List[int]:
    view = View(places)
    for position, line in enumerate(script):
        view.take(position, line)
    return view.positions
