"""What the chips are made of: runs of the program, the lines of their scripts, and cuts."""
from __future__ import annotations

from typing import Callable, Dict, Iterable, List, NamedTuple, Optional

from seen import Kind, Layout, Seen, Spot, youngest

NAMES = 960
Lines = List[str]
# For each sector that a cut tears, how many of its bytes are kept.
Cut = Callable[[Layout], Dict[Spot, int]]


class Run(NamedTuple):
    """A run of the program. A cut tears sectors that its last command wrote, as if power had gone
    before that was answered."""
    lines: Lines
    frames: int = 16
    cut: Optional[Cut] = None


class Chip(NamedTuple):
    """The runs that make a chip, and whether it holds what it is to hold. It is formatted first, or
    is one of the chips of version 1."""
    places: int
    runs: List[Run]
    is_right: Callable[[Seen], bool]
    start: Optional[str] = None


def put(session: int, name: int, length: int, turn: int = 0) -> str:
    """A put of so many bytes, which tell the name and the turn."""
    value = (f"{name}.{turn} " * 120).encode()[:length]
    return f"put {session} {name} {value.hex() or '-'}"


def deletes(session: int, names: Iterable[int]) -> Lines:
    return [f"del {session} {name}" for name in names]


def whole(session: int, lines: Lines) -> Lines:
    return [f"begin {session}", *lines, f"commit {session}"]


def torn(kept: Dict[Kind, int]) -> Cut:
    """A cut in which the last sector of each of these kinds keeps so many bytes."""
    return lambda layout: {youngest(layout, kind): count for kind, count in kept.items()}
