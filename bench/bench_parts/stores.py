"""The stores that are compared: how each is run over a script, and what it asks of a chip."""
from __future__ import annotations

import os
import subprocess
from typing import Callable, Iterator, List, NamedTuple, Optional, Set, Tuple, Union

from .file_calls import FileCall, calls_in
from .program import PLACE_BYTES, ROOT, Failed, make_file, run_untraced
from .rules import RESERVED_PLACES
from .trace import SECTOR_BYTES, Asked, replies_in
from .tracers import Tracer, traced_lines
from .translation import IsFull, Layer

FRAMES = 16
# Of SQLite's log: its head, and that of each page in it.
LOG_HEAD, PAGE_HEAD = 32, 24
# So many pages SQLite, tuned, has in its log before they are written back, where there is room.
MOST_LOGGED = 1600
# Files by which processes that run side by side know of each other. Nothing in them has to last.
PASSING = ("-shm", "-lock")


class Cost(NamedTuple):
    """What was asked of a chip so far. Of the programs some are moves of a translation layer, where
    there is one; reads are told where they are seen."""
    programs: int
    moves: Optional[int]
    erases: int
    barriers: int
    reads: Optional[int]

    def since(self, first: Cost) -> Cost:
        """What was asked from then on."""
        return Cost(*[None if last is None or before is None else last - before
                      for before, last in zip(first, self)])


class ChipMeter:
    """What is asked of a chip itself."""
    # A chip that is formatted has room, and no layer.
    needs = share = None

    def __init__(self, places: int) -> None:
        self.asked = [0, 0, 0]
        self.erases = [0] * places

    def take(self, asked: Asked) -> None:
        self.asked = [self.asked[0] + asked.programs, self.asked[1] + asked.barriers,
                      self.asked[2] + asked.reads]
        for write in asked.writes:
            if write.startswith("e"):
                self.erases[int(write[1:])] += 1

    @property
    def cost(self) -> Cost:
        programs, barriers, reads = self.asked
        return Cost(programs, None, sum(self.erases), barriers, reads)


class FileMeter:
    """What a translation layer asks of a chip, over which files are kept. What is written to a file
    reaches the layer when the file is synced, each sector once and in rising order. Read is what is
    read of the files, and what the layer moves."""

    def __init__(self, places: int, sees_reads: bool) -> None:
        self.layer, self.sees_reads = Layer(places), sees_reads
        self.is_full = False
        self.written: Set[Tuple[str, int]] = set()
        self.kept: Set[Tuple[str, int]] = set()
        self.most = self.reads = self.barriers = 0

    @property
    def erases(self) -> List[int]:
        return self.layer.erases

    @property
    def cost(self) -> Cost:
        programs, moves = self.layer.programs, self.layer.moves
        reads = self.reads + moves if self.sees_reads else None
        return Cost(programs, moves, sum(self.erases), self.barriers, reads)

    @property
    def needs(self) -> Optional[int]:
        """Where this chip has no room for the files: how many places one has that does."""
        least = -(-self.most * SECTOR_BYTES // PLACE_BYTES) + RESERVED_PLACES
        return least if self.is_full else None

    @property
    def share(self) -> float:
        """How much of the layer's room the files took at most."""
        return self.most / self.layer.room

    def take(self, call: FileCall) -> None:
        end = -(-(call.at + call.length) // SECTOR_BYTES)
        sectors = range(call.at // SECTOR_BYTES, end if call.length else 0)
        if call.kind == "read":
            self.reads += len(sectors)
        elif call.kind == "write":
            self.written.update((call.file, sector) for sector in sectors)
        elif call.kind == "sync":
            self.sync(call.file)
        elif call.kind == "cut":
            self.cut(call.file, end)

    def sync(self, file: str) -> None:
        for sector in sorted(sector for sector in self.written if sector[0] == file):
            self.written.remove(sector)
            self.write(sector)
        self.barriers += 1

    def write(self, sector: Tuple[str, int]) -> None:
        self.kept.add(sector)
        self.most = max(self.most, len(self.kept))
        try:
            if not self.is_full:
                self.layer.write(sector)
        except IsFull:
            self.is_full = True

    def cut(self, file: str, end: int) -> None:
        """Only the sectors below `end` are left of a file."""
        gone = {sector for sector in self.kept | self.written if sector[0] == file
                and sector[1] >= end}
        for sector in gone & self.kept:
            if not self.is_full:
                self.layer.give_up(sector)
        self.kept -= gone
        self.written -= gone


Meter = Union[ChipMeter, FileMeter]


class Ipl:
    """ipl over a chip in a file."""
    name, has_layer = "ipl", False

    def __init__(self, program: str) -> None:
        self.program = program

    def make(self, path: str, places: int) -> None:
        make_file(path, places)
        run_untraced(self.program, ["format", f"file:{places}:{path}"], os.devnull)

    def words(self, path: str, places: int) -> List[str]:
        return [self.program, "run", f"file:{places}:{path}", "--frames", str(FRAMES)]

    def closing(self, path: str, places: int) -> List[str]:
        return [*self.words(path, places), "--close"]

    def meter(self, places: int) -> ChipMeter:
        return ChipMeter(places)

    def replies(self, tracer: Tracer, path: str, places: int, script: str,
                meter: ChipMeter) -> Iterator[None]:
        """A reply at a time, with the meter at what was asked until then."""
        for reply in replies_in(traced_lines(tracer, self.words(path, places), script, False)):
            meter.take(reply.asked)
            if reply.line.startswith("err"):
                raise Failed(f"ipl said {reply.line}")
            yield


class Peer:
    """A store over files, by a program of bench/peers with words of its own behind the path."""
    has_layer = True

    def __init__(self, name: str, program: str, sees_reads: bool,
                 tuning: Callable[[int], List[str]]) -> None:
        self.name, self.program, self.sees_reads, self.tuning = name, program, sees_reads, tuning

    @property
    def version(self) -> str:
        asked = [self.program, "--version"]
        return subprocess.run(asked, stdout=subprocess.PIPE, check=True, text=True).stdout.strip()

    def make(self, path: str, places: int) -> None:
        """Its first run makes the files."""

    def words(self, path: str, places: int) -> List[str]:
        return [self.program, path, *self.tuning(places)]

    def closing(self, path: str, places: int) -> List[str]:
        """The end of its script closes it."""
        return self.words(path, places)

    def meter(self, places: int) -> FileMeter:
        return FileMeter(places, self.sees_reads)

    def replies(self, tracer: Tracer, path: str, places: int, script: str,
                meter: FileMeter) -> Iterator[None]:
        """A reply at a time, with the meter at what was asked until then."""
        def is_kept(file: str) -> bool:
            return file.startswith(path) and not file.endswith(PASSING)

        lines = traced_lines(tracer, self.words(path, places), script, True)
        for call in calls_in(lines, is_kept):
            if call.kind == "reply":
                yield
            else:
                meter.take(call)


Store = Union[Ipl, Peer]


def room_of(places: int) -> int:
    """The bytes that a translation layer has room for."""
    return (places - RESERVED_PLACES) * PLACE_BYTES


def tuned(places: int) -> List[str]:
    """Pages of a sector, and a log of more of them than it has as it comes, as long as that is at
    most half of the room."""
    half = (room_of(places) // 2 - LOG_HEAD) // (PAGE_HEAD + SECTOR_BYTES)
    return [str(SECTOR_BYTES), str(min(half, MOST_LOGGED))]


def library_at_hand(name: str) -> Optional[str]:
    """The path of a static library, where there is one."""
    asked = ["cc", f"-print-file-name=lib{name}.a"]
    path = subprocess.run(asked, stdout=subprocess.PIPE, check=True, text=True).stdout.strip()
    return path if os.path.isabs(path) else None


def compiled(folder: str, name: str, archive: str) -> str:
    """A program of bench/peers, which is linked with a static library and stripped."""
    sources = [os.path.join(ROOT, "bench", "peers", source) for source in (f"{name}.c", "script.c")]
    path = os.path.join(folder, name)
    words = ["cc", "-std=c11", "-D_DEFAULT_SOURCE", "-O2", "-s", "-o", path, *sources, archive,
             "-Wl,--gc-sections", "-lm", "-lpthread", "-ldl"]
    built = subprocess.run(words, stderr=subprocess.PIPE, check=False)
    if built.returncode != 0:
        raise Failed(f"{name} couldn't be built: {built.stderr.decode()[-1000:]}")
    return path


def all_stores(program: str, folder: str) -> List[Store]:
    """ipl, and the peers that are at hand, whose programs are built in a folder."""
    stores: List[Store] = [Ipl(program)]
    sqlite, lmdb = library_at_hand("sqlite3"), library_at_hand("lmdb")
    if sqlite is not None:
        built = compiled(folder, "sqlite", sqlite)
        stores += [Peer("SQLite as it comes", built, True, lambda places: []),
                   Peer("SQLite tuned", built, True, tuned)]
    if lmdb is not None:
        built = compiled(folder, "lmdb", lmdb)
        stores.append(Peer("LMDB", built, False, lambda places: [str(places * PLACE_BYTES)]))
    return stores
