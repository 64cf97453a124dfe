"""The tables of docs/COMPARISON.md, and how they are put between its markers."""
from __future__ import annotations

from typing import Callable, Dict, Iterable, List, Optional, Tuple

from .counts import Counted
from .marked import put, split
from .opened import ENDS
from .sizes import Memory, Size
from .stores import Cost, Store, tuned
from .timed import Times

COLUMNS = ["ipl", "SQLite as it comes", "SQLite tuned", "LMDB", "littlefs"]
NO_ROOM, NOT_MEASURED, NONE = "no room", "not measured", "none"
PARTS = ["counts", "openings", "times", "sizes"]

# A cell of each store that was at hand, by its name.
Cells = Dict[str, str]
# By the workload's name and the store's.
Counts = Dict[str, Dict[str, Counted]]
# By the end before and the store's name.
Openings = Dict[str, Dict[str, Cost]]


def table(of_rows: str, of_kinds: str, groups: List[Tuple[str, Dict[str, Cells]]]) -> str:
    """A table of stores. Each group has a name, and a row for each kind; the name stands once."""
    lines = [[of_rows, of_kinds, *COLUMNS], ["---"] * (2 + len(COLUMNS))]
    for name, of_group in groups:
        for index, (kind, cells) in enumerate(of_group.items()):
            lines.append([name if index == 0 else "", kind,
                          *[cells.get(store, NOT_MEASURED) for store in COLUMNS]])
    return "\n".join("| " + " | ".join(line) + " |" for line in lines) + "\n"


def number(value: Optional[float], digits: int) -> str:
    return NOT_MEASURED if value is None else f"{value:,.{digits}f}"


def moves_of(counted: Counted) -> str:
    moves = counted.mean("moves")
    return NONE if moves is None else number(moves, 2)


def wear_of(counted: Counted) -> str:
    """The least, the median and the most erases of a place."""
    erases = sorted(counted.erases)
    return f"{erases[0]}, {erases[len(erases) // 2]}, {erases[-1]}"


def share_of(counted: Counted) -> str:
    return NONE if counted.share is None else f"{100 * counted.share:.0f} %"


MEASURES: Dict[str, Callable[[Counted], str]] = {
    "programs": lambda counted: number(counted.mean("programs"), 2),
    "of these, moves of the layer": moves_of,
    "erases": lambda counted: number(counted.mean("erases"), 3),
    "barriers": lambda counted: number(counted.mean("barriers"), 2),
    "sectors read": lambda counted: number(counted.mean("reads"), 2),
    "programs at the worst": lambda counted: number(counted.worst("programs"), 0),
    "erases at the worst": lambda counted: number(counted.worst("erases"), 0),
    "erases of a place in all: least, median, most": wear_of,
    "of the layer's room in use": share_of,
}


def counted_cells(by_store: Dict[str, Counted], cell: Callable[[Counted], str]) -> Cells:
    return {name: NO_ROOM if counted.needs else cell(counted) for name, counted in by_store.items()}


def needs_lines(places: int, counts: Counts) -> str:
    """For which files a chip has no room."""
    needs: Dict[str, int] = {}
    for by_store in counts.values():
        for name, counted in by_store.items():
            if counted.needs:
                needs[name] = max(counted.needs, needs.get(name, 0))
    return "".join(f"\nOn {places} places there is no room for the files of {name}. They need a "
                   f"chip of {least} places.\n" for name, least in needs.items())


def counts_table(places: int, counts: Counts) -> str:
    groups = [(measure, {workload: counted_cells(by_store, cell)
                         for workload, by_store in counts.items()})
              for measure, cell in MEASURES.items()]
    of_chip = table(f"On {places} places, for a transaction", "of", groups)
    return of_chip + needs_lines(places, counts)


def versions_of(stores: List[Store]) -> str:
    """The versions of the peers, each of which is known by the first word of its name."""
    versions = {store.name.split()[0]: store.version for store in stores if store.has_layer}
    said = " and ".join(f"{name} {version}" for name, version in versions.items())
    return f"{said or 'No other store was at hand'}."


def tuning_of(places: Iterable[int]) -> str:
    """How SQLite is tuned."""
    page_size, = {tuned(on)[0] for on in places}
    logs = " and ".join(f"{tuned(on)[1]} on {on}" for on in places)
    return (f"SQLite tuned has `page_size={page_size}`, and `wal_autocheckpoint` at {logs} places; "
            "as it comes neither is set.")


def counts_text(counts: Dict[int, Counts], stores: List[Store], before: int, count: int) -> str:
    """By the number of places."""
    said = (f"{versions_of(stores)} {tuning_of(counts)} {count:,} transactions of each kind are "
            f"counted, after {before:,} others of their kind on a store of which each name has a "
            "value.\n")
    return "\n".join([said, *[counts_table(*of_chip) for of_chip in counts.items()]])


def openings_text(openings: Dict[int, Openings]) -> str:
    """What an opening asks, by the number of places."""
    def rows(kind: str) -> Dict[str, Cells]:
        return {f"{places} places, {end}": {name: number(getattr(cost, kind), 0)
                                            for name, cost in of_chip[end].items()}
                for places, of_chip in openings.items() for end in ENDS}

    kinds = {"sectors read": "reads", "programs": "programs", "erases": "erases"}
    groups = [(name, rows(kind)) for name, kind in kinds.items()]
    return table("To open and get a value", "after", groups)


def times_text(times: Dict[str, Dict[str, Times]], openings: Dict[int, Dict[str, Dict[str, float]]],
               stores: List[Store], places: int, count: int, cores: int) -> str:
    """By the workload's name; and openings by the number of places and the end before."""
    def rows(kind: str) -> Dict[str, Cells]:
        return {workload: {name: number(getattr(took, kind), 1) for name, took in by_store.items()}
                for workload, by_store in times.items()}

    kinds = {"user": "user", "system": "system", "of the clock": "clock"}
    groups = [(name, rows(kind)) for name, kind in kinds.items()]
    to_open = {f"{on} places, {end}": {name: number(took, 2) for name, took in of_chip[end].items()}
               for on, of_chip in openings.items() for end in ENDS}
    said = (f"{versions_of(stores)} {count:,} transactions of each kind, on one machine of {cores} "
            "cores.\n")
    return "\n".join([said, table(f"On {places} places, µs for a transaction", "of", groups),
                      table("To open and get a value", "after", [("ms of the clock", to_open)])])


def sizes_text(sizes: Dict[str, Size], memory: Dict[int, Dict[str, Memory]],
               stores: List[Store]) -> str:
    """By the store's name; and memory by the number of places."""
    def of_program(kind: str) -> Dict[str, Cells]:
        return {"": {name: number(getattr(size, kind), 0) for name, size in sizes.items()}}

    def of_memory(cell: Callable[[Memory], str]) -> Dict[str, Cells]:
        return {f"{places} places": {name: cell(taken) for name, taken in by_store.items()}
                for places, by_store in memory.items()}

    groups = [("the program's file, stripped", of_program("file")),
              ("of it, code and constants", of_program("text")),
              ("had of `malloc` at most", of_memory(lambda taken: number(taken.of_malloc, 0))),
              ("in memory at most", of_memory(lambda taken: f"{taken.resident / 1e6:.1f} MB")),
              ("calls of `malloc` for a transaction of one put",
               of_memory(lambda taken: number(taken.calls, 2)))]
    return versions_of(stores) + "\n\n" + table("Bytes, and calls", "on", groups)


def not_measured(part: str) -> str:
    option = "counts" if part == "openings" else part
    return f"Not measured yet: `bench/comparison --{option}` does.\n"


def put_between(document: str, texts: Dict[str, str]) -> str:
    """The document with these texts between the marks of their parts. One that was never measured
    says so."""
    for part in PARTS:
        there = split(document, "comparison", part)[1].strip("\n")
        text = texts.get(part, there + "\n" if there else not_measured(part))
        document = put(document, "comparison", part, text)
    return document
