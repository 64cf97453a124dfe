"""What transactions ask of a chip by each store."""
from __future__ import annotations

import hashlib
import os
import statistics
import subprocess
from itertools import chain, islice
from typing import Dict, Iterator, List, NamedTuple, Optional, TextIO

from .program import Failed
from .stores import Cost, Store
from .tracers import Tracer
from .workloads import (MOST_PENDING, SESSIONS, SHORT_VALUE, Put, Transaction, Workload,
                        four_random_puts, joined, names_of, one_put, value_of, write_script)


def thirty_two_puts(places: int, count: int) -> Iterator[Transaction]:
    """32 puts of 40 bytes, over the names in turn."""
    return joined(one_put(places, SESSIONS * count))


WORKLOADS: Dict[str, Workload] = {
    "one put, names in turn": one_put,
    "four puts at random": four_random_puts,
    "32 puts, names in turn": thirty_two_puts,
}


def loading(places: int) -> Iterator[Transaction]:
    """Transactions that put a value of 40 bytes at each name."""
    names = names_of(places)
    for first in range(0, names, MOST_PENDING):
        last = min(first + MOST_PENDING, names)
        yield [Put(name, value_of(name + 1, SHORT_VALUE)) for name in range(first, last)]


class Counted(NamedTuple):
    """What each transaction asked, and how often each place was erased for all of them; how much
    of a layer's room the store's files take at most; or, where the chip has no room for these, how
    many places one has that does."""
    costs: List[Cost]
    erases: List[int]
    share: Optional[float]
    needs: Optional[int]
    # Whether each place was opened before, so that a layer collects places.
    is_used: bool

    def mean(self, kind: str) -> Optional[float]:
        """For a transaction; nothing where it isn't seen."""
        each = [getattr(cost, kind) for cost in self.costs]
        return None if None in each else statistics.mean(each)

    def worst(self, kind: str) -> int:
        return max(getattr(cost, kind) for cost in self.costs)


class Script(NamedTuple):
    """A script in a file, and behind how many of its lines the transactions end that are counted.
    The first number is where they begin."""
    path: str
    ends: List[int]

    @classmethod
    def written(cls, path: str, before: Iterator[Transaction],
                counted: Iterator[Transaction]) -> Script:
        with open(path, "w", encoding="ascii") as out:
            ends = [sum(lines_written(out, transaction) for transaction in before)]
            for transaction in counted:
                ends.append(ends[-1] + lines_written(out, transaction))
        return cls(path, ends)


def lines_written(out: TextIO, transaction: Transaction) -> int:
    write_script(out, iter([transaction]))
    return len(transaction) + 2


def script_of(folder: str, places: int, workload: Workload, before: int, count: int) -> Script:
    """So many transactions that are counted. Before them each name gets a value, and so many others
    of their kind are done."""
    transactions = workload(places, before + count)
    return Script.written(os.path.join(folder, "script"),
                          chain(loading(places), islice(transactions, before)), transactions)


def files_of(path: str) -> List[str]:
    """The files of a store, whose names begin with that of its path."""
    folder, start = os.path.split(path)
    return [os.path.join(folder, name) for name in os.listdir(folder) if name.startswith(start)]


def new_path(folder: str, store: Store, places: int) -> str:
    """The path at which a store is made anew."""
    path = os.path.join(folder, "store")
    for file in files_of(path):
        os.unlink(file)
    store.make(path, places)
    return path


def records_in(store: Store, path: str, places: int) -> str:
    """A sum of the records that a store has."""
    script = f"list 0 {names_of(places) - 1}\n".encode()
    ended = subprocess.run(store.words(path, places), input=script, stdout=subprocess.PIPE,
                           check=True)
    return hashlib.sha256(ended.stdout).hexdigest()


def count_between(tracer: Tracer, store: Store, path: str, places: int,
                  script: Script) -> Counted:
    """What a store asks for the transactions of a script that are counted."""
    meter, costs = store.meter(places), []
    ends = set(script.ends)
    for line, _ in enumerate(store.replies(tracer, path, places, script.path, meter), 1):
        if line in ends:
            costs.append(meter.cost)
        if line == script.ends[0]:
            before = list(meter.erases)
        if line == script.ends[-1]:
            behind, share, needs = list(meter.erases), meter.share, meter.needs
    if len(costs) != len(script.ends):
        raise Failed(f"{store.name} said fewer replies than there are lines")
    return Counted([last.since(first) for first, last in zip(costs, costs[1:])],
                   [last - first for first, last in zip(before, behind)], share, needs,
                   0 not in before)


def count_each(tracer: Tracer, stores: List[Store], folder: str, places: int,
               script: Script) -> Dict[str, Counted]:
    """What each store asks, by its name. All of them have the same records at the end."""
    counted: Dict[str, Counted] = {}
    records = set()
    for store in stores:
        path = new_path(folder, store, places)
        found = counted[store.name] = count_between(tracer, store, path, places, script)
        if store.has_layer and not found.needs and not found.is_used:
            raise Failed(f"{store.name}: a place is opened for the first time in what is counted")
        records.add(records_in(store, path, places))
    if len(records) != 1:
        raise Failed("the stores have other records at the end")
    return counted
