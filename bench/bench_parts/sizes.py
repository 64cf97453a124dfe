"""How large the program of each store is, and what it takes of memory."""
from __future__ import annotations

import os
import struct
import subprocess
from itertools import chain
from typing import List, NamedTuple

from .counts import Script, loading, new_path
from .opened import Fed
from .program import ROOT, Failed
from .stores import Store
from .workloads import one_put


class Size(NamedTuple):
    """The bytes of a program that is stripped, and of its code and constants."""
    file: int
    text: int


class Memory(NamedTuple):
    """The bytes that a run has of malloc at most, how often it asks for some in a transaction, and
    the bytes that the process has in memory at most."""
    of_malloc: int
    calls: float
    resident: int


def size_of(store: Store, folder: str) -> Size:
    """The sizes of a program by `strip` and `size`."""
    stripped = os.path.join(folder, "stripped")
    subprocess.run(["strip", "-o", stripped, store.program], check=True)
    told = subprocess.run(["size", stripped], stdout=subprocess.PIPE, check=True, text=True).stdout
    return Size(os.path.getsize(stripped), int(told.splitlines()[1].split()[0]))


def counting_library(folder: str) -> str:
    path = os.path.join(folder, "allocations.so")
    source = os.path.join(ROOT, "bench", "peers", "allocations.c")
    subprocess.run(["cc", "-std=c11", "-O2", "-shared", "-fPIC", "-o", path, source], check=True)
    return path


class Counts(NamedTuple):
    """What `bench/peers/allocations.c` counts."""
    now: int
    most: int
    calls: int


def counts_of(words: List[str], script: Script, library: str) -> Counts:
    """What a run over a script has of malloc."""
    told = script.path + ".allocations"
    with open(script.path, "rb") as lines:
        ended = subprocess.run(words, stdin=lines, stdout=subprocess.DEVNULL, check=False,
                               env={**os.environ, "LD_PRELOAD": library, "ALLOCATIONS": told})
    if ended.returncode != 0:
        raise Failed(f"{words[0]} ended with {ended.returncode} where its allocations are counted")
    with open(told, "rb") as file:
        counts = Counts(*struct.unpack("=3Q", file.read()))
    os.unlink(told)
    if counts.calls == 0:
        raise Failed(f"of {words[0]} no allocation was counted")
    return counts


def memory_of(store: Store, folder: str, places: int, count: int) -> Memory:
    """What a run of so many transactions of one put takes, behind those that load the store."""
    library, path = counting_library(folder), os.path.join(folder, "script")
    counts = []
    for transactions in (0, count):
        puts = chain(loading(places), one_put(places, transactions))
        script = Script.written(path, puts, iter([]))
        words = store.words(new_path(folder, store, places), places)
        counts.append(counts_of(words, script, library))
    fed = Fed(store.words(new_path(folder, store, places), places), script)
    resident = fed.most_resident
    fed.end()
    return Memory(counts[1].most, (counts[1].calls - counts[0].calls) / count, resident)
