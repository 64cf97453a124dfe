"""What transactions and openings of each store take of processor time and of the clock."""
from __future__ import annotations

import os
import shutil
import statistics
import subprocess
import tempfile
import time
from typing import Dict, List, NamedTuple

from .counts import Script, files_of, loading, new_path
from .opened import ended_store, get_script
from .program import Failed, run_untraced
from .stores import Store
from .workloads import Workload

# Rounds in which each store has its turn.
ROUNDS, OPENINGS = 5, 21


class Times(NamedTuple):
    """Seconds."""
    user: float
    system: float
    clock: float


class Kept:
    """A copy of a store's files, which are put back before each run."""

    def __init__(self, path: str) -> None:
        self.path = path
        self.folder = tempfile.mkdtemp(dir=os.path.dirname(path))
        for file in files_of(path):
            shutil.copy(file, self.folder)

    def put_back(self) -> str:
        """The path of the store, as it was."""
        for file in files_of(self.path):
            os.unlink(file)
        for name in os.listdir(self.folder):
            shutil.copy(os.path.join(self.folder, name), os.path.dirname(self.path))
        # So that no run waits for what the copy has written.
        os.sync()
        return self.path


def loaded_store(store: Store, folder: str, places: int) -> Kept:
    """A store of which each name has a value."""
    path = new_path(folder, store, places)
    script = Script.written(os.path.join(folder, "script"), loading(places), iter([]))
    program, *words = store.words(path, places)
    run_untraced(program, words, script.path)
    return Kept(path)


def run_timed(words: List[str], script: Script) -> Times:
    """Runs a script of which each line has to be answered with `ok`."""
    said = script.path + ".said"
    with open(script.path, "rb") as lines, open(said, "wb") as out:
        start = time.monotonic()
        process = subprocess.Popen(words, stdin=lines, stdout=out)
        _, status, used = os.wait4(process.pid, 0)
        clock = time.monotonic() - start
        process.returncode = status
    with open(said, "rb") as replies:
        if status != 0 or replies.read() != b"ok\n" * script.ends[-1]:
            raise Failed(f"{words[0]} ended with {status}, or said other replies than `ok`")
    return Times(used.ru_utime, used.ru_stime, clock)


def medians(runs: List[Times], count: int) -> Times:
    """Microseconds for each of so many."""
    return Times(*[statistics.median(each) * 1e6 / count for each in zip(*runs)])


def shortest(runs: List[Times], count: int) -> Times:
    """Microseconds for each of so many, by the run that took least of each: other work on the
    machine, and of its neighbours, only adds to it."""
    return Times(*[min(each) * 1e6 / count for each in zip(*runs)])


def time_each(stores: List[Store], folder: str, places: int, workload: Workload,
              count: int) -> Dict[str, Times]:
    """Microseconds for each of so many transactions by each store, whose names all have a value."""
    kept = [loaded_store(store, folder, places) for store in stores]
    script = Script.written(os.path.join(folder, "script"), workload(places, count), iter([]))
    runs: List[List[Times]] = [[] for _ in stores]
    for _ in range(ROUNDS):
        for store, files, of_store in zip(stores, kept, runs):
            of_store.append(run_timed(store.words(files.put_back(), places), script))
    for files in kept:
        shutil.rmtree(files.folder)
    return {store.name: medians(of_store, count) for store, of_store in zip(stores, runs)}


def seconds_to_get(words: List[str], script: str) -> float:
    """From the start of a process to its reply to a get, which is the second."""
    with open(script, "rb") as lines:
        start = time.monotonic()
        process = subprocess.Popen(words, stdin=lines, stdout=subprocess.PIPE)
        replies = [process.stdout.readline() for _ in range(2)]
        seconds = time.monotonic() - start
        process.communicate()
    if process.returncode != 0 or not replies[1].startswith(b"value "):
        raise Failed(f"{words[0]} didn't get a value")
    return seconds


def time_openings(stores: List[Store], folder: str, places: int, end: str) -> Dict[str, float]:
    """Milliseconds of the clock by each store, after such an end."""
    kept = [Kept(ended_store(store, folder, places, end)) for store in stores]
    script = get_script(folder)
    runs: List[List[float]] = [[] for _ in stores]
    for _ in range(OPENINGS):
        for store, files, of_store in zip(stores, kept, runs):
            of_store.append(seconds_to_get(store.words(files.put_back(), places), script))
    for files in kept:
        shutil.rmtree(files.folder)
    return {store.name: statistics.median(of_store) * 1e3
            for store, of_store in zip(stores, runs)}
