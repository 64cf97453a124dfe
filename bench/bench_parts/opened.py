"""Stores that are opened after a clean end and after a kill: what that asks of a chip."""
from __future__ import annotations

import os
import signal
import subprocess
import time
from itertools import chain
from typing import Dict, List

from .counts import Script, loading, new_path
from .program import Failed
from .stores import Cost, Store
from .tracers import Tracer
from .workloads import one_put

# A store of which each name has a value is opened behind so many transactions of one put.
BEFORE = 300
# In between it is looked for replies, in seconds.
A_WHILE = 0.01
# Each opening is one for a get of a name, whose reply is the second.
GET = "begin 0\nget 0 5\nabort 0\n"
ENDS = ["a clean end", "a kill"]


class Fed:
    """A process that was given a script and has said each reply. Its input is still open."""

    def __init__(self, words: List[str], script: Script) -> None:
        said = script.path + ".said"
        with open(script.path, "rb") as lines, open(said, "wb") as out:
            self.process = subprocess.Popen(words, stdin=subprocess.PIPE, stdout=out)
            self.process.stdin.write(lines.read())
            self.process.stdin.flush()
        while lines_in(said) < script.ends[-1]:
            if self.process.poll() is not None:
                raise Failed(f"{words[0]} ended before all replies were said")
            time.sleep(A_WHILE)

    @property
    def most_resident(self) -> int:
        """The bytes that it had in memory at most so far."""
        with open(f"/proc/{self.process.pid}/status", encoding="ascii") as told:
            line = next(line for line in told if line.startswith("VmHWM"))
        return int(line.split()[1]) * 1024

    def kill(self) -> None:
        self.process.send_signal(signal.SIGKILL)
        self.process.wait()
        self.process.stdin.close()

    def end(self) -> None:
        self.process.stdin.close()
        if self.process.wait() != 0:
            raise Failed("a store ended with another status than 0")


def lines_in(path: str) -> int:
    with open(path, "rb") as lines:
        return sum(1 for _ in lines)


def ended_store(store: Store, folder: str, places: int, end: str) -> str:
    """The path of a store of which each name has a value, after some transactions and this end."""
    path = new_path(folder, store, places)
    script = Script.written(os.path.join(folder, "script"),
                            chain(loading(places), one_put(places, BEFORE)), iter([]))
    if end == "a kill":
        Fed(store.words(path, places), script).kill()
    else:
        Fed(store.closing(path, places), script).end()
    return path


def get_script(folder: str) -> str:
    path = os.path.join(folder, "get")
    with open(path, "w", encoding="ascii") as script:
        script.write(GET)
    return path


def opening_cost(tracer: Tracer, store: Store, folder: str, places: int, end: str) -> Cost:
    """What is asked from the start of a process to its reply to a get."""
    path, meter = ended_store(store, folder, places, end), store.meter(places)
    first, costs = meter.cost, []
    for _ in store.replies(tracer, path, places, get_script(folder), meter):
        costs.append(meter.cost)
    return costs[1].since(first)


def opening_costs(tracer: Tracer, stores: List[Store], folder: str,
                  places: int) -> Dict[str, Dict[str, Cost]]:
    """By the end before and the store's name."""
    return {end: {store.name: opening_cost(tracer, store, folder, places, end) for store in stores}
            for end in ENDS}
