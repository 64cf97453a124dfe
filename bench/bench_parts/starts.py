"""The chips on which workloads start, and the scripts of workloads."""
from __future__ import annotations

import os
from typing import Iterator

from .program import Failed, make_file, run_untraced
from .workloads import Transaction, Workload, filling, full_chip, write_script

FILLING_FRAMES = 64


def script_of(folder: str, transactions: Iterator[Transaction]) -> str:
    """A script of these transactions in a file."""
    path = os.path.join(folder, "script")
    with open(path, "w", encoding="ascii") as script:
        # Refused, so that what is asked before its reply is what the opening asks.
        script.write("commit 31\n")
        write_script(script, transactions)
    return path


def fill_chip(program: str, folder: str, path: str, places: int) -> None:
    """Formats a chip, and puts a value of 108 bytes at each of its names."""
    words = ["run", f"file:{places}:{path}", "--format", "--frames", str(FILLING_FRAMES)]
    replies = run_untraced(program, words, script_of(folder, filling(places)))
    if "err" in replies.split("\n", 1)[1]:
        raise Failed("a put was refused while the chip was filled")


def start_chip(program: str, folder: str, workload: Workload, places: int) -> str:
    """Makes the chip on which a workload starts: a formatted one, or a full one."""
    path = os.path.join(folder, "start")
    make_file(path, places)
    if workload is full_chip:
        fill_chip(program, folder, path, places)
    else:
        run_untraced(program, ["format", f"file:{places}:{path}"], os.devnull)
    return path
