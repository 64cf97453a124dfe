"""The program that a bench runs."""
from __future__ import annotations

import os
import subprocess
from typing import List, Optional

PLACE_BYTES = 131072

ROOT = os.path.dirname(os.path.dirname(os.path.dirname(os.path.realpath(__file__))))


class Failed(Exception):
    """A run that can't be measured; the message says why, in a line."""


def program_path(named: Optional[str]) -> str:
    """The program that was named, or else the one that the launcher builds and starts."""
    if named is not None:
        return os.path.realpath(named)
    # This builds the program where it is older than its sources.
    subprocess.run([os.path.join(ROOT, "ipl"), "run", "ram:5", "--format"], check=True,
                   stdin=subprocess.DEVNULL, stdout=subprocess.DEVNULL)
    return os.path.join(ROOT, "crates", "ipl", "out", "ipl")


def keys_program_path(named: Optional[str]) -> str:
    """The program of keys that was named, or else the one that is built here."""
    if named is not None:
        return os.path.realpath(named)
    crate = os.path.join(ROOT, "crates", "keys_example")
    # This builds the program where it is older than its sources.
    subprocess.run(["rt", "run", "--", "ram:5"], cwd=crate, check=True, stdin=subprocess.DEVNULL,
                   stdout=subprocess.DEVNULL)
    return os.path.join(crate, "out", "keys_example")


def make_file(path: str, places: int) -> None:
    """Makes the file of an erased chip, so that no run counts what that takes."""
    with open(path, "wb") as file:
        for _ in range(places):
            file.write(b"\xff" * PLACE_BYTES)


def run_untraced(program: str, words: List[str], script: str) -> str:
    """Runs the program over a script in a file, and answers the replies."""
    with open(script, "rb") as source:
        ended = subprocess.run([program, *words], stdin=source, stdout=subprocess.PIPE,
                               stderr=subprocess.PIPE)
    if ended.returncode != 0:
        raise Failed(f"{' '.join(words)} ended with {ended.returncode}: {ended.stderr.decode()}")
    return ended.stdout.decode()
