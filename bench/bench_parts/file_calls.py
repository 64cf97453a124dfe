"""What a program asks of its files, by the calls in a trace of its process (tracers.py).

Each reply of the program is a write to standard output. Of a file that is no file of the store, and
of a map of one, nothing is seen: so reads through a map aren't counted."""
from __future__ import annotations

import re
from typing import Callable, Dict, Iterator, NamedTuple

from .program import Failed

# A call, its arguments, and what it answered; with the number of the process where strace says it.
CALL = re.compile(r"(?:\d+ +)?(\w+)\((.*)\) += (-?\d+)")
# A file's number in the process, and its path.
FILE = re.compile(r"(\d+)<([^>]*)>")
SYNCED = ("O_DSYNC", "O_SYNC")


class FileCall(NamedTuple):
    """A call on a file of the store: a `read` or a `write` of bytes, a `sync`, or a `cut` to a
    length. With no file it is a `reply` of so many bytes."""
    kind: str
    file: str = ""
    at: int = 0
    length: int = 0


class Calls:
    """The calls of one process on files whose paths are wanted."""

    def __init__(self, is_wanted: Callable[[str], bool]) -> None:
        self.is_wanted = is_wanted
        # By the file's number: where a plain read or write goes, and whether each write is synced.
        self.at: Dict[str, int] = {}
        self.synced: Dict[str, bool] = {}

    def take(self, call: str, words: str, answer: int, rest: str) -> Iterator[FileCall]:
        """What a call that was done asked of the store's files."""
        if call == "openat":
            self.take_open(words, answer)
            return
        if call in ("unlink", "rename", "truncate"):
            if any(self.is_wanted(path) for path in re.findall(r'"([^"]*)"', words)):
                yield self.take_named(call, words)
            return
        if call == "msync":
            raise Failed("a map of a file is synced, which isn't counted")
        found = FILE.match(words)
        if found and found[1] == "1" and call == "write":
            yield FileCall("reply", length=answer)
        elif found and self.is_wanted(found[2]):
            yield from self.take_own(call, words, answer, found[1], found[2])

    def take_open(self, words: str, answer: int) -> None:
        self.at[str(answer)] = 0
        self.synced[str(answer)] = any(flag in words for flag in SYNCED)

    @staticmethod
    def take_named(call: str, words: str) -> FileCall:
        """A call that names a file by its path: it is removed."""
        if call != "unlink":
            raise Failed(f"{call} of a file of the store")
        return FileCall("cut", words.strip('"'))

    def take_own(self, call: str, words: str, answer: int, number: str,
                 file: str) -> Iterator[FileCall]:
        """A call on a file of the store."""
        if call == "lseek":
            self.at[number] = answer
        elif call in ("fdatasync", "fsync"):
            yield FileCall("sync", file)
        elif call == "ftruncate":
            yield FileCall("cut", file, 0, int(words.split(",")[1]))
        elif call in ("pread64", "read"):
            yield FileCall("read", file, self.place_of(call, words, answer, number), answer)
        elif call in ("pwrite64", "write", "writev"):
            yield FileCall("write", file, self.place_of(call, words, answer, number), answer)
            if self.synced[number]:
                yield FileCall("sync", file)
        elif call != "close":
            raise Failed(f"{call} of a file of the store, which isn't counted")

    def place_of(self, call: str, words: str, answer: int, number: str) -> int:
        """Where bytes are read or written: where the call says, or where the last one ended."""
        if call in ("pread64", "pwrite64"):
            return int(words.split(",")[-1])
        self.at[number] += answer
        return self.at[number] - answer


def calls_in(lines: Iterator[str], is_wanted: Callable[[str], bool]) -> Iterator[FileCall]:
    calls = Calls(is_wanted)
    for line in lines:
        found = CALL.match(line)
        if found and int(found[3]) >= 0:
            yield from calls.take(found[1], found[2], int(found[3]), line)
        elif "<unfinished" in line:
            raise Failed("a call of one process was within one of another")
