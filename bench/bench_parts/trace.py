"""What the program asks of a chip file, by the system calls of its process.

A read of 512 bytes of the file is a read, a write of 512 bytes a program, a write of 131,072 an
erase, and an fdatasync a barrier. The system is told of each before the program goes on, so what is
counted here is what reaches the file. A reply is a write to standard output."""
from __future__ import annotations

import os
import re
import shutil
import subprocess
from dataclasses import dataclass, field
from typing import Iterator, List, Optional

from .program import Failed, PLACE_BYTES

SECTOR_BYTES = 512
TRACED = "execve,fcntl,lseek,read,write,fdatasync"
# The number of the process, where strace says it, a call, its arguments, and what it answered.
CALL = re.compile(r"(?:\d+ +)?(\w+)\((.*)\) += (-?\d+)")


@dataclass
class Asked:
    """What was asked of the chip: how many reads, and the writes in their order."""
    reads: int = 0
    writes: List[str] = field(default_factory=list)

    def add(self, other: Asked) -> None:
        self.reads += other.reads
        self.writes += other.writes

    @property
    def erases(self) -> int:
        return sum(write.startswith("e") for write in self.writes)

    @property
    def barriers(self) -> int:
        return self.writes.count("b")

    @property
    def programs(self) -> int:
        return len(self.writes) - self.erases - self.barriers


@dataclass
class Reply:
    """A line that the program said, and what it had asked of the chip since the one before."""
    line: str
    asked: Asked


class ChipCalls:
    """The calls of one process on the file of its chip."""

    def __init__(self) -> None:
        # The number that the chip's file has: that of the copy of the first open.
        self.file: Optional[str] = None
        self.at = 0
        self.asked = Asked()

    def take(self, call: str, words: str, answer: int) -> None:
        """Takes a call in that was done."""
        first = words.split(",")[0]
        if call == "execve":
            self.file = None
        elif call == "fcntl" and "F_DUPFD_CLOEXEC" in words and self.file is None:
            self.file = str(answer)
        elif first == self.file:
            self.take_own(call, answer)

    def take_own(self, call: str, answer: int) -> None:
        """Takes a call on the chip's file in."""
        if call == "lseek":
            self.at = answer
        elif call == "read":
            self.asked.reads += self.whole(answer, SECTOR_BYTES)
        elif call == "fdatasync":
            self.asked.writes.append("b")
        elif answer == PLACE_BYTES:
            self.asked.writes.append(f"e{self.at // PLACE_BYTES}")
        elif call == "write":
            self.whole(answer, SECTOR_BYTES)
            place, sector = divmod(self.at // SECTOR_BYTES, 256)
            self.asked.writes.append(f"{place}.{sector}")

    @staticmethod
    def whole(answer: int, wanted: int) -> int:
        if answer != wanted:
            raise Failed(f"a call on the chip's file moved {answer} bytes and not {wanted}")
        return 1

    def since_before(self) -> Asked:
        """What was asked since the last time."""
        asked, self.asked = self.asked, Asked()
        return asked


def replies_in(lines: Iterator[str]) -> Iterator[Reply]:
    """The replies in the lines of a trace; the last one, without a line, has what came after."""
    calls = ChipCalls()
    for line in lines:
        found = CALL.match(line)
        if not found:
            continue
        call, words, answer = found[1], found[2], int(found[3])
        if call == "write" and words.startswith("1,"):
            yield Reply(words.split('"')[1].replace("\\n", ""), calls.since_before())
        elif answer >= 0:
            calls.take(call, words, answer)
    yield Reply("", calls.since_before())


def traced_run(program: str, words: List[str], script: str) -> Iterator[Reply]:
    """Runs the program under strace, and answers its replies, each with what it asked."""
    if shutil.which("strace") is None:
        raise Failed("there is no strace")
    source, told = os.pipe()
    command = ["strace", "-f", "-q", "-s", "16", "-e", f"trace={TRACED}", "-e", "signal=none",
               "-o", f"/dev/fd/{told}", program, *words]
    with open(script, "rb") as lines, os.fdopen(source, errors="replace") as trace:
        process = subprocess.Popen(command, stdin=lines, stdout=subprocess.DEVNULL,
                                   stderr=subprocess.PIPE, pass_fds=[told])
        os.close(told)
        yield from replies_in(trace)
        noted = process.communicate()[1].decode()
        if process.returncode != 0:
            raise Failed(f"{' '.join(words)} ended with {process.returncode} under strace: {noted}")
