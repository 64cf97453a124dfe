"""What a run asks of a chip that was closed before, and of one that wasn't, beside the rules."""
from __future__ import annotations

import copy
import os
import shutil
from io import StringIO
from statistics import mean
from typing import Dict, Iterable, List, NamedTuple, Set

from .known import compare, replies_of
from .program import Failed, make_file
from .rules import SECTORS, Rules
from .starts import FILLING_FRAMES, fill_chip
from .trace import Asked
from .wear import asks
from .workloads import ON_FULL_CHIPS, Transaction, Workload, filling, full_chip, write_script

FRAMES = 16
# The run before has so many transactions. Behind these a unit that has one log sector from each has
# every number of clean ones once, from none to fourteen.
BEFORE = range(100, 115)
COUNTS = [1, 10, 100]
# What the table of runs says; all is compared.
SAID = ["programs", "erases", "barriers"]


class Chip(NamedTuple):
    """A chip in a file, and the rules that it goes by."""
    path: str
    rules: Rules

    @property
    def words(self) -> List[str]:
        return ["run", f"file:{self.rules.places}:{self.path}", "--frames", str(self.rules.frames)]

    def copied(self, name: str) -> Chip:
        """A copy in a file beside it."""
        path = os.path.join(os.path.dirname(self.path), name)
        shutil.copyfile(self.path, path)
        return Chip(path, copy.deepcopy(self.rules))


class Counts(NamedTuple):
    """How much was asked of a chip."""
    programs: int
    erases: int
    barriers: int
    reads: int


def counts_of(all_asked: Iterable[Asked]) -> Counts:
    together = Asked()
    for asked in all_asked:
        together.add(asked)
    return Counts(together.programs, together.erases, together.barriers, together.reads)


def lines_of(transactions: List[Transaction]) -> List[str]:
    script = StringIO()
    write_script(script, iter(transactions))
    return script.getvalue().splitlines()


class Closes:
    """Runs over copies of a chip of so many places, of which each name has a value of 108 bytes."""

    def __init__(self, program: str, folder: str, places: int) -> None:
        self.program, self.folder, self.places = program, folder, places
        self.start = Chip(os.path.join(folder, f"full{places}"), Rules(places, FILLING_FRAMES))
        # What the closes of the runs before asked, each kind once.
        self.asked_by_closes: Set[Counts] = set()
        self.fill()

    def fill(self) -> None:
        path, rules = self.start
        make_file(path, self.places)
        fill_chip(self.program, self.folder, path, self.places)
        rules.asked_by("open")
        for transaction in filling(self.places):
            asks(rules, transaction)
        rules.frames = FRAMES

    def run(self, chip: Chip, transactions: List[Transaction], closes: bool) -> List[Asked]:
        """What a run asks at its opening, for each line, and for its close if it closes; fails
        where the rules say something else."""
        lines = lines_of(transactions)
        replies = replies_of(self.program, chip.words, self.folder, lines, closes)
        if any(reply.line != "ok" for reply in replies[1:1 + len(lines)]):
            raise Failed("a line was refused")
        for line, reply in zip(["open", *lines, *(["close"] if closes else [])], replies):
            if not compare(line, reply.asked, chip.rules.asked_by(line)):
                raise Failed("a run asked for something else than the rules say")
        return [reply.asked for reply in replies]

    def used(self, transactions: List[Transaction], closes: bool) -> Chip:
        """The chip behind a run of these transactions."""
        chip = self.start.copied("used")
        asked = self.run(chip, transactions, closes)
        if closes:
            self.asked_by_closes.add(counts_of(asked[-1:]))
        return chip

    def after(self, workload: Workload, closes: bool) -> Dict[int, List[Counts]]:
        """What runs ask of each number of transactions, after a run that was closed or wasn't."""
        found: Dict[int, List[Counts]] = {count: [] for count in COUNTS}
        for before in BEFORE:
            transactions = list(workload(self.places, before + max(COUNTS)))
            used = self.used(transactions[:before], closes)
            for count in COUNTS:
                these = transactions[before:before + count]
                found[count].append(counts_of(self.run(used.copied("chip"), these, False)))
        return found

    def close_of_full(self) -> Counts:
        """What a close asks where the status place has no clean sector."""
        opened = copy.deepcopy(self.start.rules)
        opened.asked_by("open")
        transactions = list(full_chip(self.places, SECTORS - opened.next_commit))
        return counts_of(self.run(self.start.copied("used"), transactions, True)[-1:])


def row(name: str, places: int, count: int, unclosed: List[Counts], closed: List[Counts]) -> str:
    """A row of the table: of each kind the average without a close before, and with one."""
    cells = [f"{mean(getattr(counts, kind) for counts in runs):,.1f}"
             for kind in SAID for runs in (unclosed, closed)]
    return "| " + " | ".join([name, str(places), str(count), *cells]) + " |"


def print_runs(all_closes: List[Closes]) -> None:
    kinds = " | ".join(f"{kind} | after a close" for kind in SAID)
    print(f"| Transactions of | places | in the run | {kinds} |")
    print("|---" * (3 + 2 * len(SAID)) + "|")
    for name, workload in ON_FULL_CHIPS.items():
        for closes in all_closes:
            unclosed, closed = closes.after(workload, False), closes.after(workload, True)
            for count in COUNTS:
                print(row(name, closes.places, count, unclosed[count], closed[count]), flush=True)


def print_closes(program: str, folder: str, all_places: List[int]) -> None:
    """Prints what a close before saves, and what one costs."""
    all_closes = [Closes(program, folder, places) for places in all_places]
    print_runs(all_closes)
    print("\n| A close | places | " + " | ".join(Counts._fields) + " |")
    print("|---" * (2 + len(Counts._fields)) + "|")
    for closes in all_closes:
        kinds = [("behind these runs", counts) for counts in sorted(closes.asked_by_closes)]
        kinds.append(("with no clean sector in the status place", closes.close_of_full()))
        for name, counts in kinds:
            print("| " + " | ".join([name, str(closes.places), *map(str, counts)]) + " |")
