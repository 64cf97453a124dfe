"""How a store may be used, and what each use asks of a chip on the average and at the worst, by the
rules."""
from __future__ import annotations

from itertools import islice
from typing import Callable, Iterator, List, NamedTuple

from .growth_rules import GrowingRules
from .rules import RESERVED_PLACES
from .trace import Asked
from .units import LOG_SECTORS, UNIT_NAMES, page_of
from .wear import asks
from .workloads import (SESSIONS, SHORT_VALUE, Put, Transaction, Workload, in_rounds, joined,
                        names_of, numbers, one_random_put, value_of)

# A user who is idle behind so many transactions.
BETWEEN_IDLE = 100


class Step(NamedTuple):
    """What was asked for so many transactions; for none, where a user merged units meanwhile."""
    asked: Asked
    transactions: int


# Steps on a store that is open, which may go on for ever.
Use = Callable[[GrowingRules], Iterator[Step]]

ENDLESS = 2 ** 31


def at_random(puts: int) -> Workload:
    """Transactions of so many puts of 40 bytes, each at any name."""
    def workload(places: int, count: int) -> Iterator[Transaction]:
        drawn = one_random_put(places, puts * count)
        for _ in range(count):
            yield [put for transaction in islice(drawn, puts) for put in transaction]
    return workload


def units_in_turn(places: int, count: int) -> Iterator[Transaction]:
    """A put of 40 bytes, over the units in turn."""
    units = places - RESERVED_PLACES
    for turn in range(count):
        name = UNIT_NAMES * (turn % units) + turn // units % UNIT_NAMES
        yield [Put(name, value_of(turn, SHORT_VALUE))]


def side_by_side(places: int, count: int) -> Iterator[Transaction]:
    """A put of 40 bytes, over 32 names beside one another in turn, and then over 32 others."""
    drawn = numbers(5)
    for turn in range(count):
        if turn % SESSIONS == 0:
            first = next(drawn) % (names_of(places) // SESSIONS) * SESSIONS
        yield [Put(first + turn % SESSIONS, value_of(turn, SHORT_VALUE))]


def together(workload: Workload) -> Workload:
    """Transactions that have the puts of 32 of the workload."""
    return lambda places, count: joined(workload(places, SESSIONS * count))


def in_transactions(workload: Workload) -> Use:
    """One transaction after the other."""
    def use(rules: GrowingRules) -> Iterator[Step]:
        for transaction in workload(rules.places, ENDLESS):
            asks(rules, transaction)
            yield Step(rules.asked, 1)
    return use


def asks_as_batch(rules: GrowingRules, transactions: List[Transaction]) -> None:
    """A session for each transaction, which are committed as a batch."""
    rules.asked = Asked()
    for session, puts in enumerate(transactions):
        rules.begin(session)
        for put in puts:
            rules.put(session, put.name, put.value)
    rules.commit(*range(len(transactions)))


def in_batches(workload: Workload) -> Use:
    """32 sessions with a transaction each, and then a batch of them."""
    def use(rules: GrowingRules) -> Iterator[Step]:
        for transactions in in_rounds(workload(rules.places, ENDLESS)):
            asks_as_batch(rules, transactions)
            yield Step(rules.asked, len(transactions))
    return use


def merging_in_turn(workload: Workload, every: int) -> Use:
    """Behind so many transactions a unit is merged, the units in turn."""
    def use(rules: GrowingRules) -> Iterator[Step]:
        for turn, step in enumerate(in_transactions(workload)(rules), 1):
            yield step
            if turn % every == 0:
                yield Step(rules.asked_by(f"merge {turn // every % len(rules.units)}"), 0)
    return use


class OwnCount:
    """What a user may count who wants no commit to merge many units: of each unit the transactions
    since it was merged last, which are all those with live numbers there."""

    def __init__(self, units: int) -> None:
        self.since = [0] * units

    def add(self, transaction: Transaction) -> None:
        for unit in {page_of(put.name)[0] for put in transaction}:
            # Each puts one log sector there, and a unit whose log is full is merged before.
            self.since[unit] = self.since[unit] % LOG_SECTORS + 1

    def fullest(self) -> int:
        return max(range(len(self.since)), key=self.since.__getitem__)


def merging_fullest(workload: Workload, most: int) -> Use:
    """Behind each 100 transactions units are merged, the fullest first, until by the user's own
    count at most so many numbers are live."""
    def use(rules: GrowingRules) -> Iterator[Step]:
        own = OwnCount(len(rules.units))
        for turn, transaction in enumerate(workload(rules.places, ENDLESS), 1):
            asks(rules, transaction)
            own.add(transaction)
            yield Step(rules.asked, 1)
            while turn % BETWEEN_IDLE == 0 and sum(own.since) > most:
                unit = own.fullest()
                own.since[unit] = 0
                yield Step(rules.asked_by(f"merge {unit}"), 0)
    return use


def on_units(workload: Workload, units: int) -> Workload:
    """The workload as on a chip of so many units: no other unit is written."""
    return lambda places, count: workload(units + RESERVED_PLACES, count)


def with_values(workload: Workload, length: int) -> Workload:
    """The workload with values of so many bytes."""
    def changed(places: int, count: int) -> Iterator[Transaction]:
        for turn, transaction in enumerate(workload(places, count)):
            yield [put._replace(value=value_of(turn, length)) for put in transaction]
    return changed
