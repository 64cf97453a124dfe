"""The workloads of the benches: transactions as lists of puts, and their scripts."""
from __future__ import annotations

from itertools import islice
from typing import Callable, Dict, Iterator, List, NamedTuple, TextIO

UNIT_NAMES = 960
SHORT_VALUE, LONG_VALUE = 40, 108
# Values that take most of a log sector, and of which a page has room for sixteen.
MOST_VALUES, SLOTS = 16, 64
# So many names of a unit may be pending.
MOST_PENDING = 48
# So many sessions are open at most.
SESSIONS = 32


class Put(NamedTuple):
    name: int
    value: str


Transaction = List[Put]


def names_of(places: int) -> int:
    return UNIT_NAMES * (places - 4)


# The digits of all bytes in their order, three times.
IN_ORDER = 3 * bytes(range(256)).hex()


def value_of(turn: int, length: int) -> str:
    """The digits of a value of at most 512 bytes that differs from turn to turn."""
    first = turn * 7 % 256
    return IN_ORDER[2 * first:2 * (first + length)]


def numbers(seed: int) -> Iterator[int]:
    """Numbers below 2^31 in no order, the same for each seed: Knuth's 64-bit generator."""
    state = seed
    while True:
        state = (state * 6364136223846793005 + 1442695040888963407) % 2 ** 64
        yield state >> 33


def one_put(places: int, count: int) -> Iterator[Transaction]:
    """A put of 40 bytes, over the names in turn."""
    for turn in range(count):
        yield [Put(turn % names_of(places), value_of(turn, SHORT_VALUE))]


def four_of(places: int, count: int, length: int) -> Iterator[Transaction]:
    """Four puts of so many bytes, each at any name."""
    drawn = numbers(1)
    for turn in range(count):
        names = [next(drawn) % names_of(places) for _ in range(4)]
        yield [Put(name, value_of(4 * turn + i, length)) for i, name in enumerate(names)]


def four_random_puts(places: int, count: int) -> Iterator[Transaction]:
    """Four puts of 40 bytes, each at any name."""
    return four_of(places, count, SHORT_VALUE)


def one_random_put(places: int, count: int) -> Iterator[Transaction]:
    """A put of 40 bytes at any name."""
    drawn = numbers(3)
    for turn in range(count):
        yield [Put(next(drawn) % names_of(places), value_of(turn, SHORT_VALUE))]


def one_unit(places: int, count: int) -> Iterator[Transaction]:
    """A put of 40 bytes, over the names of the first unit in turn."""
    for turn in range(count):
        yield [Put(turn % UNIT_NAMES, value_of(turn, SHORT_VALUE))]


def mostly_to_a_tenth(places: int, count: int) -> Iterator[Transaction]:
    """A put of 40 bytes: nine times in ten in the first tenth of the names, else in the rest."""
    drawn = numbers(2)
    tenth = names_of(places) // 10
    for turn in range(count):
        if next(drawn) % 10 < 9:
            name = next(drawn) % tenth
        else:
            name = tenth + next(drawn) % (names_of(places) - tenth)
        yield [Put(name, value_of(turn, SHORT_VALUE))]


def full_chip(places: int, count: int) -> Iterator[Transaction]:
    """A put of 108 bytes, over the names in turn, where each name has a value of 108 bytes."""
    for turn in range(count):
        yield [Put(turn % names_of(places), value_of(turn, LONG_VALUE))]


def four_on_full_chip(places: int, count: int) -> Iterator[Transaction]:
    """Four puts of 108 bytes, each at any name, where each name has a value of 108 bytes."""
    return four_of(places, count, LONG_VALUE)


def sixteen_a_page(places: int, turn: int) -> int:
    """The first sixteen names of each page in turn."""
    names = turn % (names_of(places) // SLOTS * MOST_VALUES)
    return names // MOST_VALUES * SLOTS + names % MOST_VALUES


def one_long_put(places: int, count: int) -> Iterator[Transaction]:
    """A put of 400 bytes, over sixteen names of each page in turn."""
    for turn in range(count):
        yield [Put(sixteen_a_page(places, turn), value_of(turn, 400))]


def long_puts(places: int, count: int) -> Iterator[Transaction]:
    """A put of 200 or of 464 bytes, over sixteen names of each page in turn."""
    for turn in range(count):
        yield [Put(sixteen_a_page(places, turn), value_of(turn, 464 if turn % 2 else 200))]


Workload = Callable[[int, int], Iterator[Transaction]]

WORKLOADS: Dict[str, Workload] = {
    "one put, over the names in turn": one_put,
    "four puts at random": four_random_puts,
    "one put, nine in ten to a tenth of the names": mostly_to_a_tenth,
    "a full chip of 108 bytes a name, one put in turn": full_chip,
    "one put of 200 or of 464 bytes, over sixteen names of each page": long_puts,
}

# Those of which it is told what a close before saves.
ON_FULL_CHIPS: Dict[str, Workload] = {
    "one put, over the names in turn": full_chip,
    "four puts at random": four_on_full_chip,
}

# Those by which a chip is worn: evenly, and with units that aren't written for long or at all.
WEARING: Dict[str, Workload] = {
    "one put at random": one_random_put,
    "four puts at random": four_random_puts,
    "one put, over the names in turn": one_put,
    "one put, nine in ten to a tenth of the names": mostly_to_a_tenth,
    "one put, over the names of one unit; no other is written": one_unit,
}

# Those of which it is told how long a part lasts.
LASTING = ["one put at random", "four puts at random",
           "one put, over the names of one unit; no other is written"]


def filling(places: int) -> Iterator[Transaction]:
    """Transactions that put a value of 108 bytes at each name."""
    names = names_of(places)
    for first in range(0, names, MOST_PENDING):
        last = min(first + MOST_PENDING, names)
        yield [Put(name, value_of(name + 1, LONG_VALUE)) for name in range(first, last)]


def write_script(out: TextIO, transactions: Iterator[Transaction]) -> None:
    for puts in transactions:
        out.write("begin 0\n")
        out.writelines(f"put 0 {put.name} {put.value}\n" for put in puts)
        out.write("commit 0\n")


def in_rounds(transactions: Iterator[Transaction]) -> Iterator[List[Transaction]]:
    """The transactions in rounds of 32, the last of which may have fewer."""
    while True:
        together = list(islice(transactions, SESSIONS))
        if not together:
            return
        yield together


def write_rounds(out: TextIO, transactions: Iterator[Transaction], batches: bool) -> None:
    """A session for each transaction of a round. They are committed one by one, or as a batch."""
    for together in in_rounds(transactions):
        for session, puts in enumerate(together):
            out.write(f"begin {session}\n")
            out.writelines(f"put {session} {put.name} {put.value}\n" for put in puts)
        numbers = [str(session) for session in range(len(together))]
        if batches:
            out.write(f"commit {' '.join(numbers)}\n")
        else:
            out.writelines(f"commit {number}\n" for number in numbers)


def joined(transactions: Iterator[Transaction]) -> Iterator[Transaction]:
    """Each round of transactions as one."""
    for together in in_rounds(transactions):
        yield [put for puts in together for put in puts]


def key_of(number: int) -> str:
    """The key of ten letters and digits that a number has."""
    return f"meter{number:05}"


def text_of(turn: int) -> str:
    """A text of 40 bytes that differs from turn to turn."""
    return value_of(turn, SHORT_VALUE // 2)


def write_key_puts(out: TextIO, keys: int, count: int) -> None:
    """Transactions of a put of a text, over so many keys in turn."""
    for turn in range(count):
        out.write(f"begin 0\nput 0 {key_of(turn % keys)} {text_of(turn)}\ncommit 0\n")


def write_name_puts(out: TextIO, names: List[int], count: int) -> None:
    """The same texts, over names in turn."""
    for turn in range(count):
        value = text_of(turn).encode().hex()
        out.write(f"begin 0\nput 0 {names[turn % len(names)]} {value}\ncommit 0\n")


def write_key_sql(out: TextIO, keys: int, count: int) -> None:
    """The puts of keys as SQL, into a table of its own, with a log synced at each commit."""
    out.write("pragma journal_mode=wal;\npragma synchronous=full;\n")
    out.write("create table record (key text primary key, value text) without rowid;\n")
    for turn in range(count):
        key, text = key_of(turn % keys), text_of(turn)
        out.write(f"begin;\ninsert or replace into record values ('{key}', '{text}');\ncommit;\n")


def write_gets(out: TextIO, names: List[object], count: int) -> None:
    """So many gets of one session, over keys or names in turn."""
    out.write("begin 0\n")
    out.writelines(f"get 0 {names[turn % len(names)]}\n" for turn in range(count))
    out.write("abort 0\n")


def write_selects(out: TextIO, keys: int, count: int) -> None:
    """The gets of keys as SQL, in one transaction."""
    out.write("begin;\n")
    out.writelines(f"select value from record where key = '{key_of(turn % keys)}';\n"
                   for turn in range(count))
    out.write("commit;\n")


def write_sql(out: TextIO, transactions: Iterator[Transaction]) -> None:
    """The same records as SQL."""
    for puts in transactions:
        out.write("begin;\n")
        out.writelines(f"insert or replace into record values ({put.name}, x'{put.value}');\n"
                       for put in puts)
        out.write("commit;\n")
