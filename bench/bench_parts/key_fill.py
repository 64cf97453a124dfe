"""How full a chip gets of keys: pairs thrown into buckets, which share pages."""
from __future__ import annotations

import math
import random
import statistics
import zlib
from itertools import islice
from typing import Iterator, List, NamedTuple

from bench_parts.workloads import SLOTS, UNIT_NAMES

# The bytes of a bucket and of a page, at most, and those that a page has for a record beside its
# bytes.
BUCKET_BYTES, PAGE_BYTES, RECORD_BYTES = 464, 7680, 3
# A pair has these bytes beside those of its key and its value.
PAIR_BYTES = 2


def bucket_of(key: bytes, units: int) -> int:
    """The name of the record in which a key has its bucket."""
    return zlib.crc32(key) % (UNIT_NAMES * units)


class Size(NamedTuple):
    """The bytes of each key and of each value."""
    key: int
    value: int

    @property
    def pair(self) -> int:
        return PAIR_BYTES + self.key + self.value


class KeyChip:
    """A chip of so many units, each key of which has a value of the same size. It knows in how many
    buckets the next pair would be refused."""

    def __init__(self, units: int, size: Size) -> None:
        self.units, self.pair = units, size.pair
        self.length = [0] * (UNIT_NAMES * units)
        self.room = [PAGE_BYTES] * (UNIT_NAMES * units // SLOTS)
        self.refusing = 0

    def needed(self, bucket: int) -> int:
        """What the next pair takes of the page."""
        return self.pair if self.length[bucket] else self.pair + RECORD_BYTES

    def refusal(self, bucket: int) -> str:
        """Why the next pair in a bucket is refused, and nothing where it isn't."""
        if self.length[bucket] + self.pair > BUCKET_BYTES:
            return "bucketfull"
        if self.needed(bucket) > self.room[bucket // SLOTS]:
            return "pagefull"
        return ""

    def refusing_in(self, page: int) -> int:
        """In how many buckets of a page the next pair would be refused."""
        return sum(bool(self.refusal(bucket)) for bucket in range(page * SLOTS, (page + 1) * SLOTS))

    def put(self, bucket: int) -> str:
        """Puts the next pair into a bucket, where it isn't refused; the refusal."""
        refused = self.refusal(bucket)
        if refused:
            return refused
        page = bucket // SLOTS
        is_near = self.room[page] - self.needed(bucket) < self.pair + RECORD_BYTES
        if is_near:
            # The page is nearly full, so other buckets may refuse from now on.
            self.refusing -= self.refusing_in(page)
        self.room[page] -= self.needed(bucket)
        self.length[bucket] += self.pair
        if is_near:
            self.refusing += self.refusing_in(page)
        elif self.refusal(bucket):
            self.refusing += 1
        return ""


def mixed(number: int) -> int:
    """Another number of 32 bits for each: the two products are odd, and the shifts are undone."""
    number ^= number >> 16
    number = number * 0x7FEB352D % 2 ** 32
    number ^= number >> 15
    number = number * 0x846CA68B % 2 ** 32
    return number ^ number >> 16


def keys_of(seed: int, length: int) -> Iterator[bytes]:
    """Keys of so many bytes, four or more, in no order, each another one."""
    drawn = random.Random(seed)
    first, head = drawn.getrandbits(32), bytes(drawn.getrandbits(8) for _ in range(length - 4))
    for number in range(first, first + 2 ** 32):
        yield head + mixed(number % 2 ** 32).to_bytes(4, "big")


def points() -> Iterator[int]:
    """Numbers of keys, each a fiftieth more than the last, or one more."""
    count = 1
    while True:
        yield count
        count = max(count + 1, count * 51 // 50)


class Filled(NamedTuple):
    """So many keys were put, and so many refused. A key that is as likely in any bucket is refused by
    as much as there are buckets that refuse it; the sum of that over the keys is what is counted, since
    few are refused in fact."""
    keys: int
    refused: float


def fill(units: int, size: Size, seed: int, most: int, share: float) -> List[Filled]:
    """Fills a chip with keys, up to so many, or until this share of them is refused."""
    chip, found = KeyChip(units, size), []
    ends = points()
    end, refused = next(ends), 0
    for number, key in enumerate(islice(keys_of(seed, size.key), most), 1):
        refused += chip.refusing
        chip.put(bucket_of(key, units))
        if number == end:
            found.append(Filled(number, refused / (UNIT_NAMES * units)))
            if found[-1].refused > share * number:
                break
            end = next(ends)
    return found


def filled(units: int, size: Size, share: float, keys: int) -> List[Filled]:
    """The mean of chips that are filled until some ten times this share is refused; of so many keys
    in all, and of two chips at least."""
    # More keys than a chip has room for.
    most = UNIT_NAMES * units * BUCKET_BYTES // size.pair
    counts = max(fill(units, size, seed, most, 10 * share)[-1].keys for seed in range(2))
    chips = [fill(units, size, seed, counts, 1) for seed in range(max(2, keys // counts))]
    return [Filled(at[0].keys, statistics.fmean(chip.refused for chip in at)) for at in zip(*chips)]


def keys_before(found: List[Filled], share: float) -> int:
    """How many keys are put before more than this share of them is refused."""
    before = Filled(0, 0.0)
    for now in found:
        if now.refused > share * now.keys:
            low, high = before.refused - share * before.keys, now.refused - share * now.keys
            return int(before.keys + (now.keys - before.keys) * -low / (high - low))
        before = now
    raise ValueError("too few keys were put")


def excess(mean: float, room: int) -> float:
    """By how much a number of Poisson's law with this mean exceeds this room, on the average."""
    logs = (n * math.log(mean) - mean - math.lgamma(n + 1) for n in range(room + 1, room + 1000))
    return sum((n - room) * math.exp(log) for n, log in enumerate(logs, room + 1))


def by_formula(size: Size, share: float) -> float:
    """How many keys there are for each bucket before more than this share is refused, where the keys
    of each bucket, and of each page, are a number of Poisson's law. A page has as many records as
    buckets with a key, on the average."""
    def refused(mean: float) -> float:
        records = RECORD_BYTES * SLOTS * (1 - math.exp(-mean))
        of_page = excess(SLOTS * mean, int((PAGE_BYTES - records) / size.pair))
        return excess(mean, BUCKET_BYTES // size.pair) / mean + of_page / (SLOTS * mean)
    low, high = 0.0, 12.0
    for _ in range(60):
        middle = (low + high) / 2
        low, high = (low, middle) if refused(middle) > share else (middle, high)
    return low


# Keys, the units of a chip and the buckets, worked out by hand: the sums are the published ones of
# "123456789", CBF43926, and of "a", E8B7BE43.
KNOWN_BUCKETS = [(b"123456789", 1, 422), (b"a", 1, 387), (b"123456789", 53, 49382),
                 (b"a", 53, 28227), (b"123456789", 4, 2342), (b"a", 4, 1347)]


def is_as_known() -> bool:
    """Whether buckets are those that are known; and that a bucket and a page are full where they are
    by hand: a bucket has room for 33 pairs of 14 bytes, and a page for 36 records of 206."""
    for key, units, bucket in KNOWN_BUCKETS:
        if bucket_of(key, units) != bucket:
            return False
    one = KeyChip(1, Size(4, 8))
    said = [one.put(0) for _ in range(34)]
    if said != [""] * 33 + ["bucketfull"] or one.refusing != 1:
        return False
    page = KeyChip(1, Size(4, 200))
    said = [page.put(bucket) for bucket in range(38)]
    # 7,680 - 36 x 209 are 156, so no bucket of the page takes a pair more.
    return said == [""] * 36 + ["pagefull"] * 2 and page.refusing == 64
