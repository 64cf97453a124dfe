"""The bytes of a chip, by docs/FORMAT.md: what a sector says, and the grammar of each payload."""
from __future__ import annotations

import struct
import zlib
from dataclasses import dataclass
from enum import IntEnum
from functools import lru_cache
from typing import BinaryIO, Dict, FrozenSet, List, NamedTuple, Optional, Sequence, Tuple, Union

SECTOR_BYTES = 512
SECTORS = 256
PLACE_BYTES = SECTORS * SECTOR_BYTES
FEWEST_PLACES, MOST_PLACES = 5, 1028
# So many places are no unit's, and at most so many more are spare.
RESERVED_PLACES, MOST_SPARES = 4, 64

PAGES = 15
SLOTS = 64
MOST_PIECES = 16
PIECE_BYTES = 480
MOST_TEXT_BYTES = MOST_PIECES * PIECE_BYTES
MOST_CARRIED = 12
MOST_COMMITTED = 60
# The sectors of a data place from this one on are its unit's log sectors.
FIRST_LOG_SECTOR = 241

HEAD = struct.Struct(">4sBBHIQQI")
RECORD_HEAD = struct.Struct(">BBBBQ")
MARKER = b"IPL1"
# In the first version a length has one byte, and from then on two. From the third on a header says
# how often its place was erased, and that of the status which places are retired.
FIRST_VERSION, COUNTING_VERSION, LAST_VERSION = 1, 3, 3
FIRST_MOST_VALUE_BYTES, MOST_VALUE_BYTES = 108, 464
SUM_AT = 28
PUT, DELETE = 1, 2
BLANK = b"\xff" * SECTOR_BYTES


class Kind(IntEnum):
    """The kinds of sector, with their numbers on the chip."""
    DATA = 1
    STATUS = 2
    OVERFLOW = 3
    BASE = 4
    LOG = 5
    COMMIT = 6
    MARK = 7

    @property
    def is_header(self) -> bool:
        return self <= Kind.OVERFLOW


KINDS = {int(kind): kind for kind in Kind}


@dataclass(frozen=True)
class Erased:
    """A sector of bytes FF."""


@dataclass(frozen=True)
class Bad:
    """A sector whose stored sum isn't that of its other bytes."""
    stored: int
    computed: int


@dataclass(frozen=True)
class Strange:
    """A sector whose sum is right, and which breaks another rule."""


class Sector(NamedTuple):
    """A sector that checks, and what it says. Its payload is read by its own version."""
    kind: Kind
    version: int
    unit: int
    generation: int
    serial: int
    payload: bytes


ERASED = Erased()
SectorClass = Union[Erased, Bad, Strange, Sector]


class NotAChip(Exception):
    """A file that has the length of no chip, or can't be read to its end."""


def sum_of(sector: bytes) -> int:
    """The CRC-32 of all bytes of a sector but its own four."""
    return zlib.crc32(sector[HEAD.size:], zlib.crc32(sector[:SUM_AT]))


def class_of(sector: bytes) -> SectorClass:
    """What 512 bytes are, by the first rule that applies."""
    if sector == BLANK:
        return ERASED
    marker, kind, version, used, unit, generation, serial, stored = HEAD.unpack_from(sector)
    computed = sum_of(sector)
    if stored != computed:
        return Bad(stored, computed)
    is_known = marker == MARKER and kind in KINDS and FIRST_VERSION <= version <= LAST_VERSION
    end = HEAD.size + used
    if not is_known or used > PIECE_BYTES or any(sector[end:]):
        return Strange()
    return Sector(KINDS[kind], version, unit, generation, serial, sector[HEAD.size:end])


def count_places(length: int) -> int:
    """How many places a file of so many bytes has; no chip has any other length."""
    places, rest = divmod(length, PLACE_BYTES)
    if rest:
        raise NotAChip(f"{length} bytes are no whole number of places of {PLACE_BYTES} bytes")
    if not FEWEST_PLACES <= places <= MOST_PLACES:
        raise NotAChip(f"{places} places, and a chip has {FEWEST_PLACES} to {MOST_PLACES}")
    return places


class Chart:
    """What stands in each sector of a chip file. It is read when it is asked for, a place at a time,
    since all that a large chip holds would take hundreds of megabytes."""

    def __init__(self, file: BinaryIO) -> None:
        self.file = file
        self.places = count_places(file.seek(0, 2))

    def __len__(self) -> int:
        return self.places

    def sectors(self, place: int, first: int = 0, end: int = SECTORS) -> List[SectorClass]:
        """The sectors of a place from one number up to another, which isn't among them."""
        length = (end - first) * SECTOR_BYTES
        try:
            self.file.seek((place * SECTORS + first) * SECTOR_BYTES)
            contents = self.file.read(length)
        except OSError as error:
            raise NotAChip(f"place {place}: {error.strerror or error}") from error
        if len(contents) < length:
            raise NotAChip(f"the file ends within place {place}")
        if contents == BLANK * (end - first):
            return [ERASED] * (end - first)
        starts = range(0, length, SECTOR_BYTES)
        return [class_of(contents[start:start + SECTOR_BYTES]) for start in starts]


@dataclass(frozen=True)
class DataHeader:
    """The payload of a data header but its number of units and its count of erases."""
    base_counts: Tuple[int, ...]
    carried: int


@dataclass(frozen=True)
class StatusHeader:
    """The payload of a status header but its number of units and its count of erases."""
    retired: Tuple[int, ...]


def units_of(payload: bytes) -> Optional[int]:
    """The number of units that a header's payload begins with, where it is as long as that."""
    return int.from_bytes(payload[:4], "big") if len(payload) >= 4 else None


def erases_at(kind: Kind) -> int:
    """Where the count of erases stands in the payload of a header."""
    return 4 + PAGES + 1 if kind == Kind.DATA else 4


def erases_of(first: SectorClass) -> int:
    """How often a place was erased, by its sector 0; once where that doesn't say it."""
    if not isinstance(first, Sector) or not first.kind.is_header:
        return 1
    at = erases_at(first.kind)
    if first.version < COUNTING_VERSION or len(first.payload) < at + 4:
        return 1
    return int.from_bytes(first.payload[at:at + 4], "big")


def data_header(sector: Sector) -> Optional[DataHeader]:
    """What a data header's payload says, or none where it isn't in the grammar."""
    payload, without_erases = sector.payload, erases_at(Kind.DATA)
    if len(payload) != without_erases + (4 if sector.version >= COUNTING_VERSION else 0):
        return None
    header = DataHeader(tuple(payload[4:4 + PAGES]), payload[4 + PAGES])
    if max(header.base_counts) > MOST_PIECES or header.carried > MOST_CARRIED:
        return None
    return header


def may_have_units(units: int, places: int) -> bool:
    """Whether a chip of so many places has so many units, some with places to spare."""
    return units >= 1 and 0 <= places - RESERVED_PLACES - units <= MOST_SPARES


def may_be_retired(retired: Sequence[int], units: int, places: int) -> bool:
    """Whether the places rise, are the chip's, and are no more than are spare beside the units."""
    rise = all(place < other for place, other in zip(retired, retired[1:]))
    most = min(MOST_SPARES, places - RESERVED_PLACES - units)
    return rise and len(retired) <= most and all(place < places for place in retired)


def status_header(sector: Sector, places: int) -> Optional[StatusHeader]:
    """What a status header's payload says on a chip of so many places, or none where it isn't in the
    grammar."""
    payload = sector.payload
    if sector.version < COUNTING_VERSION:
        return StatusHeader(()) if len(payload) == 4 else None
    if len(payload) < 9 or len(payload) != 9 + 4 * payload[8]:
        return None
    retired = struct.unpack(f">{payload[8]}I", payload[9:])
    units = int.from_bytes(payload[:4], "big")
    return StatusHeader(retired) if may_be_retired(retired, units, places) else None


def most_value_bytes(version: int) -> int:
    return FIRST_MOST_VALUE_BYTES if version == FIRST_VERSION else MOST_VALUE_BYTES


def text_size(slots: Dict[int, bytes]) -> int:
    """How many bytes the text of a page takes with these values, as it is written now."""
    return 3 * len(slots) + sum(map(len, slots.values()))


def page_slots(text: bytes, version: int) -> Optional[Dict[int, bytes]]:
    """The records of a page's text by slot, or none where it is no page's text."""
    slots: Dict[int, bytes] = {}
    at, least, end = 0, 0, len(text)
    head = 2 if version == FIRST_VERSION else 3
    most = most_value_bytes(version)
    if end > MOST_TEXT_BYTES:
        return None
    while at < end:
        start = at + head
        if end < start:
            return None
        slot, length = text[at], int.from_bytes(text[at + 1:start], "big")
        at = start + length
        if not least <= slot < SLOTS or length > most or end < at:
            return None
        slots[slot] = text[start:at]
        least = slot + 1
    return slots


class LogRecord(NamedTuple):
    """A change of a slot by a transaction; without a value a delete."""
    page: int
    slot: int
    transaction: int
    value: Optional[bytes]


def log_record_at(payload: bytes, at: int, version: int) -> Optional[Tuple[LogRecord, int]]:
    """The record that begins at a byte of a log payload, and where the next one begins."""
    if len(payload) < at + RECORD_HEAD.size:
        return None
    page, kind, slot, length, transaction = RECORD_HEAD.unpack_from(payload, at)
    if version != FIRST_VERSION:
        # Kind and slot share a byte, and the length has the two behind it.
        kind, slot, length = kind // SLOTS, kind % SLOTS, slot << 8 | length
    start = at + RECORD_HEAD.size
    value = payload[start:start + length]
    if page >= PAGES or slot >= SLOTS:
        return None
    if length > most_value_bytes(version) or len(value) < length:
        return None
    if kind not in (PUT, DELETE) or (kind == DELETE and length > 0):
        return None
    return LogRecord(page, slot, transaction, value if kind == PUT else None), start + length


# Each is asked for several times: for faults, for its numbers, and for each unit's pages.
@lru_cache(maxsize=None)
def log_records(sector: Sector) -> Optional[Tuple[LogRecord, ...]]:
    """The records of a log sector in order, or none where its payload isn't in the grammar."""
    records = []
    at = 0
    while at < len(sector.payload):
        read = log_record_at(sector.payload, at, sector.version)
        if read is None:
            return None
        record, at = read
        records.append(record)
    return tuple(records)


def transaction_numbers(payload: bytes) -> Optional[List[int]]:
    """The numbers of a commit payload, or none where it isn't in the grammar."""
    count, rest = divmod(len(payload), 8)
    if rest or not 1 <= count <= MOST_COMMITTED:
        return None
    return list(struct.unpack(f">{count}Q", payload))


def marked_units(payload: bytes, units: int) -> Optional[FrozenSet[int]]:
    """The units that a mark's payload says on a chip of so many, or none where it isn't in the grammar."""
    if len(payload) != 4 + (units + 7) // 8 or units_of(payload) != units:
        return None
    bits = int.from_bytes(payload[4:], "little")
    said = frozenset(unit for unit in range(bits.bit_length()) if bits >> unit & 1)
    return said if max(said, default=0) < units else None
