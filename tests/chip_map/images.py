"""Chip images, built byte by byte by docs/FORMAT.md. Shares no code with the tool that is tried."""
import struct

SECTOR_BYTES = 512
PLACE_BYTES = 256 * SECTOR_BYTES
DATA, STATUS, OVERFLOW, BASE, LOG, COMMIT, MARK = range(1, 8)
PUT, DELETE = 1, 2

# The examples at the end of docs/FORMAT.md: bytes 0..28 of a sector, its sum, its payload.
FORMATTED_HEADER = (
    "49 50 4c 31 01 03 00 18 00 00 00 00 00 00 00 00 00 00 00 01 00 00 00 00 00 00 00 01",
    "cf 9b 2a 99", "00 00 00 01" + 16 * " 00" + " 00 00 00 01")
STATUS_HEADER = (
    "49 50 4c 31 02 03 00 09 00 00 00 00 00 00 00 00 00 00 00 02 00 00 00 00 00 00 00 02",
    "06 fd 49 8d", "00 00 00 01 00 00 00 01 00")
RETIRING_HEADER = (
    "49 50 4c 31 02 03 00 0d 00 00 00 00 00 00 00 00 00 00 00 03 00 00 00 00 00 00 00 03",
    "8c c0 6b 9d", "00 00 00 01 00 00 00 02 01 00 00 00 02")
OVERFLOW_HEADER = (
    "49 50 4c 31 03 03 00 08 00 00 00 00 00 00 00 00 00 00 00 22 00 00 00 00 00 00 00 22",
    "59 e8 ed 74", "00 00 00 01 00 00 00 02")
BASE_SECTOR = (
    "49 50 4c 31 04 03 00 05 00 00 00 00 00 00 00 00 00 00 00 04 00 00 00 00 00 00 00 00",
    "12 fc 43 5f", "05 00 02 68 69")
PUT_RECORD = bytes.fromhex("00 45 00 02 00 00 00 00 00 00 00 07 68 69")
DELETE_RECORD = bytes.fromhex("0e bf 00 00 00 00 00 00 00 00 00 04")
PAGE_TEXT = bytes.fromhex("00 00 02 68 69 03 00 00")
# The headers of version 2, in which all else is as in version 3.
SECOND_HEADER = (
    "49 50 4c 31 01 02 00 14 00 00 00 00 00 00 00 00 00 00 00 01 00 00 00 00 00 00 00 01",
    "56 a7 da 44", "00 00 00 01" + 16 * " 00")
SECOND_STATUS_HEADER = (
    "49 50 4c 31 02 02 00 04 00 00 00 00 00 00 00 00 00 00 00 02 00 00 00 00 00 00 00 02",
    "b9 0e 54 c3", "00 00 00 01")
# The same of version 1.
FIRST_HEADER = (
    "49 50 4c 31 01 01 00 14 00 00 00 00 00 00 00 00 00 00 00 01 00 00 00 00 00 00 00 01",
    "06 e4 b2 58", "00 00 00 01" + 16 * " 00")
FIRST_BASE_SECTOR = (
    "49 50 4c 31 04 01 00 04 00 00 00 00 00 00 00 00 00 00 00 04 00 00 00 00 00 00 00 00",
    "d0 98 d1 48", "05 02 68 69")
FIRST_PUT_RECORD = bytes.fromhex("00 01 05 02 00 00 00 00 00 00 00 07 68 69")
FIRST_DELETE_RECORD = bytes.fromhex("0e 02 3f 00 00 00 00 00 00 00 00 04")
FIRST_PAGE_TEXT = bytes.fromhex("00 02 68 69 03 00")


def shifted(register):
    """A register after eight of the shifts of docs/FORMAT.md."""
    for _ in range(8):
        register = register >> 1 ^ (0xEDB88320 if register & 1 else 0)
    return register


# Of a register only the low byte decides what is added to it while it is shifted eight times.
SHIFTED = [shifted(byte) for byte in range(256)]


def crc32(data):
    """The sum as docs/FORMAT.md describes it."""
    register = 0xFFFFFFFF
    for byte in data:
        register = register >> 8 ^ SHIFTED[(register ^ byte) & 0xFF]
    return register ^ 0xFFFFFFFF


def spelled(head, total, payload):
    """A sector of the documents' hexadecimal bytes, its payload filled up with zeros."""
    said = bytes.fromhex(payload)
    return bytes.fromhex(head) + bytes.fromhex(total) + said + bytes(480 - len(said))


def raw_sector(head, payload):
    """A sector of any bytes 0..28 and 32..512, with its right sum."""
    return head + struct.pack(">I", crc32(head + payload)) + payload


def sector(kind, unit, generation, serial, payload=b"", version=3):
    head = struct.pack(">4sBBHIQQ", b"IPL1", kind, version, len(payload), unit, generation, serial)
    return raw_sector(head, payload + bytes(480 - len(payload)))


def erases_said(erases, version):
    """The bytes in which a header says how often its place was erased."""
    return struct.pack(">I", erases) if version > 2 else b""


def data_header(generation, units=1, counts=None, carried=0, unit=0, serial=None, version=3,
                erases=1):
    """A data header; counts has the number of base sectors of some pages, by page."""
    numbers = bytes((counts or {}).get(page, 0) for page in range(15))
    payload = struct.pack(">I", units) + numbers + bytes([carried]) + erases_said(erases, version)
    serial = generation if serial is None else serial
    return sector(DATA, unit, generation, serial, payload, version)


def status_payload(units=1, erases=1, retired=()):
    """The payload of a status header of version 3."""
    return struct.pack(f">IIB{len(retired)}I", units, erases, len(retired), *retired)


def status_header(generation, units=1, serial=None, version=3, erases=1, retired=()):
    serial = generation if serial is None else serial
    payload = status_payload(units, erases, retired) if version > 2 else struct.pack(">I", units)
    return sector(STATUS, 0, generation, serial, payload, version)


def overflow_header(generation, units=1, version=3, erases=1):
    payload = struct.pack(">I", units) + erases_said(erases, version)
    return sector(OVERFLOW, 0, generation, generation, payload, version)


def length_of(value, version):
    """The bytes of a value's length: one in version 1, two from then on."""
    return len(value).to_bytes(1 if version == 1 else 2, "big")


def text_of(slots, version=3):
    """The text of a page from its values by slot."""
    return b"".join(bytes([slot]) + length_of(slots[slot], version) + slots[slot]
                    for slot in sorted(slots))


def base(generation, page, text, piece=0, unit=0, version=3):
    return sector(BASE, unit, generation, 16 * page + piece, text, version)


def record(page, slot, transaction, value=None, version=3):
    """A log record; without a value it is a delete."""
    kind = DELETE if value is None else PUT
    said = value or b""
    kind_and_slot = [kind, slot] if version == 1 else [64 * kind + slot]
    head = bytes([page, *kind_and_slot]) + length_of(said, version)
    return head + struct.pack(">Q", transaction) + said


def log(generation, serial, *records, unit=0, version=3):
    return sector(LOG, unit, generation, serial, b"".join(records), version)


def commit(generation, serial, *numbers, version=3):
    payload = struct.pack(f">{len(numbers)}Q", *numbers)
    return sector(COMMIT, 0, generation, serial, payload, version)


def mark(generation, serial, *units, of=1, version=3):
    """The mark of a clean close on a chip of so many units."""
    bits = bytearray((of + 7) // 8)
    for unit in units:
        bits[unit // 8] |= 1 << unit % 8
    return sector(MARK, 0, generation, serial, struct.pack(">I", of) + bytes(bits), version)


class Image:
    """The bytes of a chip, erased at first."""

    def __init__(self, places=5):
        self.bytes = bytearray(b"\xff") * (places * PLACE_BYTES)

    def put(self, place, number, contents):
        at = (place * 256 + number) * SECTOR_BYTES
        self.bytes[at:at + SECTOR_BYTES] = contents
        return self

    def erase(self, place):
        self.bytes[place * PLACE_BYTES:(place + 1) * PLACE_BYTES] = b"\xff" * PLACE_BYTES
        return self

    def flip(self, place, number, byte):
        """Changes a bit of one byte of a sector."""
        self.bytes[(place * 256 + number) * SECTOR_BYTES + byte] ^= 1
        return self


def formatted(places=5, spares=0):
    """A chip just formatted: each unit at the place of its number, and then the status."""
    image = Image(places)
    units = places - 4 - spares
    for unit in range(units):
        image.put(unit, 0, data_header(1 + unit, units, unit=unit))
    return image.put(units, 0, status_header(1 + units, units))


def first_record():
    """A chip whose unit stands at place 2 with the base sector of docs/FORMAT.md's examples."""
    image = formatted()
    image.put(2, 1, spelled(*BASE_SECTOR))
    return image.put(2, 0, data_header(4, counts={0: 1}))


def opened(spares=0):
    """A chip of one unit, formatted and opened: status header 3 at place 2, before the first commit."""
    return formatted(5 + spares, spares).put(2, 0, status_header(3, erases=2))


def meter():
    """The chip after examples/meter.ipl.

    The first commit, of number 4, merges the unit to place 1 with generation 5; each of the three
    commits has a log sector and a commit sector, of serials 6 and 7, 9 and 10, 12 and 13. The numbers
    14 and 15 begin transactions that write nothing that lasts."""
    january = bytes.fromhex("20260131001398cc")
    february = bytes.fromhex("2026022800173856")
    image = opened().put(1, 0, data_header(5, erases=2))
    image.put(1, 241, log(5, 6, record(0, 0, 4, b"M4711-03"), record(0, 1, 4, b"\x02")))
    image.put(1, 242, log(5, 9, record(1, 0, 8, january)))
    image.put(1, 243, log(5, 12, record(1, 1, 11, february)))
    return image.put(2, 1, commit(3, 7, 4)).put(2, 2, commit(3, 10, 8)).put(2, 3, commit(3, 13, 11))


def sixteen_commits(spares=0):
    """The second case of power cuts of docs/CASES.md before its last three programs.

    Fifteen commits of one byte at name 5: the n-th has number, log serial and commit serial in
    a row, but for the first one, whose place has generation 5. With places to spare none is taken that
    wouldn't be without: the opening takes the lowest that is free, and the first commit that of the
    status before."""
    image = opened(spares).put(1, 0, data_header(5, erases=2))
    image.put(1, 241, log(5, 6, record(0, 5, 4, b"\x01"))).put(2, 1, commit(3, 7, 4))
    for turn in range(2, 16):
        number = 8 + 3 * (turn - 2)
        image.put(1, 240 + turn, log(5, number + 1, record(0, 5, number, bytes([turn]))))
        image.put(2, turn, commit(3, number + 2, number))
    return image


def sixteenth_commit(spares=0):
    """The second case of power cuts of docs/CASES.md at its end. Place 0 was the unit's, and so it was
    erased once, as those that were never taken."""
    image = sixteen_commits(spares).erase(0).put(0, 1, base(51, 0, text_of({5: b"\x0f"})))
    image.put(0, 0, data_header(51, counts={0: 1}, erases=2))
    image.put(0, 241, log(51, 52, record(0, 5, 50, b"\x10")))
    return image.put(2, 16, commit(3, 53, 50))


def full_log():
    """The third case of power cuts of docs/CASES.md before its overflow place is taken."""
    image = opened().put(1, 0, data_header(5, erases=2))
    for index in range(9):
        names = range(4 * index, 4 * index + 4)
        image.put(1, 241 + index, log(5, 6 + index, *(record(0, n, 4, b"x" * 108) for n in names)))
    for turn in range(1, 7):
        number = 15 + 3 * (turn - 1)
        image.put(1, 249 + turn, log(5, number + 1, record(1, 0, number, bytes([turn]))))
        image.put(2, turn, commit(3, number + 2, number))
    return image.erase(0)


def merged_log():
    """The third case of power cuts of docs/CASES.md at its end."""
    image = full_log().put(0, 0, overflow_header(34, erases=2))
    image.put(0, 1, log(5, 35, record(1, 0, 33, b"\x07"))).put(2, 7, commit(3, 36, 33))
    image.put(3, 17, base(38, 1, text_of({0: b"\x07"})))
    image.put(3, 0, data_header(38, counts={1: 1}, erases=2))
    image.put(3, 241, log(38, 39, record(1, 0, 37, b"\x08")))
    return image.put(2, 8, commit(3, 40, 37))


def prices(first):
    """The records of four prices of examples/long_session, which fill a log sector."""
    return [record(0, price, 5, bytes([97 + price % 26]) * 108)
            for price in range(first, first + 4)]


def long_session():
    """The chip after examples/long_session.

    The opening puts status header 4 on place 3, and session 1 draws the number 5. Its fifth put merges
    unit 1 to place 2 with generation 6, and its records have eight log sectors of serials 7 to 14. Four
    records stay in memory until the list at the end needs their page's frame, and have serial 154.
    Each of the six places is erased once by the format, and all but place 5 once more before the last
    merge of unit 0, which therefore takes it."""
    image = formatted(6).put(3, 0, status_header(4, 2, erases=2)).erase(2)
    image.put(2, 0, data_header(6, 2, unit=1, erases=2))
    for index in range(8):
        image.put(2, 241 + index, log(6, 7 + index, *prices(4 * index), unit=1))
    put_counts(image)
    put_readings(image)
    return image.put(1, 3, log(6, 154, *prices(32), unit=1))


def put_counts(image):
    """What session 0 counts in examples/long_session: the first seven fill the log of unit 1.

    A merge would carry eight log sectors, so the eighth takes place 1 as an overflow place, with a
    generation, 37, that is drawn between the number of the transaction and its serial."""
    image.erase(1).put(1, 0, overflow_header(37, 2, erases=2))
    for count in range(1, 10):
        number = 12 + 3 * count + (count > 8)
        serial = number + 1 + (count == 8)
        place, at = (2, 248 + count) if count < 8 else (1, count - 7)
        image.put(place, at, log(6, serial, record(1, 0, number, bytes([count])), unit=1))
        image.put(3, count, commit(4, serial + 1, number))


def reading_of(number):
    return number.to_bytes(2, "big") * 50


def put_readings(image):
    """The readings of examples/long_session: a fifteenth merges unit 0, to the places 4, 0 and 5.

    These draw the generations 44, 90 and 136. Place 4 is left over with a log of the first 15
    readings, place 0 with the pages of these and a log of 15 more; place 5 has the pages of 30, and a
    log of six."""
    for place, generation, readings in zip((4, 0, 5), (44, 90, 136), (0, 15, 30)):
        put_pages(image, place, generation, readings)
    for reading in range(36):
        # So many merges came before its begin, and each drew a number.
        number = 43 + 3 * reading + -(-reading // 15)
        serial = number + 1 + (reading % 15 == 0)
        logged = record(reading % 6, reading, number, reading_of(reading))
        image.put(3, 10 + reading, commit(4, serial + 1, number))
        place, generation = ((4, 44), (0, 90), (5, 136))[reading // 15]
        image.put(place, 241 + reading % 15, log(generation, serial, logged))


def put_pages(image, place, generation, readings):
    """Puts unit 0 on a place, with the readings below a number on six pages."""
    texts = [text_of({reading: reading_of(reading) for reading in range(page, readings, 6)})
             for page in range(6)]
    counts = {page: -(-len(text) // 480) for page, text in enumerate(texts)}
    image.erase(place).put(place, 0, data_header(generation, 2, counts, erases=2))
    for page, text in enumerate(texts):
        for piece in range(counts[page]):
            part = text[480 * piece:480 * (piece + 1)]
            image.put(place, 1 + 16 * page + piece, base(generation, page, part, piece))
