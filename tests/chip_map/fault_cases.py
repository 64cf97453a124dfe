"""Cases of what is wrong with a chip, and of which fault is told first."""
from asking import Picture, case, wants, wants_fault, wants_letters, wants_records
from images import (COMMIT, DATA, FIRST_PUT_RECORD, LOG, MARK, OVERFLOW, PUT_RECORD, STATUS, base,
                    commit, data_header, first_record, formatted, log, overflow_header, raw_sector,
                    record, sector, status_header, status_payload, text_of)


@case
def a_damaged_base_sector_is_named_with_its_sums():
    image = first_record()
    image.bytes[262692] = ord("j")
    note = "damaged place 2 sector 1 stored 12fc435f computed 9bb9c40d"
    wants_fault("a changed byte", image, note)
    wants_letters("a changed byte", image, (2, 0, "H!."))


@case
def a_long_page_stands_in_pieces():
    slots = {slot: bytes([slot]) * 108 for slot in range(64)}
    pieces = [text_of(slots)[at:at + 480] for at in range(0, 7040, 480)]
    image = formatted().put(2, 0, data_header(5, counts={14: 15}))
    for piece, text in enumerate(pieces):
        image.put(2, 225 + piece, base(5, 14, text, piece))
    wants_records("a page of 64 records", image, [f"{896 + n} {slots[n].hex()}" for n in range(64)])
    wants_letters("a page of 64 records", image, (2, 224, "." + 15 * "B" + ".."))
    image.put(2, 230, b"\xff" * 512)
    wants_fault("a piece is missing", image, "malformed place 2 sector 230")
    wants_letters("a piece is missing", image, (2, 224, ".BBBBB!BBBBBBBBB"))


@case
def texts_that_are_no_page_are_malformed():
    texts = ["03 00 00 00 00 00", "03 00 00 03 00 00", "40 00 00", "00 01 d1" + 465 * " 00",
             "00 00 02 68", "00 00 02 68 69 03"]
    for text in texts:
        image = first_record().put(2, 1, base(4, 0, bytes.fromhex(text)))
        wants_fault(text, image, "malformed place 2 sector 1")
    firsts = ["03 00 00 00", "03 00 03 00", "40 00", "00 6d" + 109 * " 00", "00 02 68",
              "00 02 68 69 03"]
    for text in firsts:
        image = formatted().put(2, 1, base(4, 0, bytes.fromhex(text), version=1))
        image.put(2, 0, data_header(4, counts={0: 1}, version=1))
        wants_fault(text + " of version 1", image, "malformed place 2 sector 1")
    whole = text_of({slot: b"x" * 108 for slot in range(5)})
    image = formatted().put(2, 0, data_header(4, counts={3: 2}))
    image.put(2, 49, base(4, 3, whole[:480])).put(2, 50, base(4, 3, whole[480:-1], piece=1))
    wants_fault("two pieces, of which the first is named", image, "malformed place 2 sector 49")


@case
def a_page_without_room_for_its_values_is_told_by_its_header():
    text = text_of({slot: b"x" * 464 for slot in range(16)})
    for length in (205, 206):
        image = formatted().put(0, 0, data_header(1, counts={0: 16})).put(1, 1, commit(2, 9, 3))
        for piece in range(16):
            image.put(0, 1 + piece, base(1, 0, text[480 * piece:480 * piece + 480], piece))
        image.put(0, 241, log(1, 5, record(0, 16, 3, b"y" * length)))
        image.put(0, 242, log(1, 6, record(0, 17, 4, b"z" * 464)))
        if length == 205:
            values = [f"{slot} {(b'x' * 464).hex()}" for slot in range(16)]
            wants_records("7,680 bytes", image, values + [f"16 {(b'y' * 205).hex()}"])
        else:
            wants_fault("7,681 bytes", image, "malformed place 0 sector 0")


@case
def base_sectors_of_other_pages_are_malformed():
    text = text_of({5: b"hi"})
    others = [base(5, 0, text), base(4, 1, text), base(4, 0, text, piece=1),
              base(4, 0, text, unit=1), sector(LOG, 0, 4, 0, text), base(4, 0, b""), b"\xff" * 512,
              base(4, 0, text_of({5: b"hi"}, version=1), version=1),
              raw_sector(base(4, 0, text)[:28], text + bytes(474) + b"\x01")]
    for other in others:
        wants_fault("another sector", first_record().put(2, 1, other), "malformed place 2 sector 1")


@case
def log_payloads_out_of_the_grammar_are_malformed():
    # Of kind 3, a delete with a value, too short, of page 15, of kind 0, and others.
    payloads = [b"\x00\xc5" + PUT_RECORD[2:], b"\x00\x85\x00\x01" + bytes(8) + b"a",
                PUT_RECORD[:11], b"\x0f" + PUT_RECORD[1:], b"\x00\x05" + PUT_RECORD[2:],
                PUT_RECORD[:-1], PUT_RECORD + b"\x00", record(0, 0, 4, b"x" * 465)]
    # The same of version 1, and of slot 64.
    put = FIRST_PUT_RECORD
    firsts = [b"\x00\x03" + put[2:], b"\x00\x02\x05\x01" + bytes(8) + b"a", put[:11],
              b"\x0f" + put[1:], b"\x00\x00" + put[2:], b"\x00\x01\x40" + put[3:], put[:-1],
              put + b"\x00", record(0, 0, 4, b"x" * 109, version=1)]
    later = [(p, version) for p in payloads for version in (2, 3)]
    for payload, version in later + [(p, 1) for p in firsts]:
        live, dead = (sector(LOG, 0, own, 9, payload, version) for own in (1, 3))
        image = formatted().put(0, 250, live)
        wants_fault(payload.hex(), image, "malformed place 0 sector 250")
        wants_records("dead ones", formatted().put(0, 250, dead), [])
    wants_records("an empty one", formatted().put(0, 250, log(1, 9)), [])


@case
def commit_payloads_out_of_the_grammar_are_malformed():
    for payload in (b"", bytes(12), bytes(7)):
        image = formatted().put(1, 3, sector(COMMIT, 0, 2, 9, payload))
        wants_fault(payload.hex(), image, "malformed place 1 sector 3")
        wants_letters("at fault", image, (1, 0, "H..!."))
    wants_records("sixty numbers", formatted().put(1, 255, commit(2, 9, *range(60))), [])


@case
def marks_out_of_the_grammar_are_malformed_in_order_with_commit_sectors():
    one = bytes.fromhex("00 00 00 01")
    for payload in (b"", one, one + b"\x00\x00", one + b"\x02", bytes.fromhex("00 00 00 02 01")):
        wrong = sector(MARK, 0, 2, 9, payload)
        wants_fault(payload.hex(), formatted().put(1, 3, wrong), "malformed place 1 sector 3")
        wants_letters("at fault", formatted().put(1, 3, wrong), (1, 0, "H..!."))
        wants_records("left over", formatted().put(1, 3, sector(MARK, 0, 1, 9, payload)), [])
        before = formatted().put(1, 4, wrong).put(1, 3, sector(COMMIT, 0, 2, 9, bytes(12)))
        wants_fault("the commit sector before", before, "malformed place 1 sector 3")
        behind = formatted().put(1, 3, wrong).put(1, 4, sector(COMMIT, 0, 2, 9, bytes(12)))
        wants_fault("the commit sector behind", behind, "malformed place 1 sector 3")


@case
def header_payloads_out_of_the_grammar_are_malformed():
    said, before = data_header(1)[32:56], data_header(1, version=2)[32:52]
    payloads = [said[:23], said + b"\x00", said[:20], said[:2], b"", said[:4] + b"\x11" + said[5:],
                said[:19] + b"\x0d" + said[20:]]
    befores = [before[:19], before + b"\x00", before[:2], said, before[:4] + b"\x11" + before[5:],
               before[:19] + b"\x0d"]
    versions = [(p, 3) for p in payloads] + [(p, version) for p in befores for version in (1, 2)]
    for payload, version in versions:
        image = formatted().put(0, 0, sector(DATA, 0, 1, 1, payload, version))
        wants_fault(f"{payload.hex()} of {version}", image, "malformed place 0 sector 0")
    for version in (1, 2, 3):
        most = data_header(1, version=version, carried=12, erases=0)
        wants_records("twelve were carried", formatted().put(0, 0, most), [])
    other = formatted().put(3, 0, sector(OVERFLOW, 0, 4, 4, b"anything"))
    wants_records("an overflow header's payload isn't tested", other, [])


@case
def status_payloads_out_of_the_grammar_are_malformed():
    said = status_payload()
    payloads = [b"", said[:3], said[:4], said[:5], said[:8], said + b"\x00", said[:8] + b"\x01",
                said[:8] + b"\x01\x00\x00\x00", said[:8] + b"\x01" + bytes(8)]
    befores = [b"", said[:3], said[:4] + b"\x00", said[:8], said]
    for payload, version in [(p, 3) for p in payloads] + [(p, v) for p in befores for v in (1, 2)]:
        image = formatted().put(1, 0, sector(STATUS, 0, 2, 2, payload, version))
        wants_fault(f"{payload.hex()} of {version}", image, "malformed place 1 sector 0")
    for erases in (0, 1, 2 ** 32 - 1):
        wants_records("a count", formatted().put(1, 0, status_header(2, erases=erases)), [])


@case
def lists_of_retired_places_out_of_the_grammar_retire_none():
    # On chips of one unit, with one place to spare, or two, and so on.
    def listing(spares, *retired):
        return formatted(5 + spares, spares).put(1, 0, status_header(2, retired=retired))
    for line, spares, retired in [("5", 1, (5,)), ("0, 6", 2, (0, 6)), ("3 to 66", 64, range(3, 67))]:
        image = listing(spares, *retired)
        wants_records(line, image, [])
        wants(line, Picture(image).head[4], f"retired places: {line}")
    for what, spares, retired in [("out of order", 2, (4, 3)), ("twice", 2, (3, 3)),
                                  ("not the chip's", 2, (3, 7)), ("2^32 - 1", 2, (2 ** 32 - 1,)),
                                  ("one, and none to spare", 0, (2,)),
                                  ("two, and one to spare", 1, (2, 3)),
                                  ("65, and 64 to spare", 64, range(3, 68))]:
        image = listing(spares, *retired)
        wants_fault(what, image, "malformed place 1 sector 0")
        found = [line for line in Picture(image).head if line.startswith("retired")]
        wants(what, found, [])


@case
def headers_of_a_chip_of_another_size_are_told():
    longer = sector(STATUS, 0, 2, 2, b"\x00\x00\x00\x02\x00")
    for place, header in [(1, status_header(2, 2)), (1, longer), (0, data_header(1, 2))]:
        wants_fault("another size", formatted().put(place, 0, header), "geometry")
    image = formatted().put(2, 0, data_header(1, 2)).put(3, 0, status_header(1, 2))
    wants_records("left over", image.put(4, 0, overflow_header(9, 2)), [])
    for units in (0, 1, 3, 2 ** 32 - 1):
        image = formatted(7, 1).put(0, 0, data_header(1, units))
        wants_fault(f"a unit says {units}", image, "geometry")
    # No unit; 65 places to spare; a place too few; and far too many units.
    for units in (0, 1, 67, 2 ** 32 - 1):
        image = formatted(70, 64).put(2, 0, status_header(3, units))
        wants_fault(f"the status says {units}", image, "geometry")


@case
def faults_come_in_the_order_of_telling():
    # From the last group to the first: each fault is put before those that are there already.
    image = formatted(8)
    steps = [(2, 0, data_header(30, 4, {0: 1}, unit=2), "malformed place 2 sector 1"),
             (0, 250, log(1, 2 ** 63), "numbers spent"),
             (0, 241, log(1, 2 ** 63), "malformed place 0 sector 250"),
             (4, 9, sector(COMMIT, 0, 5, 40), "malformed place 4 sector 9"),
             (4, 0, sector(STATUS, 0, 5, 5, b"\x00\x00\x00\x04\x00"), "malformed place 4 sector 0"),
             (3, 0, sector(DATA, 3, 4, 4, b"\x00\x00\x00\x04"), "malformed place 3 sector 0"),
             (1, 0, b"\xff" * 512, "missing unit 1"),
             (0, 0, data_header(1, 5), "geometry"),
             (4, 0, b"\xff" * 512, "not formatted")]
    for place, number, contents, note in steps:
        wants_fault(note, image.put(place, number, contents), note)


@case
def at_most_sixteen_log_sectors_of_a_unit_stand_elsewhere():
    image = formatted(6).put(3, 0, overflow_header(5, 2))
    for number in range(1, 17):
        image.put(3, number, log(1, 10 + number, record(0, 0, 9, b"")))
    image.put(3, 200, log(2, 50, record(0, 0, 9, b""), unit=1))
    wants_records("sixteen", image, [])
    image.erase(0).put(5, 0, data_header(1, 2)).put(5, 241, log(1, 70))
    wants_records("sixteen, and one at home in a later place", image, [])
    image.put(3, 30, log(1, 60))
    wants_fault("seventeen", image, "malformed place 3 sector 30")
    image.put(5, 242, log(1, 61))
    wants_fault("seventeen and two at home", image, "malformed place 3 sector 30")


@case
def at_most_two_overflow_places_are_in_use():
    image = formatted(7)
    for place in (4, 5, 6):
        image.put(place, 0, overflow_header(place, 3)).put(place, 1, log(9, 10 + place))
    for place in (4, 5, 6):
        wants_records("at most two are in use", image, [])
        image.put(place, 2, log(1, 20 + place))
    wants_fault("three are in use", image, "no spare 3")


@case
def two_live_log_sectors_with_one_serial_are_malformed():
    image = formatted().put(0, 241, log(1, 9)).put(0, 251, log(1, 8)).put(0, 255, log(1, 9))
    wants_fault("one serial", image, "malformed place 0 sector 255")


@case
def a_number_of_2_to_the_63_is_spent():
    wants_records("below", formatted().put(0, 241, log(1, 2 ** 63 - 1)), [])
    wants_fault("at the limit", formatted().put(0, 241, log(1, 2 ** 63)), "numbers spent")


@case
def strange_sectors_are_told_from_torn_ones():
    whole = log(1, 9, record(0, 0, 4, b"\x01"))
    head, payload = whole[:28], whole[32:]
    strange = [(b"IPL2" + head[4:], payload), (head[:4] + b"\x08" + head[5:], payload),
               (head[:4] + b"\x00" + head[5:], payload), (head[:5] + b"\x04" + head[6:], payload),
               (head[:5] + b"\x00" + head[6:], payload),
               (head[:6] + b"\x01\xe1" + head[8:], payload), (head, payload[:479] + b"\x01")]
    for parts in strange:
        image = formatted().put(0, 241, raw_sector(*parts)).put(1, 1, commit(2, 9, 4))
        wants_letters("strange", image, (0, 241, "?."))
        wants_records("strange", image, [])
    image = formatted().put(0, 241, whole).flip(0, 241, 40).put(1, 1, commit(2, 9, 4))
    wants_letters("torn", image, (0, 241, "x."))
    wants_records("torn", image, [])


@case
def units_without_a_header_are_said():
    image = formatted(12)
    for place in (1, 3, 4, 5):
        image.erase(place)
    head = Picture(image).head
    wants("missing", "units without a current header: 1, 3 to 5" in head, True)
    wants_fault("the least one", image, "missing unit 1")
