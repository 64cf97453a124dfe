"""Cases of what counts on a chip and which records it stands for."""
from asking import Picture, case, wants, wants_fault, wants_labels, wants_letters, wants_records
from images import (BASE_SECTOR, DATA, DELETE_RECORD, FIRST_BASE_SECTOR, FIRST_DELETE_RECORD,
                    FIRST_HEADER, FIRST_PAGE_TEXT, FIRST_PUT_RECORD, FORMATTED_HEADER, Image, LOG,
                    OVERFLOW, OVERFLOW_HEADER, PAGE_TEXT, PUT_RECORD, RETIRING_HEADER, SECOND_HEADER,
                    SECOND_STATUS_HEADER, STATUS, STATUS_HEADER, base, commit, crc32, data_header,
                    first_record, formatted, full_log, log, mark, merged_log, overflow_header, record, sector,
                    sixteen_commits, spelled, status_header, status_payload, text_of)


@case
def sums_are_those_of_the_format():
    wants("sum of 123456789", crc32(b"123456789"), 0xCBF43926)
    wants("sum of no bytes", crc32(b""), 0)
    wants("sum of 512 bytes FF", crc32(b"\xff" * 512), 0xBD7BC39F)
    wants("the worked header", data_header(1), spelled(*FORMATTED_HEADER))
    wants("the worked status header", status_header(2), spelled(*STATUS_HEADER))
    wants("the worked header that retires a place", status_header(3, erases=2, retired=(2,)),
          spelled(*RETIRING_HEADER))
    wants("the worked overflow header", overflow_header(34, erases=2), spelled(*OVERFLOW_HEADER))
    wants("the worked base sector", base(4, 0, b"\x05\x00\x02hi"), spelled(*BASE_SECTOR))
    wants("the worked put", record(0, 5, 7, b"hi"), PUT_RECORD)
    wants("the worked delete", record(14, 63, 4), DELETE_RECORD)
    wants("the worked text", text_of({3: b"", 0: b"hi"}), PAGE_TEXT)


@case
def version_2_is_spelled_as_it_was():
    wants("the header", data_header(1, version=2), spelled(*SECOND_HEADER))
    wants("the status header", status_header(2, version=2), spelled(*SECOND_STATUS_HEADER))
    wants("the put", record(0, 5, 7, b"hi", version=2), PUT_RECORD)
    wants("the text", text_of({3: b"", 0: b"hi"}, version=2), PAGE_TEXT)


@case
def version_1_is_spelled_as_it_was():
    wants("the header", data_header(1, version=1), spelled(*FIRST_HEADER))
    wants("the base sector", base(4, 0, b"\x05\x02hi", version=1), spelled(*FIRST_BASE_SECTOR))
    wants("the put", record(0, 5, 7, b"hi", version=1), FIRST_PUT_RECORD)
    wants("the delete", record(14, 63, 4, version=1), FIRST_DELETE_RECORD)
    wants("the text", text_of({3: b"", 0: b"hi"}, version=1), FIRST_PAGE_TEXT)


@case
def each_payload_is_read_by_the_version_of_its_sector():
    image = Image().put(1, 0, status_header(2, version=1)).put(1, 1, commit(2, 9, 3))
    image.put(0, 0, data_header(4, counts={0: 1}, version=1))
    image.put(0, 1, spelled(*FIRST_BASE_SECTOR))
    image.put(0, 241, log(4, 6, record(0, 6, 3, b"a", version=1), version=1))
    image.put(0, 242, log(4, 7, record(0, 7, 3, b"b", version=2), version=2))
    image.put(0, 243, log(4, 8, record(0, 8, 3, b"c")))
    image.put(1, 2, commit(2, 10, 8, version=1))
    wants_records("log sectors of all versions", image, ["5 6869", "6 61", "7 62", "8 63"])


@case
def chips_of_before_are_read():
    for version in (1, 2):
        image = Image(7)
        for unit in range(3):
            image.put(unit, 0, data_header(1 + unit, 3, unit=unit, version=version))
        image.put(3, 0, status_header(4, 3, version=version))
        image.put(3, 1, commit(4, 20, 9, version=version))
        image.put(4, 0, overflow_header(8, 3, version=version))
        said = record(0, 1, 9, b"old", version=version)
        image.put(4, 1, log(2, 11, said, unit=1, version=version))
        wants_records(f"version {version}", image, ["961 6f6c64"])
        wants_labels(f"version {version}", image,
                     {0: "data of unit 0, generation 1, 1 erase, current",
                      3: "status, generation 4, 1 erase, current",
                      4: "overflow, generation 8, 1 erase, current"})


@case
def headers_say_how_often_their_place_was_erased():
    image = formatted(7).put(0, 0, data_header(9, 3, erases=2))
    image.put(3, 0, status_header(10, 3, erases=3)).put(5, 0, data_header(2, 3, unit=9, erases=70))
    image.put(4, 0, overflow_header(8, 3, erases=2 ** 32 - 1))
    wants_labels("counts", image, {0: "data of unit 0, generation 9, 2 erases, current",
                                   1: "data of unit 1, generation 2, 1 erase, current",
                                   3: "status, generation 10, 3 erases, current",
                                   4: "overflow, generation 8, 4294967295 erases, left over",
                                   5: "data of unit 9, generation 2, 70 erases, left over",
                                   6: "erased, 1 erase, free"})
    wants("the line over all", Picture(image).head[3],
          "1 to 4294967295 erases a place, 4294967373 in all")
    wants("of a chip just formatted", Picture(formatted()).head[3], "1 erase a place, 5 in all")


@case
def a_place_counts_as_erased_once_where_its_first_sector_does_not_say_it():
    said = data_header(1, erases=7)[32:56]
    silent = [b"\xff" * 512, data_header(9, erases=7)[:511] + b"\x01", log(1, 1, version=3),
              sector(DATA, 5, 9, 9, said[:23]), sector(DATA, 5, 9, 9, said, 2),
              sector(STATUS, 0, 1, 1, status_payload(1, 7)[:7]),
              sector(STATUS, 0, 1, 1, status_payload(1, 7), 1),
              sector(OVERFLOW, 0, 9, 9, status_payload(1, 7)[:7]), sector(OVERFLOW, 0, 9, 9),
              sector(OVERFLOW, 0, 9, 9, status_payload(1, 7)[:8], 2)]
    for contents in silent:
        picture = Picture(formatted().put(3, 0, contents))
        wants(contents[:56].hex(), ", 1 erase, " in picture.labels[3], True)
    saying = [sector(DATA, 5, 9, 9, said + b"\x00"),
              sector(STATUS, 0, 1, 1, status_payload(1, 7)[:8]),
              sector(OVERFLOW, 0, 9, 9, status_payload(1, 7) + b"more")]
    for contents in saying:
        picture = Picture(formatted().put(3, 0, contents))
        wants(contents[:56].hex(), ", 7 erases, " in picture.labels[3], True)


@case
def places_that_a_status_header_retires_are_shown():
    image = formatted(8, 3).put(1, 0, status_header(2, retired=(0, 3, 5)))
    image.put(5, 0, data_header(9, unit=9, erases=6))
    wants_labels("retired", image, {0: "data of unit 0, generation 1, 1 erase, current",
                                    3: "erased, 1 erase, retired", 4: "erased, 1 erase, free",
                                    5: "data of unit 9, generation 9, 6 erases, retired"})
    wants("the line of these", Picture(image).head[4], "retired places: 0, 3, 5")
    wants_records("with a place in use among them", image, [])
    image.put(3, 9, commit(9, 9, 9))
    wants_labels("with something there", image, {3: "no header, 1 erase, retired"})
    image.put(2, 0, status_header(10))
    wants_labels("an older list", image, {3: "no header, 1 erase, left over"})
    image.put(2, 0, status_header(10, retired=(5, 3)))
    wants_labels("no list", image, {3: "no header, 1 erase, left over"})


@case
def places_to_spare_are_counted():
    for places, spares, size in [(6, 0, "6 places and 2 units"),
                                 (6, 1, "6 places, 1 unit and 1 spare place"),
                                 (69, 64, "69 places, 1 unit and 64 spare places"),
                                 (80, 64, "80 places, 12 units and 64 spare places")]:
        image = formatted(places, spares)
        wants(size, Picture(image).head[0], f"chip of {size}: 0 records")
        wants_records(size, image, [])


@case
def a_chip_has_as_many_units_as_its_status_header_says():
    # Places for three units, of which the third isn't one where the younger status header says two.
    image = formatted(7).put(2, 241, log(3, 11, record(14, 63, 9, b"\x02"), unit=2))
    image.put(1, 241, log(2, 11, record(14, 63, 9, b"\x01"), unit=1)).put(3, 1, commit(4, 20, 9))
    wants_records("three", image, ["1919 01", "2879 02"])
    for unit in (0, 1):
        image.put(unit, 0, data_header(1 + unit, 2, unit=unit))
    image.put(4, 0, status_header(30, 2, retired=(2,))).put(4, 1, commit(30, 31, 9))
    wants_records("two", image, ["1919 01"])
    wants_labels("the third", image, {2: "data of unit 2, generation 3, 1 erase, retired"})
    wants("the size", Picture(image).head[0], "chip of 7 places, 2 units and 1 spare place: 1 record")


@case
def a_blank_chip_shows_its_places():
    picture = Picture(Image())
    wants("labels", picture.labels, dict.fromkeys(range(5), "erased, 1 erase, free"))
    wants("rows", picture.rows, {})
    wants("faults", picture.faults, ["not formatted", "missing unit 0"])
    wants_fault("a blank chip", Image(), "not formatted")


@case
def a_formatted_chip_has_no_records():
    image = Image().put(0, 0, spelled(*FORMATTED_HEADER)).put(1, 0, spelled(*STATUS_HEADER))
    picture = wants_letters("a formatted chip", image, (0, 0, "H."), (1, 0, "H."))
    wants("place 0", picture.labels[0], "data of unit 0, generation 1, 1 erase, current")
    wants("place 1", picture.labels[1], "status, generation 2, 1 erase, current")
    wants("place 2", picture.labels[2], "erased, 1 erase, free")
    wants("faults", picture.faults, [])
    wants("greatest number found", picture.number("greatest number found: "), 2)
    wants_records("a formatted chip", image, [])


@case
def the_worked_record_is_read():
    image = first_record()
    picture = wants_letters("one record", image, (0, 0, "h."), (2, 0, "HB."))
    wants("place 0", picture.labels[0], "data of unit 0, generation 1, 1 erase, left over")
    wants("place 2", picture.labels[2], "data of unit 0, generation 4, 1 erase, current")
    wants_records("one record", image, ["5 6869"])


@case
def a_torn_header_leaves_the_one_from_before():
    for byte in (0, 30, 511):
        image = first_record().flip(2, 0, byte)
        picture = wants_letters("a torn header", image, (0, 0, "H."), (2, 0, "xb."))
        wants("place 2", picture.labels[2], "unreadable header, 1 erase, left over")
        wants("place 0", picture.labels[0], "data of unit 0, generation 1, 1 erase, current")
        wants_records("a torn header", image, [])


@case
def a_header_that_is_not_written_yet_counts_for_nothing():
    image = first_record().put(2, 0, b"\xff" * 512)
    picture = wants_letters("no header", image, (0, 0, "H."), (2, 0, ".b."))
    wants("place 2", picture.labels[2], "no header, 1 erase, left over")
    wants_records("no header", image, [])


@case
def the_younger_header_of_a_unit_counts():
    # Each: generation and serial of the header at place 0 and at place 2, and which one wins.
    for first, second, winner in [((7, 7), (4, 4), 0), ((4, 4), (7, 7), 2), ((4, 4), (4, 4), 0),
                                  ((9, 4), (3, 5), 2), ((3, 5), (9, 5), 0)]:
        image = formatted()
        for place, (generation, serial), value in [(0, first, b"\x01"), (2, second, b"\x02")]:
            image.put(place, 0, data_header(generation, counts={0: 1}, serial=serial))
            image.put(place, 1, base(generation, 0, text_of({0: value})))
        wants_records(f"{first} against {second}", image, ["0 01" if winner == 0 else "0 02"])
        wants_letters("winner", image, (winner, 0, "HB."), (2 - winner, 0, "hb."))


@case
def the_younger_status_counts_with_its_own_commits():
    image = formatted().put(0, 241, log(1, 5, record(0, 0, 4, b"\x01"), record(0, 1, 6, b"\x02")))
    image.put(1, 1, commit(2, 7, 4)).put(1, 2, commit(3, 8, 6))
    wants_records("one status place", image, ["0 01"])
    image.put(3, 0, status_header(9)).put(3, 255, commit(9, 10, 6))
    wants_records("a younger one", image, ["1 02"])
    wants_letters("two", image, (1, 0, "hcc."), (3, 0, "H."), (3, 254, ".C"))


def marked_line(image):
    """The line of a picture that says which units are marked, if one does."""
    lines = [line for line in Picture(image).head if line.startswith("units whose")]
    return lines[0] if lines else None


@case
def the_youngest_mark_counts_unless_a_commit_sector_is_younger():
    # Units 0 and 9 of ten, whose places are 0 to 9; the status place is 10.
    image = formatted(14).put(10, 1, mark(11, 20, 3, of=10)).put(10, 2, mark(11, 21, 0, 9, of=10))
    said = "units whose erased log sectors are marked as clean: "
    wants("the youngest", marked_line(image), said + "0, 9")
    wants_letters("the youngest", image, (10, 0, "HmM."))
    image.put(10, 3, commit(11, 21, 4))
    wants("a commit sector of the same serial", marked_line(image), said + "0, 9")
    image.put(10, 4, commit(11, 22, 5))
    wants("a younger one", marked_line(image), None)
    wants_letters("a younger one", image, (10, 0, "HmmCC."))


@case
def a_mark_is_of_its_own_status_and_of_headers_before_it():
    image = formatted(14).put(10, 1, mark(10, 20, 0, of=10)).put(9, 5, mark(11, 20, 0, of=10))
    wants("of another generation or place", marked_line(image), None)
    wants_letters("of another generation or place", image, (10, 0, "Hm."), (9, 4, ".m."))
    image.put(10, 2, mark(11, 30, 0, 1, of=10)).put(12, 0, data_header(30, 10, unit=1))
    wants("a header as young", marked_line(image), "units whose erased log sectors are marked as clean: 0")


@case
def only_records_of_committed_transactions_count():
    # 4 is committed, 5 was aborted, 6 is open; the serials run against the sectors.
    image = first_record().put(1, 1, commit(2, 20, 10, 11))
    image.put(2, 243, log(4, 12, record(0, 5, 10), record(0, 6, 10, b"\x01"), PUT_RECORD))
    image.put(2, 242, log(4, 13, record(14, 63, 11, b"\xaa"), record(0, 6, 11, b"\x02")))
    image.put(2, 241, log(4, 14, record(0, 7, 15, b"\x03"), record(14, 63, 16)))
    wants_records("a log", image, ["6 02", "959 aa"])
    picture = wants_letters("a log", image, (2, 240, ".LLL."), (1, 0, "HC."))
    wants("log", picture.head[1], "2 committed numbers; 3 live log sectors with 7 records, "
                                  "4 of them committed")


@case
def an_empty_value_is_a_record():
    image = formatted().put(0, 241, log(1, 4, record(0, 3, 3, b""), record(0, 4, 3, b"")))
    image.put(1, 1, commit(2, 5, 3)).put(0, 242, log(1, 6, record(0, 4, 3)))
    wants_records("an empty value", image, ["3 -"])


@case
def a_log_sector_elsewhere_is_not_live():
    dead = [(0, 240, log(1, 9, record(0, 0, 4, b"\x01"))),
            (0, 241, log(2, 9, record(0, 0, 4, b"\x01"))),
            (0, 241, log(1, 9, record(0, 0, 4, b"\x01"), unit=1)),
            (1, 241, log(1, 9, record(0, 0, 4, b"\x01"))),
            (2, 241, log(1, 9, record(0, 0, 4, b"\x01")))]
    for place, number, contents in dead:
        image = formatted().put(1, 1, commit(2, 5, 4)).put(place, number, contents)
        wants_records(f"place {place} sector {number}", image, [])
        wants_letters("dead", image, (place, number, "l"))
    image = formatted(6).put(2, 1, commit(3, 5, 4))
    image.put(0, 241, log(2, 9, record(0, 0, 4, b"\x01"), unit=1))
    wants_records("at the place of another unit", image, [])


@case
def an_overflow_place_with_live_log_sectors_is_current():
    image = formatted().put(1, 1, commit(2, 9, 3)).put(3, 0, overflow_header(4))
    image.put(3, 1, log(1, 5, record(1, 0, 3, b"\x01")))
    image.put(3, 255, log(7, 6, record(0, 0, 3, b"")))
    picture = wants_letters("overflow", image, (3, 0, "HL."), (3, 254, ".l"))
    wants("place 3", picture.labels[3], "overflow, generation 4, 1 erase, current")
    wants_records("overflow", image, ["64 01"])
    image.put(3, 1, log(8, 5, record(1, 0, 3, b"\x01")))
    picture = wants_letters("no live sector", image, (3, 0, "hl."))
    wants("place 3", picture.labels[3], "overflow, generation 4, 1 erase, left over")


@case
def the_logs_of_units_are_apart():
    image = formatted(7).put(3, 1, commit(4, 20, 9)).put(5, 0, overflow_header(8, 3))
    image.put(5, 1, log(2, 11, record(0, 0, 9, b"\x01"), unit=1))
    image.put(5, 2, log(3, 11, record(14, 63, 9, b"\x02"), unit=2))
    image.put(5, 3, log(3, 12, record(0, 0, 9, b"\x03"), unit=1))
    image.put(0, 241, log(1, 11, record(0, 0, 9, b"\x04")))
    wants_records("three units", image, ["0 04", "960 01", "2879 02"])
    wants_letters("three units", image, (5, 0, "HLLl."))


@case
def power_cuts_of_the_first_case():
    # The rows of docs/CASES.md: what is programmed next, the greatest number found, the records.
    image = formatted()
    rows = [(2, 0, status_header(3, erases=2), 3, []), (1, 0, data_header(5, erases=2), 5, []),
            (1, 241, log(5, 6, record(0, 5, 4, b"hi")), 6, []),
            (2, 1, commit(3, 7, 4), 7, ["5 6869"])]
    greatest, lines = 2, []
    for place, number, contents, greatest_after, lines_after in rows:
        if (place, number) == (1, 0):
            image.erase(1)
        for torn in (b"\xff" * 512, contents[:100] + b"\xff" * 412):
            image.put(place, number, torn)
            wants("not whole", Picture(image).number("found: "), greatest)
            wants_records("not whole", image, lines)
        greatest, lines = greatest_after, lines_after
        image.put(place, number, contents)
        wants("whole", Picture(image).number("found: "), greatest)
        wants_records("whole", image, lines)


@case
def a_merge_takes_the_log_over():
    image = sixteen_commits()
    picture = wants_letters("a full log", image, (1, 240, "." + 15 * "L"),
                            (2, 0, "H" + 15 * "C" + "."))
    wants("greatest", picture.number("found: "), 49)
    wants_records("a full log", image, ["5 0f"])
    image.erase(0).put(0, 1, base(51, 0, text_of({5: b"\x0f"})))
    image.put(0, 0, data_header(51, counts={0: 1}, erases=2))
    image.put(0, 241, log(51, 52, record(0, 5, 50, b"\x10")))
    picture = wants_letters("a merge", image, (0, 0, "HB."), (0, 240, ".L."), (1, 0, "h."),
                            (1, 240, "." + 15 * "l"))
    wants("greatest", picture.number("found: "), 52)
    wants_records("a merge", image, ["5 0f"])
    wants_records("a merge and a commit", image.put(2, 16, commit(3, 53, 50)), ["5 10"])


@case
def an_overflow_place_takes_what_the_log_cannot():
    image = full_log()
    wants("greatest", Picture(image).number("found: "), 32)
    wants_records("before", image, ["64 06"])
    image.put(0, 0, overflow_header(34, erases=2))
    image.put(0, 1, log(5, 35, record(1, 0, 33, b"\x07")))
    picture = wants_letters("elsewhere", image, (0, 0, "HL."), (1, 240, "." + 15 * "L"))
    wants("greatest", picture.number("found: "), 35)
    wants_records("elsewhere", image, ["64 06"])
    wants_records("committed", image.put(2, 7, commit(3, 36, 33)), ["64 07"])
    picture = wants_letters("merged", merged_log(), (0, 0, "hl."), (1, 240, "." + 15 * "l"),
                            (2, 0, "H" + 8 * "C"), (3, 0, "H" + 16 * "." + "B."), (3, 240, ".L."))
    wants("greatest", picture.number("found: "), 40)
    wants_records("merged", merged_log(), ["64 08"])


@case
def numbers_are_found_where_an_opening_reads():
    # Each: where the number 99 stands, and whether it is found there.
    old = [(2, 0, data_header(99, 1, unit=7), True), (2, 0, overflow_header(99), True),
           (2, 0, data_header(0, serial=99), True), (0, 1, base(99, 0, b"\x00\x00"), False),
           (0, 241, log(99, 1), True), (0, 241, log(1, 99), True), (0, 240, log(99, 99), False),
           (0, 241, log(7, 1, record(0, 0, 99, b"")), True), (0, 241, log(1, 1, unit=99), False),
           (0, 241, sector(LOG, 0, 7, 1, record(0, 0, 99) + b"\x00"), False),
           (1, 1, commit(2, 99, 1), True), (1, 1, commit(2, 1, 99), True),
           (1, 1, commit(99, 1, 1), False), (1, 1, log(99, 99), False),
           (3, 241, log(99, 99), False)]
    for place, number, contents, is_found in old:
        image = formatted().put(place, number, contents)
        what = f"place {place} sector {number} {contents[:32].hex()}"
        wants(what, Picture(image).number("found: ") == 99, is_found)


@case
def places_are_told_by_their_first_sector():
    image = formatted(8).put(5, 0, data_header(9, 4, unit=9))
    image.put(6, 0, log(1, 1)).put(7, 9, log(1, 1))
    labels = Picture(image).labels
    wants("place 5", labels[5], "data of unit 9, generation 9, 1 erase, left over")
    wants("place 6", labels[6], "no header but a log sector, 1 erase, left over")
    wants("place 7", labels[7], "no header, 1 erase, left over")
    image = formatted().put(2, 0, data_header(9, serial=8))
    wants_labels("place 2", image, {2: "data of unit 0, generation 9, serial 8, 1 erase, current"})
