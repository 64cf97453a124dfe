"""Cases of the words, the files and the pictures, and of a chip that the program makes."""
import os
import re
import subprocess
import xml.etree.ElementTree

from asking import ROOT, TOOL, ask, ask_of, case, wants
from images import (Image, PLACE_BYTES, first_record, formatted, long_session, merged_log, meter,
                    sixteenth_commit)

PICTURE = os.path.join(ROOT, "docs", "chip_map.svg")
USAGE = os.path.join(ROOT, "docs", "USAGE.md")


def contents_of(path):
    with open(path, "rb") as file:
        return file.read()


def run(words, **streams):
    """Runs a command: its status, its output, what it noted."""
    streams.setdefault("stdout", subprocess.PIPE)
    ended = subprocess.run(words, stderr=subprocess.PIPE, **streams)
    return ended.returncode, ended.stdout, ended.stderr


@case
def what_is_no_chip_is_refused():
    lengths = [0, 1, 1000, 4 * PLACE_BYTES, 5 * PLACE_BYTES - 1, 5 * PLACE_BYTES + 512,
               1029 * PLACE_BYTES]
    for length in lengths:
        with open("other", "wb") as file:
            file.truncate(length)
        for words in ([], ["--text"], ["--records"], ["-o", "picture"]):
            status, out, noted = ask("other", *words)
            wants(f"{length} bytes {words}", (status, out, noted.count("\n")), (1, "", 1))
    os.mkdir("folder")
    for name in ("absent", "folder", "other/chip"):
        status, out, noted = ask(name, "--text")
        wants(name, (status, out, noted.count("\n")), (1, "", 1))
    wants("nothing was drawn", os.path.exists("picture"), False)


@case
def words_that_are_not_valid_end_with_2():
    for words in ([], ["chip", "chip"], ["chip", "--text", "--records"], ["chip", "--svg"],
                  ["chip", "--png"]):
        status, out, _ = ask(*words)
        wants(f"words {words}", (status, out), (2, ""))


@case
def the_chip_is_only_read():
    contents = bytes(merged_log().bytes)
    refusal = 1, "", "chip_map: chip: this is the chip file\n"
    wants("the chip as output", ask_of(contents, "-o", "chip"), refusal)
    os.symlink("chip", "link")
    wants("a link to it as output", ask("chip", "--svg", "link")[0], 1)
    wants("a picture", ask("chip", "--text", "--svg", "picture")[0], 0)
    wants("the chip is as it was", contents_of("chip") == contents, True)


@case
def the_tool_runs_by_itself():
    with open("chip", "wb") as file:
        file.write(first_record().bytes)
    wants("a run", run([TOOL, "chip", "--records"]), (0, b"5 6869\nend\n", b""))
    with open("/dev/full", "wb") as full:
        status, _, noted = run([TOOL, "chip"], stdout=full)
    wants("a full disk", (status, noted.count(b"\n")), (1, 1))
    status, _, noted = run(["sh", "-c", f"'{TOOL}' chip >&-"])
    wants("a closed output", (status, noted.count(b"\n")), (1, 1))


def wants_picture(text, places):
    """Wants an SVG that stands alone, with a label for each place; answers its size."""
    top = xml.etree.ElementTree.fromstring(text)
    elements = list(top.iter())
    named = "{http://www.w3.org/2000/svg}"
    wants("the element at the top", top.tag, named + "svg")
    labels = [e.text for e in elements if e.tag == named + "text" and e.get("class") == "place"]
    named_places = [label.split(":")[0] for label in labels]
    wants("labels", named_places, [f"place {place}" for place in range(places)])
    outside = text.replace('"http://www.w3.org/2000/svg"', "")
    wants("references", re.findall(r"https?:|href|@import|url\((?!#)", outside), [])
    return int(top.get("width")), int(top.get("height"))


@case
def pictures_are_xml_that_stands_alone():
    for image, places in [(Image(), 5), (merged_log(), 5), (formatted(80), 80)]:
        status, out, noted = ask_of(image.bytes)
        wants("a picture", (status, noted), (0, ""))
        wants_picture(out, places)
        wants("to a file", ask("chip", "--svg", "picture"), (0, "", ""))
        wants("the same picture", contents_of("picture").decode(), out)


@case
def a_picture_of_the_largest_chip_has_a_sensible_size():
    with open("largest", "wb") as file:
        file.truncate(1028 * PLACE_BYTES)
    status, out, noted = ask("largest")
    wants("the largest chip", (status, noted), (0, ""))
    width, height = wants_picture(out, 1028)
    wants(f"a size of {width} by {height}", width <= 2000 and height <= 20000, True)


def drawn():
    """The picture that README.md shows."""
    return ask_of(long_session().bytes)[1].encode()


@case
def the_documents_have_these_pictures():
    is_drawn = contents_of(PICTURE) == drawn()
    wants("docs/chip_map.svg is as tests/chip_map/run --draw draws it", is_drawn, True)
    usage = contents_of(USAGE).decode()
    for words in ("--text", "--records"):
        said = ask_of(meter().bytes, words)[1]
        wants(f"docs/USAGE.md has what {words} says:\n{said}", said in usage, True)


def transaction(session, name, digits):
    return f"begin {session}\nput {session} {name} {digits}\ncommit {session}\n"


# The second and the third case of power cuts of docs/CASES.md, as scripts.
SIXTEEN_COMMITS = "".join(transaction(0, 5, f"{value:02x}") for value in range(1, 17)).encode()
FULL_LOG = "".join(
    ["begin 0\n", *(f"put 0 {name} {'78' * 108}\n" for name in range(40)),
     *(transaction(1, 64, f"{value:02x}") for value in range(1, 8)),
     "abort 0\n", transaction(1, 64, "08")]).encode()


def makes(program, places, script, spares=0):
    """The bytes of a chip that the program formats, and over which it runs a script."""
    run([program, "format", f"file:{places}:made", "--spares", str(spares)])
    wants("a formatted chip", contents_of("made") == formatted(places, spares).bytes, True)
    run([program, "run", f"file:{places}:made"], input=script)
    return contents_of("made")


def tries_program(program):
    """Wants that the program makes the chips worked out here, and lists what the tool does."""
    script = contents_of(os.path.join(ROOT, "examples", "meter.ipl"))
    wants("the chip after examples/meter.ipl", makes(program, 5, script) == meter().bytes, True)
    wants_list(program, 5)
    for name, script, image in [("sixteen commits", SIXTEEN_COMMITS, sixteenth_commit()),
                                ("a full log", FULL_LOG, merged_log())]:
        wants(f"the chip of {name}", makes(program, 5, script) == image.bytes, True)
        wants_list(program, 5)
    for spares in (1, 64):
        os.unlink("made")
        is_made = makes(program, 5 + spares, SIXTEEN_COMMITS, spares) == sixteenth_commit(spares).bytes
        wants(f"the chip of sixteen commits with {spares} to spare", is_made, True)
        wants_list(program, 5 + spares, spares)
    os.unlink("made")
    script = run([os.path.join(ROOT, "examples", "long_session")])[1]
    is_made = makes(program, 6, script) == long_session().bytes
    wants("the chip after examples/long_session", is_made, True)
    wants_list(program, 6)


def wants_list(program, places, spares=0):
    """Wants that the tool says the records of the chip as the program lists them."""
    status, out, noted = ask("made", "--records")
    listing = f"list 0 {960 * (places - 4 - spares) - 1}\n".encode()
    listed = run([program, "run", f"file:{places}:made"], input=listing)
    wants("its records", (status, out.encode(), noted.encode()), listed)
