"""Asks the tool over images of chips, and wants answers. A case is a function marked so."""
import contextlib
import importlib.machinery
import importlib.util
import io
import os
import re
import sys

ROOT = os.path.dirname(os.path.dirname(os.path.dirname(os.path.realpath(__file__))))
TOOL = os.path.join(ROOT, "tools", "chip_map")


def load_tool():
    """The tool as a module, so that asking it starts no process."""
    sys.path.insert(0, os.path.dirname(TOOL))
    loader = importlib.machinery.SourceFileLoader("chip_map", TOOL)
    module = importlib.util.module_from_spec(importlib.util.spec_from_loader("chip_map", loader))
    loader.exec_module(module)
    return module


CHIP_MAP = load_tool()
CASES = []


def case(function):
    CASES.append(function)
    return function


def wants(what, found, wanted):
    if found != wanted:
        raise AssertionError(f"{what}: {found!r} and not {wanted!r}")


def ask(*words):
    """Runs the tool in this process: its status, its output, what it noted."""
    out, noted = io.StringIO(), io.StringIO()
    with contextlib.redirect_stdout(out), contextlib.redirect_stderr(noted):
        try:
            status = CHIP_MAP.main(list(words))
        except SystemExit as end:
            status = end.code
    return status, out.getvalue(), noted.getvalue()


def ask_of(contents, *words):
    """Runs the tool over a chip of these bytes."""
    with open("chip", "wb") as file:
        file.write(contents)
    return ask("chip", *words)


class Picture:
    """The text picture of an image, taken apart."""

    def __init__(self, image):
        status, self.text, noted = ask_of(image.bytes, "--text")
        wants("status and note of a text picture", (status, noted), (0, ""))
        self.head = self.text.split("\n\n")[0].split("\n")
        self.labels, self.rows, place = {}, {}, None
        for line in self.text.split("\n\n")[1].split("\n"):
            label = re.fullmatch(r"place (\d+): (.*)", line)
            if label:
                place = int(label[1])
                self.labels[place] = label[2]
            else:
                first, letters = line.split()
                self.rows[place, int(first)] = letters

    def letter(self, place, number):
        row = self.rows.get((place, number - number % 64), "." * 64)
        return row[number % 64]

    def letters(self, place, first, end):
        return "".join(self.letter(place, number) for number in range(first, end))

    @property
    def faults(self):
        return [line[len("fault: "):] for line in self.head if line.startswith("fault: ")]

    def number(self, before):
        """The number of the summary behind some words."""
        return int(re.search(re.escape(before) + r"(\d+)", "\n".join(self.head))[1])


def wants_records(what, image, lines):
    wanted = "".join(line + "\n" for line in [*lines, "end"])
    wants(what, ask_of(image.bytes, "--records"), (0, wanted, ""))


def wants_fault(what, image, note):
    """Wants that the records are refused with this fault, and that there is a picture, too."""
    status, out, noted = ask_of(image.bytes, "--records")
    wants(what, (status, out, noted), (1, "", f"chip_map: {note}\n"))
    first = Picture(image).faults[0]
    if first != note and not first.startswith(note + " ("):
        raise AssertionError(f"{what}: the picture's first fault is {first!r} and not {note!r}")


def wants_labels(what, image, labels):
    """Wants these labels of some places."""
    found = Picture(image).labels
    wants(what, {place: found[place] for place in labels}, labels)


def wants_letters(what, image, *marks):
    """Wants these letters of a picture, each as a place, its first sector and the letters there."""
    picture = Picture(image)
    for place, first, letters in marks:
        found = picture.letters(place, first, first + len(letters))
        wants(f"{what}, place {place} from sector {first}", found, letters)
    return picture
