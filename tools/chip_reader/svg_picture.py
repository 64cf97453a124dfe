"""A picture of a chip as SVG: a row for each place, with a cell for each of its sectors.

Fills differ in lightness too, and what is left over in shape: it has half a cell."""
from __future__ import annotations

from dataclasses import dataclass
from typing import Dict, Iterator, List, Tuple
from xml.sax.saxutils import escape

from .marks import ChipMarks, Fill, PlaceMark
from .sectors import FIRST_LOG_SECTOR, SECTORS

CELLS_IN_ROW = 32
ROWS = SECTORS // CELLS_IN_ROW
MARGIN = 20
LINE = 16
# The width of a letter, as far as it matters for where the next entry of the legend begins.
LETTER = 6.5
# Chips of more places than this have small cells, in columns.
MOST_IN_ONE_COLUMN = 64

# From dark to light.
HEADER_COLOUR = "#14213d"
COMMIT_COLOUR = "#7b2cbf"
MARK_COLOUR = "#2a9d5c"
FAULT_COLOUR = "#d62828"
BASE_COLOUR = "#3a86c8"
LOG_COLOUR = "#f4a300"
STROKE_COLOUR = "#333333"
EDGE_COLOUR = "#8a8f98"
LINE_COLOUR = "#c4c8ce"

PAINTS = {
    Fill.HEADER: HEADER_COLOUR, Fill.OLD_HEADER: HEADER_COLOUR,
    Fill.COMMIT: COMMIT_COLOUR, Fill.OLD_COMMIT: COMMIT_COLOUR,
    Fill.MARK: MARK_COLOUR, Fill.OLD_MARK: MARK_COLOUR,
    Fill.BASE: BASE_COLOUR, Fill.OLD_BASE: BASE_COLOUR,
    Fill.LOG: LOG_COLOUR, Fill.OLD_LOG: LOG_COLOUR,
    Fill.TORN: "url(#torn)", Fill.STRANGE: "url(#strange)", Fill.FAULT: "url(#fault)",
}
LEFT_OVER = {Fill.OLD_HEADER, Fill.OLD_BASE, Fill.OLD_LOG, Fill.OLD_COMMIT, Fill.OLD_MARK}

STYLE = """\
text { font-family: sans-serif; font-size: 12px; fill: #1b1b1b; }
text.title { font-size: 16px; font-weight: bold; }
text.place { font-weight: bold; }
text.fault { fill: #a01010; font-weight: bold; }
text.small { font-size: 9px; fill: #555555; text-anchor: end; }"""


@dataclass(frozen=True)
class Sheet:
    """The sizes of a picture: of a cell, of a place's label and row, and how many columns."""
    cell: int
    columns: int
    label_width: int
    row_height: int
    has_numbers: bool

    @property
    def grid_width(self) -> int:
        return CELLS_IN_ROW * self.cell

    @property
    def grid_height(self) -> int:
        return ROWS * self.cell

    @property
    def column_width(self) -> int:
        return self.label_width + self.grid_width + MARGIN

    @property
    def width(self) -> int:
        return MARGIN + self.columns * self.column_width


LARGE_CELLS = Sheet(cell=12, columns=1, label_width=210, row_height=112, has_numbers=True)
SMALL_CELLS = Sheet(cell=6, columns=4, label_width=150, row_height=72, has_numbers=False)

Runs = List[Tuple[int, int, int]]


def text_at(x: float, y: float, words: str, style: str = "") -> str:
    named = f' class="{style}"' if style else ""
    return f'<text x="{x:g}" y="{y:g}"{named}>{escape(words)}</text>'


def runs_by_fill(fills: List[Fill]) -> Dict[Fill, Runs]:
    """For each fill its runs of sectors in one row: the row, the first cell, and how many."""
    runs: Dict[Fill, Runs] = {}
    start = 0
    for end in range(1, len(fills) + 1):
        is_cut = end % CELLS_IN_ROW == 0 or end == len(fills) or fills[end] != fills[start]
        if is_cut:
            row, column = divmod(start, CELLS_IN_ROW)
            runs.setdefault(fills[start], []).append((row, column, end - start))
            start = end
    runs.pop(Fill.ERASED, None)
    return runs


def bar(cell: int, row: int, column: int, count: int, is_half: bool) -> str:
    """The outline of a run: whole cells, or half ones in the middle of their row."""
    height = (cell + 1) // 2 if is_half else cell
    top = row * cell + (cell - height) / 2
    width = count * cell
    return f"M{column * cell} {top:g}h{width}v{height}h-{width}z"


def fill_path(sheet: Sheet, fill: Fill, runs: Runs) -> str:
    """All cells of one fill in a place."""
    outline = "".join(bar(sheet.cell, *run, fill in LEFT_OVER) for run in runs)
    return f'<path fill="{PAINTS[fill]}" d="{outline}"/>'


def grid(sheet: Sheet) -> str:
    """The lines between cells, over a place; the fills lie below them."""
    size = f'width="{sheet.grid_width}" height="{sheet.grid_height}"'
    return f'<rect {size} fill="url(#cells)" stroke="{EDGE_COLOUR}" stroke-width="0.5"/>'


def dashed(x: int, y: int, width: int, height: int) -> str:
    size = f'x="{x}" y="{y}" width="{width}" height="{height}"'
    return f'<rect {size} fill="none" stroke="{STROKE_COLOUR}" stroke-dasharray="3 2"/>'


def log_outline(sheet: Sheet) -> str:
    """A line around the sectors of a data place in which log sectors may stand."""
    row, column = divmod(FIRST_LOG_SECTOR, CELLS_IN_ROW)
    width = (CELLS_IN_ROW - column) * sheet.cell
    return dashed(column * sheet.cell, row * sheet.cell, width, sheet.cell)


def label(sheet: Sheet, mark: PlaceMark) -> Iterator[str]:
    """The words beside a place, and the numbers of the first sector of each row."""
    yield text_at(-sheet.label_width, 11, f"place {mark.place}: {mark.use.value}", "place")
    yield text_at(-sheet.label_width, 11 + LINE, mark.kind)
    yield text_at(-sheet.label_width, 11 + 2 * LINE, mark.numbers)
    yield text_at(-sheet.label_width, 11 + 3 * LINE, mark.erases)
    for row in range(ROWS if sheet.has_numbers else 0):
        yield text_at(-5, (row + 0.8) * sheet.cell, str(row * CELLS_IN_ROW), "small")


def place_group(sheet: Sheet, mark: PlaceMark, x: int, y: int) -> str:
    """A place with its label, its grid's upper left corner at this point."""
    parts = [f'<g transform="translate({x} {y})">', *label(sheet, mark)]
    for fill, runs in runs_by_fill(mark.fills).items():
        parts.append(fill_path(sheet, fill, runs))
    parts.append(grid(sheet))
    if mark.kind.startswith("data"):
        parts.append(log_outline(sheet))
    return "\n".join([*parts, "</g>"])


def sample(sheet: Sheet, fill: Fill) -> str:
    """One cell of a fill, as large as large cells are."""
    drawn = "" if fill == Fill.ERASED else fill_path(sheet, fill, [(0, 0, 1)])
    edge = f'<rect width="{sheet.cell}" height="{sheet.cell}" fill="none" stroke="{EDGE_COLOUR}"/>'
    return f'<g transform="scale({LARGE_CELLS.cell / sheet.cell:g})">{drawn}{edge}</g>'


def legend_entries(sheet: Sheet) -> List[Tuple[str, str]]:
    """What is drawn in a picture, each with its words."""
    cell = LARGE_CELLS.cell
    outline = dashed(0, 0, cell, cell), "around the log sectors of a data place"
    return [*((sample(sheet, fill), fill.words) for fill in Fill), outline]


def legend(sheet: Sheet, top: int) -> Tuple[List[str], int]:
    """The legend in rows that are no wider than the picture, and where the rows end."""
    parts = []
    x, y, cell = MARGIN, top, LARGE_CELLS.cell
    for drawn, words in legend_entries(sheet):
        needed = cell + 24 + int(LETTER * len(words))
        if x + needed > sheet.width:
            x, y = MARGIN, y + LINE + 4
        said = text_at(cell + 6, cell - 2, words)
        parts.append(f'<g transform="translate({x} {y})">{drawn}{said}</g>')
        x += needed
    return parts, y + LINE


def heading(marks: ChipMarks) -> Tuple[List[str], int]:
    """The lines over all, and where they end."""
    title, *others = marks.lines
    parts = [text_at(MARGIN, MARGIN + 12, title, "title")]
    y = MARGIN + 12
    styled = [(line, "") for line in others] + [(line, "fault") for line in marks.fault_lines]
    for line, style in styled:
        y += LINE
        parts.append(text_at(MARGIN, y, line, style))
    return parts, y + LINE


def place_groups(sheet: Sheet, marks: ChipMarks, top: int) -> Tuple[List[str], int]:
    """All places, down each column and then in the next one, and where the columns end."""
    rows = -(-len(marks.places) // sheet.columns)
    parts = []
    for mark in marks.places:
        column, row = divmod(mark.place, rows)
        x = MARGIN + column * sheet.column_width + sheet.label_width
        parts.append(place_group(sheet, mark, x, top + row * sheet.row_height))
    return parts, top + rows * sheet.row_height


def pattern(sheet: Sheet, name: str, drawn: str) -> str:
    """A drawing that stands in each cell of what is filled with it."""
    size = f'width="{sheet.cell}" height="{sheet.cell}"'
    return f'<pattern id="{name}" {size} patternUnits="userSpaceOnUse">{drawn}</pattern>'


def patterns(sheet: Sheet) -> Iterator[str]:
    """The lines between cells, and the cells that are more than one colour."""
    cell, near, far = sheet.cell, sheet.cell / 5, sheet.cell * 4 / 5
    slanted = f"M{near:g} {far:g}L{far:g} {near:g}"
    cross = f"{slanted}M{near:g} {near:g}L{far:g} {far:g}"
    stroke = f'fill="none" stroke-width="{cell / 8:g}"'
    whole = f'<rect width="{cell}" height="{cell}" fill="{FAULT_COLOUR}"/>'
    lines = f'<path d="M{cell} 0H0V{cell}" fill="none" stroke="{LINE_COLOUR}"/>'
    yield pattern(sheet, "cells", lines)
    yield pattern(sheet, "torn", f'<path d="{cross}" stroke="{STROKE_COLOUR}" {stroke}/>')
    yield pattern(sheet, "strange", f'<path d="{slanted}" stroke="{STROKE_COLOUR}" {stroke}/>')
    yield pattern(sheet, "fault", f'{whole}<path d="{cross}" stroke="#ffffff" {stroke}/>')


def svg_picture(marks: ChipMarks) -> str:
    sheet = LARGE_CELLS if len(marks.places) <= MOST_IN_ONE_COLUMN else SMALL_CELLS
    head, top = heading(marks)
    entries, top = legend(sheet, top)
    groups, height = place_groups(sheet, marks, top + MARGIN)
    size = f'width="{sheet.width}" height="{height}"'
    parts = [
        '<?xml version="1.0" encoding="UTF-8"?>',
        f'<svg xmlns="http://www.w3.org/2000/svg" {size} viewBox="0 0 {sheet.width} {height}">',
        f"<title>{escape(marks.lines[0])}</title>",
        f"<style>\n{STYLE}\n</style>",
        "<defs>", *patterns(sheet), "</defs>",
        f'<rect {size} fill="#ffffff"/>',
        *head, *entries, *groups, "</svg>"]
    return "\n".join(parts) + "\n"
