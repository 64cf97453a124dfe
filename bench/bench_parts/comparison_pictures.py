"""The pictures of docs/COMPARISON.md: bars of what a transaction asks of a chip, as SVG."""
from __future__ import annotations

from typing import Dict, List, Optional
from xml.sax.saxutils import escape

from .comparison_tables import NO_ROOM, NOT_MEASURED, Counts

COLOURS = {"ipl": "#14213d", "SQLite as it comes": "#f4a300", "SQLite tuned": "#3a86c8",
           "LMDB": "#2a9d5c"}
# Of what, and with how many digits behind the point.
KINDS = {"reads": ("Sectors read for a transaction", 2),
         "programs": ("Programs for a transaction", 2),
         "erases": ("Erases for a transaction", 3)}
LEFT, BARS, RIGHT = 170, 440, 90
BAR, STEP = 14, 18
TOP, GROUP = 72, 40
STYLE = """text { font-family: sans-serif; font-size: 12px; fill: #1b1b1b; }
text.title { font-size: 16px; font-weight: bold; }
text.group { font-weight: bold; }
text.store { text-anchor: end; }"""


class Group:
    """The bars of a workload on a chip: a value of each store, or words in its stead."""

    def __init__(self, name: str, kind: str, by_store) -> None:
        self.name = name
        self.values: Dict[str, Optional[float]] = {
            store: None if counted.needs else counted.mean(kind)
            for store, counted in by_store.items()}
        self.words = {store: NO_ROOM if counted.needs else NOT_MEASURED
                      for store, counted in by_store.items()}

    @property
    def height(self) -> int:
        return GROUP + STEP * len(self.values)

    def drawn(self, top: int, most: float, digits: int) -> List[str]:
        lines = [f'<text x="20" y="{top + 18}" class="group">{escape(self.name)}</text>']
        for index, (store, value) in enumerate(self.values.items()):
            y = top + 26 + STEP * index
            lines.append(f'<text x="{LEFT - 8}" y="{y + 11}" class="store">{escape(store)}</text>')
            width = 0 if value is None else round(BARS * value / most, 1)
            lines.append(f'<rect x="{LEFT}" y="{y}" width="{width}" height="{BAR}" '
                         f'fill="{COLOURS[store]}"/>')
            said = self.words[store] if value is None else f"{value:,.{digits}f}"
            lines.append(f'<text x="{LEFT + width + 6}" y="{y + 11}">{said}</text>')
        return lines


def picture(kind: str, counts: Dict[int, Counts]) -> str:
    """The bars of reads, programs or erases, by the number of places."""
    title, digits = KINDS[kind]
    groups = [Group(f"{workload}, {places} places", kind, by_store)
              for places, of_chip in counts.items() for workload, by_store in of_chip.items()]
    most = max(value for group in groups for value in group.values.values() if value is not None)
    lines, top = [], TOP - 16
    for group in groups:
        lines += group.drawn(top, most, digits)
        top += group.height
    width, height = LEFT + BARS + RIGHT, top + 16
    head = [f'<svg xmlns="http://www.w3.org/2000/svg" width="{width}" height="{height}" '
            f'viewBox="0 0 {width} {height}">', f"<title>{title}</title>",
            f"<style>\n{STYLE}\n</style>",
            f'<rect width="{width}" height="{height}" fill="#ffffff"/>',
            f'<text x="20" y="32" class="title">{title}</text>']
    return "\n".join(['<?xml version="1.0" encoding="UTF-8"?>', *head, *lines, "</svg>"]) + "\n"
