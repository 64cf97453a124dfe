"""Runs in which units are merged since their numbers don't fit, and how they are compared with the
rules, line by line."""
from __future__ import annotations

import os
from io import StringIO
from typing import List, NamedTuple

from .closes import lines_of
from .growth_counts import FRAMES
from .growth_rules import GrowingRules
from .growth_uses import side_by_side, units_in_turn, with_values
from .program import make_file, run_untraced
from .random_scripts import Run, run_agrees
from .workloads import SESSIONS, write_rounds

# So many transactions are done in a second run.
BEHIND = 40


class Scene(NamedTuple):
    """Runs over a chip just formatted, in each of which some units are merged so."""
    name: str
    places: int
    runs: List[Run]


def batches_of_short_puts(places: int, batches: int) -> List[str]:
    script = StringIO()
    write_rounds(script, with_values(side_by_side, 8)(places, SESSIONS * batches), True)
    return script.getvalue().splitlines()


def one_by_one(closes: bool) -> Scene:
    """The second run finds more numbers than a status place keeps, beside a mark or without one."""
    lines = lines_of(list(units_in_turn(280, 4140)))
    name = "one put, over the units in turn, and an opening behind " + (
        "a close" if closes else "an end without one")
    return Scene(name, 280, [Run(lines, closes), Run(lines[:3 * BEHIND], False)])


def in_batches() -> Scene:
    return Scene(f"{SESSIONS} puts of 8 bytes beside one another, in batches", 57,
                 [Run(batches_of_short_puts(57, 260), False)])


def agrees(program: str, folder: str, scene: Scene) -> bool:
    """Compares what the runs ask, line by line up to the first that differs, with the rules."""
    path = os.path.join(folder, "chip")
    chip = f"file:{scene.places}:{path}"
    make_file(path, scene.places)
    run_untraced(program, ["format", chip], os.devnull)
    rules, merged, same = GrowingRules(scene.places, FRAMES), [0], True
    for run in scene.runs:
        same = same and run_agrees(program, folder, chip, rules, run)
        merged.append(rules.merged)
    each = [last - first for first, last in zip(merged, merged[1:])]
    print(f"{scene.name}: {scene.places} places, {' and '.join(map(str, each))} units merged since "
          "their numbers didn't fit: " + ("as the rules say" if same else "not as the rules say"),
          flush=True)
    return same and 0 not in each


def try_scenes(program: str, folder: str) -> bool:
    """Compares all scenes."""
    scenes = [one_by_one(False), one_by_one(True), in_batches()]
    return all([agrees(program, folder, scene) for scene in scenes])
