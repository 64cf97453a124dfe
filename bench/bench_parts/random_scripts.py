"""Scripts in no order, and how what they ask is compared with the rules."""
from __future__ import annotations

import os
import random
from typing import Iterator, List, NamedTuple

from .known import compare, replies_of
from .program import make_file, run_untraced
from .rules import Rules
from .trace import Asked, Reply

LINES = 800


class Run(NamedTuple):
    """Lines of a script that are run by themselves, and whether the chip is closed behind them."""
    lines: List[str]
    closes: bool


def random_script(draw: random.Random, units: int) -> List[str]:
    """Commands of six sessions over some names. The sessions from 2 on may stay open long."""
    names = 960 * units
    often = draw.sample(range(names), 40) + draw.sample(range(300), 40)
    if draw.random() < 0.4:
        # Names of one page, which is full in time.
        often += draw.sample(range(64), 24)
    ends, lengths = draw.choice([1, 0.3, 0.02]), draw.choice([[0, 108], [108], [0, 464], [0, 200]])
    kinds = ["begin"] * 20 + ["put"] * 55 + ["del"] * 3 + ["get"] * 4 + ["share"] * 4
    kinds += ["commit"] * 10 + ["abort"] * 2 + ["merge", "list"]
    lines = []
    for _ in range(LINES):
        kind, session, name = draw.choice(kinds), draw.randrange(6), draw.choice(often)
        if kind in ("commit", "abort") and session >= 2 and draw.random() > ends:
            kind = "get"
        if kind in ("begin", "commit", "abort"):
            lines.append(f"{kind} {session}")
        elif kind == "put":
            length = draw.choice(lengths) or draw.randrange(20)
            lines.append(f"put {session} {name} {'61' * length or '-'}")
        elif kind == "merge":
            lines.append(draw.choice([f"merge {draw.randrange(units)}", "restart"]))
        elif kind == "list":
            lines.append(f"list {draw.randrange(names // 2)} {names - 1}")
        else:
            lines.append(f"{kind} {session} {name}")
    return lines


def in_runs(draw: random.Random, lines: List[str]) -> Iterator[Run]:
    """The lines in one run or in several; sessions may be open where one ends."""
    size = len(lines) // draw.choice([1, 2, 4, 8])
    closes = draw.choice([0, 0.5, 1])
    for first in range(0, len(lines), size):
        yield Run(lines[first:first + size], draw.random() < closes)


def asked_of(rules: Rules, line: str, reply: Reply) -> Asked:
    """What a line asks by the rules: nothing, where it was refused, but that a put whose page is
    full brings the page."""
    if line != "open" and reply.line.startswith("err 14"):
        return rules.asked_by(" ".join(["get", *line.split(" ")[1:3]]))
    if line != "open" and reply.line.startswith("err"):
        return Asked()
    return rules.asked_by(line)


def agrees_with_rules(rules: Rules, line: str, reply: Reply) -> bool:
    """Whether a line asked what the rules say."""
    return compare(line, reply.asked, asked_of(rules, line, reply))


def run_agrees(program: str, folder: str, chip: str, rules: Rules, run: Run) -> bool:
    """Compares what a run asks, line by line up to the first that differs, with the rules."""
    words = ["run", chip, "--frames", str(rules.frames)]
    replies = replies_of(program, words, folder, run.lines, run.closes)
    asking = ["open", *run.lines, *(["close"] if run.closes else [])]
    return all(agrees_with_rules(rules, line, reply) for line, reply in zip(asking, replies))


def try_script(program: str, folder: str, seed: int) -> bool:
    """Compares what a script asks, line by line up to the first that differs, with the rules."""
    draw = random.Random(seed)
    places, frames = draw.choice([5, 6, 8]), draw.choice([2, 3, 4, 16, 64])
    spares = draw.randrange(min(3, places - 4))
    lines = random_script(draw, places - 4 - spares)
    path = os.path.join(folder, "random")
    chip = f"file:{places}:{path}"
    make_file(path, places)
    run_untraced(program, ["format", chip, "--spares", str(spares)], os.devnull)
    runs, rules = list(in_runs(draw, lines)), Rules(places, frames, spares)
    agrees = all(run_agrees(program, folder, chip, rules, run) for run in runs)
    closed = sum(run.closes for run in runs)
    print(f"seed {seed}: {places} places, {spares} spare, {frames} frames, {len(lines)} lines in "
          f"{len(runs)} runs, {closed} closed; {sum(rules.erases) - places} erases, "
          f"{rules.elsewhere} log sectors in overflow places: "
          + ("as the rules say" if agrees else "not as the rules say"), flush=True)
    return agrees


def try_random(program: str, folder: str, count: int) -> bool:
    """Compares so many scripts with the rules."""
    return all([try_script(program, folder, seed) for seed in range(1, count + 1)])
