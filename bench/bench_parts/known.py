"""Scripts whose operations are worked out by hand, and how a run is compared with them."""
from __future__ import annotations

import os
import re
from typing import Iterator, List

from .by_hand import Known, full_overflow, full_status_place
from .program import Failed, make_file
from .trace import Asked, Reply, traced_run

HERE = os.path.dirname(os.path.realpath(__file__))
TWENTY = os.path.join(os.path.dirname(HERE), "twenty_transactions")
NAMES = re.compile(r"(\d+)\.\.(\d+)")
VALUE = re.compile(r"\*(\d+)")


def spelled_out(line: str) -> Iterator[str]:
    """The lines of a script for which a line of the table stands."""
    line = VALUE.sub(lambda found: "61" * int(found[1]), line)
    names = NAMES.search(line)
    if names is None:
        yield line
        return
    for name in range(int(names[1]), int(names[2]) + 1):
        yield NAMES.sub(str(name), line)


def read_table(path: str) -> List[Known]:
    """What a table says, in its order."""
    known = []
    with open(path, encoding="ascii") as table:
        rows = [row.strip() for row in table]
    for row in rows:
        if not row or row.startswith("#"):
            continue
        parts = [part.strip() for part in row.split("|")]
        reads, writes = (int(parts[1]), parts[2]) if len(parts) == 3 else (0, "")
        for line in spelled_out(parts[0]):
            known.append(Known(line, reads, writes))
    return known


def merged_lists(replies: Iterator[Reply], lines: List[str]) -> Iterator[Reply]:
    """A reply for each line of the script: the rows of a list are one reply with its end."""
    for line in lines:
        asked, said = Asked(), ""
        for reply in replies:
            asked.add(reply.asked)
            said = reply.line
            if not line.startswith("list") or said == "end":
                break
        yield Reply(said, asked)


def compare(line: str, asked: Asked, wanted: Asked) -> bool:
    """Whether a line asked what it has to; says where it didn't."""
    if asked == wanted:
        return True
    print(f"operations: {line[:40]}: {asked.reads} reads; {' '.join(asked.writes)}")
    print(f"    and not {wanted.reads} reads; {' '.join(wanted.writes)}")
    return False


def written(folder: str, lines: List[str]) -> str:
    """A script of these lines in a file."""
    path = os.path.join(folder, "script")
    with open(path, "w", encoding="ascii") as script:
        script.writelines(line + "\n" for line in lines)
    return path


def replies_of(program: str, words: List[str], folder: str, lines: List[str],
               closes: bool = False) -> List[Reply]:
    """What a run asked at its opening, for each line of its script, and for its close if any."""
    # A line that is refused asks nothing: what is asked before its reply, the opening asks.
    script = written(folder, ["commit 31", *lines])
    replies = traced_run(program, [*words, "--close"] if closes else words, script)
    found = list(merged_lists(replies, ["open", *lines]))
    *more, end = replies
    if more or (end.asked != Asked() and not closes):
        raise Failed("the run asked for more than its lines do")
    return [*found, end] if closes else found


def agrees(program: str, folder: str, name: str, known: List[Known], places: int) -> bool:
    """Compares a format, an opening and a script with what they ask by hand."""
    path = os.path.join(folder, "known")
    chip = f"file:{places}:{path}"
    make_file(path, places)
    formatted = next(traced_run(program, ["format", chip], os.devnull))
    lines = [row.line for row in known[2:]]
    found = replies_of(program, ["run", chip, "--frames", "2"], folder, lines)
    same = [compare(row.line, reply.asked, Asked(row.reads, row.writes.split()))
            for row, reply in zip(known, [formatted, *found])]
    print(f"{name}: {same.count(True)} of {len(known)} lines asked what they ask by hand")
    return all(same) and len(same) == len(known)


def try_known(program: str, folder: str) -> bool:
    """Compares all that is worked out by hand."""
    return all([
        agrees(program, folder, "twenty transactions", read_table(TWENTY), 6),
        agrees(program, folder, "a full status place", full_status_place(), 5),
        agrees(program, folder, "a full overflow list", full_overflow(), 5)])
