"""Texts between two marks of a document, which a command writes."""
from typing import Tuple

from .program import Failed


def marks(command: str, part: str) -> Tuple[str, str]:
    return f"<!-- bench/{command}: {part} begin -->", f"<!-- bench/{command}: {part} end -->"


def split(document: str, command: str, part: str) -> Tuple[str, str, str]:
    """What stands before the marks of a part, between them and behind them."""
    begin, end = marks(command, part)
    if document.count(begin) != 1 or document.count(end) != 1:
        raise Failed(f"the document hasn't each of the marks of {part} once")
    before, rest = document.split(begin)
    there, after = rest.split(end)
    return before, there, after


def put(document: str, command: str, part: str, text: str) -> str:
    """The document with this text between the marks of a part."""
    before, _, after = split(document, command, part)
    begin, end = marks(command, part)
    return f"{before}{begin}\n{text}{end}{after}"
