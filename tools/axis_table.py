"""Rows as a table of text."""
from __future__ import annotations

import json
import unicodedata
from typing import Any, List, Sequence

WIDEST = 40
NO_NAME = "value"


def table(rows: Sequence[Any]) -> List[str]:
    """The lines of a table: a column for each member that a row has, in the order in which they come first, and one for rows
    that are no maps. Numbers stand to the right, and what a row does not have is left empty.

    >>> print(*table([{"id": "7", "total": 1250}, {"id": "8"}]), sep="\\n")
    id  total
    --  -----
    7    1250
    8
    """
    maps = [row if isinstance(row, dict) else {NO_NAME: row} for row in rows]
    names = list(dict.fromkeys(name for row in maps for name in row))
    cells = [[_cell(row[name]) if name in row else "" for name in names] for row in maps]
    heads = [_fitted(printable(name)) for name in names]
    widths = [max(map(_width, column)) for column in zip(heads, *cells)]
    left = [False] * len(names)
    lines = [_joined(heads, widths, left), _joined(["-" * width for width in widths], widths, left)]
    for row, texts in zip(maps, cells):
        lines.append(_joined(texts, widths, [_is_number(row.get(name)) for name in names]))
    return lines


def _cell(value: Any) -> str:
    text = value if isinstance(value, str) else json.dumps(value, ensure_ascii=False)
    return _fitted(printable(text))


def _is_number(value: Any) -> bool:
    return isinstance(value, int) and not isinstance(value, bool)


def printable(text: str) -> str:
    """A text as a terminal can show it: what it would take as a command, or would not show, is escaped as in JSON.

    >>> print(printable("a" + chr(27) + "b"))
    a\\u001bb
    """
    return "".join(char if char.isprintable() else json.dumps(char)[1:-1] for char in text)


def _fitted(text: str) -> str:
    """A text cut to the widest column."""
    if _width(text) <= WIDEST:
        return text
    while _width(text) > WIDEST - 2:
        text = text[:-1]
    return f"{text}.."


def _width(text: str) -> int:
    """How many places of a terminal a text takes."""
    places = 0
    for char in text:
        if unicodedata.east_asian_width(char) in "WF":
            places += 2
        elif not unicodedata.combining(char):
            places += 1
    return places


def _joined(texts: Sequence[str], widths: Sequence[int], are_right: Sequence[bool]) -> str:
    line = []
    for text, width, is_right in zip(texts, widths, are_right):
        space = " " * (width - _width(text))
        line.append(space + text if is_right else text + space)
    return "  ".join(line).rstrip()
