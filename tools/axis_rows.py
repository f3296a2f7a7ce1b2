"""The rows of files of JSON: documents one to a line, or the elements of one list.

A whole number of at most 20 characters is an int, and every other number a Decimal, so that nothing of it is lost.
"""
from __future__ import annotations

import codecs
import contextlib
import dataclasses
import decimal
import itertools
import json
import os
import pathlib
import stat
import sys
from typing import Any, BinaryIO, Iterable, Iterator, Optional, Sequence, Tuple, Union

from axis_tool import ToolError

STANDARD_INPUT = "-"
WHITE_SPACE = " \t\r\n"
PIECE = 1 << 20
LONGEST_ROW = 4 << 20
MOST_DIGITS = 20


@dataclasses.dataclass(frozen=True)
class Row:
    """A row: its file, the number of its line or of its element, from 1, its text, its value, or why it is no JSON, and how
    many bytes of all files had been read when it was."""

    file: str
    number: int
    text: str
    value: Any
    defect: Optional[str]
    end: int


def read_rows(files: Sequence[str]) -> Iterator[Row]:
    """The rows of all files, one file after another; `-` is standard input."""
    before = 0
    for file in files:
        with _opened(file) as source:
            pieces = iter(lambda: source.read1(PIECE), b"")
            begin = _begin(pieces)
            is_list = begin.lstrip().startswith(b"[")
            yield from (_elements if is_list else _lines)(file, itertools.chain([begin], pieces), before)
        before += size_of([file]) or 0


def size_of(files: Sequence[str]) -> Optional[int]:
    """How many bytes the files have; None where one is no plain file."""
    states = [os.stat(file) for file in files if file != STANDARD_INPUT]
    if len(states) < len(files) or not all(stat.S_ISREG(state.st_mode) for state in states):
        return None
    return sum(state.st_size for state in states)


@contextlib.contextmanager
def _opened(file: str) -> Iterator[BinaryIO]:
    if file == STANDARD_INPUT:
        yield sys.stdin.buffer
    else:
        with pathlib.Path(file).open("rb") as source:
            yield source


def _begin(pieces: Iterator[bytes]) -> bytes:
    """The first bytes, up to a piece that has more than white space, without a byte order mark."""
    begin = b""
    for piece in pieces:
        begin += piece
        if len(begin) > len(codecs.BOM_UTF8) and begin.strip():
            break
    return begin[len(codecs.BOM_UTF8) :] if begin.startswith(codecs.BOM_UTF8) else begin


def _lines(file: str, pieces: Iterable[bytes], end: int) -> Iterator[Row]:
    """The rows of JSON lines, behind so many bytes. A line that is no JSON is a row with a defect, but for the first."""
    is_first = True
    for number, line in enumerate(_split(file, pieces), 1):
        end += len(line) + 1
        if not line.strip():
            continue
        text = line.decode("utf-8", "backslashreplace").strip(WHITE_SPACE)
        try:
            value, defect = _value(line), None
        except (ValueError, RecursionError) as error:
            value, defect = None, f"no JSON: {_reason(error)}"
            if is_first:
                raise ToolError(
                    f"{file}, line {number} is {defect}; a file has one document of JSON on each line, or one list of them"
                ) from None
        is_first = False
        yield Row(file, number, text, value, defect, end)


def _split(file: str, pieces: Iterable[bytes]) -> Iterator[bytes]:
    """The lines of bytes that come in pieces."""
    rest = b""
    before = 0
    for piece in pieces:
        *lines, rest = (rest + piece).split(b"\n")
        yield from lines
        before += len(lines)
        if len(rest) > LONGEST_ROW:
            raise ToolError(
                f"{file}, line {before + 1} has more than {LONGEST_ROW:,} bytes; a file has one document of JSON on each line"
            )
    yield rest


def _elements(file: str, pieces: Iterable[bytes], end: int) -> Iterator[Row]:
    """The rows of a list, behind so many bytes. What follows an element that is no JSON is not read: nobody knows where the
    next one begins."""
    text = _ListText(file, pieces, end)
    text.skip("[")
    is_more = text.peek() != "]"
    number = 0
    while is_more:
        number += 1
        source, value = text.take_element(number)
        yield Row(file, number, source, value, None, text.end)
        is_more = text.skip(",")
    if not text.skip("]"):
        raise ToolError(f"{file}: behind row {number} of the list stands no , and no ]")
    if text.peek():
        raise ToolError(f"{file}: more text stands behind its list; a file has one list, or one document on each line")


class _ListText:
    """The text of a list, read piece by piece, and a place in it."""

    def __init__(self, file: str, pieces: Iterable[bytes], end: int) -> None:
        self.end = end
        self._file = file
        self._pieces = iter(pieces)
        self._decoder = codecs.getincrementaldecoder("utf-8")()
        self._text = ""
        self._at = 0

    def peek(self) -> str:
        """The next character that is no white space; none at the end of the file."""
        while True:
            while self._text[self._at : self._at + 1] in WHITE_SPACE and self._at < len(self._text):
                self._at += 1
            if self._at < len(self._text) or not self._read_more():
                return self._text[self._at : self._at + 1]

    def skip(self, character: str) -> bool:
        """Passes over the character where it is the next one; whether it is."""
        is_next = self.peek() == character
        self._at += is_next
        return is_next

    def take_element(self, number: int) -> Tuple[str, Any]:
        """The next element: its text and its value."""
        self.peek()
        while True:
            try:
                value, end = DECODER.raw_decode(self._text, self._at)
            except (ValueError, RecursionError) as error:
                if len(self._text) - self._at > LONGEST_ROW or not self._read_more():
                    raise ToolError(f"{self._file}, row {number} of the list is no JSON: {_reason(error)}") from None
                continue
            length = end - self._at
            # A number that ends where the text does may go on in the next piece.
            if end < len(self._text) or not self._read_more():
                text = self._text[self._at : self._at + length]
                self._at += length
                return text, value

    def _read_more(self) -> bool:
        """Reads another piece, and forgets what stands before the place; false at the end of the file."""
        piece = next(self._pieces, b"")
        self.end += len(piece)
        try:
            more = self._decoder.decode(piece, final=not piece)
        except UnicodeDecodeError:
            raise ToolError(f"{self._file} is no UTF-8, as JSON has to be") from None
        self._text = self._text[self._at :] + more
        self._at = 0
        return bool(piece)


def _number(text: str) -> Union[int, decimal.Decimal]:
    if len(text) <= MOST_DIGITS and text.lstrip("-").isdigit():
        return int(text)
    try:
        return decimal.Decimal(text)
    except decimal.InvalidOperation:
        raise ValueError("a number has an exponent that is too large") from None


def _constant(name: str) -> Any:
    raise ValueError(f"{name} is no number")


DECODER = json.JSONDecoder(parse_float=_number, parse_int=_number, parse_constant=_constant)


def _value(line: bytes) -> Any:
    return DECODER.decode(line.decode("utf-8"))


def _reason(error: Exception) -> str:
    """Why a text is no JSON."""
    if isinstance(error, json.JSONDecodeError):
        return f"{error.msg} at its character {error.pos + 1}"
    if isinstance(error, UnicodeDecodeError):
        return "it is no UTF-8"
    if isinstance(error, RecursionError):
        return "it nests too deep"
    return str(error)
