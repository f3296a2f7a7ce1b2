"""How far a load is, told on a terminal."""
from __future__ import annotations

import datetime
import shutil
import sys
import time
from typing import Optional

PAUSE = 0.1
BAR = 30
CLEAR_LINE = "\r\x1b[K"


class Progress:
    """A line on standard error, where that is a terminal: a bar, the rows, their rate, and the time left where the size of
    all is known. Elsewhere nothing is written."""

    def __init__(self, size: Optional[int]) -> None:
        self._is_shown = sys.stderr.isatty()
        self._size = size
        self._began = self._told = time.monotonic()
        self._first_rows: Optional[int] = None
        self._first_bytes = 0

    def tell(self, rows: int, done: int) -> None:
        """Tells how many rows, and how many bytes of all, are done."""
        if self._first_rows is None:
            self._first_rows, self._first_bytes = rows, done
        now = time.monotonic()
        if self._is_shown and now - self._told >= PAUSE:
            self._told = now
            width = shutil.get_terminal_size().columns - 1
            self._write(CLEAR_LINE + self._line(rows, done, now - self._began)[:width])

    def clear(self) -> None:
        """Takes the line away."""
        if self._is_shown:
            self._write(CLEAR_LINE)

    def _line(self, rows: int, done: int, seconds: float) -> str:
        rate = (rows - self._first_rows) / seconds
        text = f"{rows:,} rows  {rate:,.0f}/s"
        if not self._size:
            return text
        share = min(done / self._size, 1)
        bar = "#" * int(share * BAR)
        speed = (done - self._first_bytes) / seconds
        left = datetime.timedelta(seconds=int((self._size - done) / speed)) if speed > 0 else "?"
        return f"[{bar:.<{BAR}}] {share:4.0%}  {text}  {left} left"

    @staticmethod
    def _write(text: str) -> None:
        sys.stderr.write(text)
        sys.stderr.flush()
