"""What a load keeps beside its store: the rows that were refused, and how many rows are answered, so that it goes on where
it was stopped.

The file of refused rows has one JSON map a line: `file`, `row`, `refusal`, and `document`, or `text` where the row is no
JSON. The file of the count is there while the load is not at its end, and has in mind how long the other one was at that
count; what was written behind is cut when the load goes on, since those rows are answered again.
"""
from __future__ import annotations

import json
import os
import pathlib
from typing import IO, Any, Dict, Optional

from axis_rows import Row
from axis_tool import ToolError


class Record:
    """The record of one load, which `load` describes: it goes on only where that is the same."""

    def __init__(self, refused_file: str, load: Dict[str, Any]) -> None:
        self.rows = 0
        self.refused = 0
        self.refused_path = pathlib.Path(refused_file)
        self._count_path = pathlib.Path(f"{refused_file}.count")
        self._load = load
        self._file: Optional[IO[bytes]] = None

    def begin(self) -> None:
        """Takes up the load that was stopped, or begins one."""
        if self._count_path.exists():
            self._take_up()
        elif self.refused_path.exists():
            raise ToolError(f"{self.refused_path} is there, from a load before: move it away, or name another by --refused")
        self.save()

    def add(self, row: Row, refusal: Optional[str]) -> None:
        """Counts a row that is answered, and keeps it where it was refused."""
        self.rows += 1
        if refusal is None:
            return
        self.refused += 1
        if self._file is None:
            self._file = self.refused_path.open("ab")
        about = json.dumps({"file": row.file, "row": row.number, "refusal": refusal}, ensure_ascii=False)
        # In JSON a newline stands between tokens alone, where a space does as well.
        document = row.text.replace("\n", " ").replace("\r", " ")
        name, text = ("text", json.dumps(row.text)) if row.defect else ("document", document)
        self._file.write(f'{about[:-1]}, "{name}": {text}}}\n'.encode("utf-8", "backslashreplace"))

    def save(self) -> None:
        """Keeps the count, whole: a load that is ended in the middle leaves the one before."""
        if self._file is not None:
            self._file.flush()
        size = self.refused_path.stat().st_size if self.refused else 0
        state = {"load": self._load, "rows": self.rows, "refused": self.refused, "bytes": size}
        beside = pathlib.Path(f"{self._count_path}.new")
        beside.write_text(json.dumps(state) + "\n", encoding="utf-8")
        os.replace(beside, self._count_path)

    def end(self) -> None:
        """The load is at its end, or never began: there is nothing to go on with."""
        if self._file is not None:
            self._file.close()
        self._count_path.unlink()

    def _take_up(self) -> None:
        begin_anew = f"to begin anew, remove {self._count_path} and {self.refused_path}"
        try:
            state = json.loads(self._count_path.read_text(encoding="utf-8"))
            load, self.rows, self.refused, size = (state[name] for name in ("load", "rows", "refused", "bytes"))
            if not all(isinstance(count, int) and count >= 0 for count in (self.rows, self.refused, size)):
                raise ValueError
        except (ValueError, KeyError, TypeError):
            raise ToolError(f"{self._count_path} is no count of a load: {begin_anew}") from None
        if load != self._load:
            raise ToolError(f"{self._count_path} is of a load of other files or options, which was stopped: {begin_anew}")
        found = self.refused_path.stat().st_size if self.refused_path.exists() else 0
        if found < size:
            raise ToolError(f"{self.refused_path} has lost rows that were refused: {begin_anew}")
        if found:
            os.truncate(self.refused_path, size)
        if found and not size:
            self.refused_path.unlink()
