"""What the tools share: their options, stores that are made, and how they end.

A tool ends with 0 where all was done, 1 where something was refused or failed, 2 where its words are wrong, 130 where a
person stopped it; and it says why in one line on standard error.
"""
from __future__ import annotations

import argparse
import contextlib
import os
import pathlib
import sys
from typing import Callable, Iterator, List, NoReturn, Optional, Tuple

from axis_client import Axis, AxisError, store_files

if sys.version_info < (3, 9):
    sys.exit("axis: the tools need Python 3.9 or later, and this is Python %d.%d" % sys.version_info[:2])

FAILED = 1
WRONG_WORDS = 2
INTERRUPTED = 130


class ToolError(Exception):
    """Why a tool cannot go on, and what to do, in one line; and the exit code."""

    def __init__(self, message: str, code: int = FAILED) -> None:
        self.code = code
        super().__init__(message)


class Parser(argparse.ArgumentParser):
    """The words of a tool. Wrong ones are told in one line."""

    def __init__(self, description: str, example: str) -> None:
        super().__init__(
            description=description, epilog=example, formatter_class=argparse.RawDescriptionHelpFormatter
        )
        self.add_argument(
            "--program",
            metavar="PATH",
            help="the program axis; without it that of the variable AXIS, else the script axis of the project",
        )

    def add_store(self) -> None:
        self.add_argument("store", metavar="STORE", help="the store, whose files are STORE.root, STORE.a and STORE.b")

    def error(self, message: str) -> NoReturn:
        self.exit(WRONG_WORDS, f"{self.prog}: {message}; {self.prog} --help has an example\n")


def count_of(store: str, program: Optional[str]) -> int:
    """How many documents the program finds in a store."""
    with Axis(store, program, must_exist=True) as axis:
        return next(axis.query("SELECT VALUE COUNT(1) FROM c"))


def new_files(store: str) -> Tuple[pathlib.Path, ...]:
    """The paths of the files of a store that is to be made. One of which a file is there is refused."""
    paths = store_files(store)
    for path in paths:
        if path.exists():
            raise ToolError(f"{path} is there: name a store of which no file is there")
    if not paths[0].parent.is_dir():
        raise ToolError(f"there is no folder {paths[0].parent}: make it first")
    return paths


@contextlib.contextmanager
def removed_on_failure() -> Iterator[List[pathlib.Path]]:
    """A list for files that are made, which are removed where not all is done."""
    made: List[pathlib.Path] = []
    try:
        yield made
    except BaseException:
        for path in made:
            path.unlink(missing_ok=True)
        raise


def run(parser: Parser, work: Callable[[argparse.Namespace], int]) -> NoReturn:
    """Runs a tool on its words, and ends with the exit code that it gives."""
    if None in (sys.stdin, sys.stdout, sys.stderr):
        sys.exit(f"{parser.prog}: standard input, output and error have to be open")
    sys.stdout.reconfigure(errors="backslashreplace")
    try:
        code = work(parser.parse_args())
        sys.stdout.flush()
    except BrokenPipeError:
        code = FAILED
        _drop_output()
    except KeyboardInterrupt:
        code = INTERRUPTED
        _drop_output()
    except (AxisError, ToolError, OSError, MemoryError) as error:
        code = getattr(error, "code", FAILED)
        print(f"{parser.prog}: {reason(error)}", file=sys.stderr)
        _drop_output()
    sys.exit(code)


def reason(error: BaseException) -> str:
    """What went wrong, in one line."""
    if isinstance(error, MemoryError):
        text = "memory ran out"
    elif isinstance(error, OSError):
        text = f"{error.filename or 'a read or a write'}: {error.strerror or error}"
    else:
        text = str(error)
    return " ".join(text.splitlines())


def _drop_output() -> None:
    """Leaves out what was not written: it has nowhere to go, and the end of Python would try again."""
    os.dup2(os.open(os.devnull, os.O_WRONLY), sys.stdout.fileno())
