"""Numbers with a fraction made whole: the number at a path of a document, times a factor."""
from __future__ import annotations

import argparse
import contextlib
import dataclasses
import decimal
import json
import re
from typing import Any, Union

from axis_client import GREATEST_NUMBER, LEAST_NUMBER, Unsendable, ValuePath, path_text, shown

EACH = 0
MOST_PLACES = 9

# A step of a path: [] for each element, ["a name"], or a name with a dot before it where it is not the first.
STEP = re.compile(r'(?P<each>\[\])|\[(?P<quoted>"(?:[^"\\]|\\.)*")\]|(?P<dot>\.?)(?P<plain>[^.\[\]"]+)')

# A product that does not fit in so many digits has a fraction or is outside 64 bits.
EXACT = decimal.Context(
    prec=80,
    Emax=decimal.MAX_EMAX,
    Emin=decimal.MIN_EMIN,
    traps=[decimal.Inexact, decimal.Overflow, decimal.InvalidOperation],
)


@dataclasses.dataclass(frozen=True)
class Scale:
    """A path, with EACH for each element of a list, and the factor for the numbers there."""

    path: ValuePath
    factor: int

    def apply(self, value: Any, done: int = 0) -> Any:
        """The value with the numbers at the rest of the path multiplied; its lists and maps are changed."""
        if done == len(self.path):
            is_number = isinstance(value, (int, decimal.Decimal)) and not isinstance(value, bool)
            return self._times(value) if is_number else value
        step = self.path[done]
        if step == EACH and isinstance(value, list):
            keys: Any = range(len(value))
        else:
            keys = [step] if isinstance(value, dict) and step in value else []
        for key in keys:
            try:
                value[key] = self.apply(value[key], done + 1)
            except Unsendable as error:
                raise Unsendable((key, *error.path), error.value, error.reason) from None
        return value

    def _times(self, number: Union[int, decimal.Decimal]) -> int:
        try:
            product = EXACT.multiply(decimal.Decimal(number), self.factor)
        except decimal.DecimalException:
            product = None
        if product is None or not _is_whole(product):
            raise Unsendable((), number, f"{shown(number)} times {self.factor} is no whole number of 64 bits")
        return int(product)


def read_scale(text: str) -> Scale:
    """The scale that a person writes: `lines[].price=100`."""
    path, sign, factor = text.rpartition("=")
    if not sign or not re.fullmatch(r"[1-9][0-9]{0,18}", factor):
        raise argparse.ArgumentTypeError(f"{text!r} is no path with a whole factor, as in 'lines[].price=100'")
    return Scale(_read_path(path), int(factor))


def advice(error: Unsendable) -> str:
    """The option by which a number with a fraction can be kept; none where no short factor makes it whole."""
    if not isinstance(error.value, decimal.Decimal):
        return ""
    for factor in (10**places for places in range(2, MOST_PLACES + 1)):
        with contextlib.suppress(decimal.DecimalException):
            if _is_whole(EXACT.multiply(error.value, factor)):
                return f"--scale '{path_text(error.path, each=True)}={factor}'"
    return ""


def _is_whole(number: decimal.Decimal) -> bool:
    return LEAST_NUMBER <= number <= GREATEST_NUMBER and number == number.to_integral_value()


def _read_path(text: str) -> ValuePath:
    steps = []
    at = 0
    while at < len(text) or not steps:
        found = STEP.match(text, at)
        if found is None or (found["plain"] is not None and bool(found["dot"]) != bool(steps)):
            raise argparse.ArgumentTypeError(f"{text!r} is no path, as lines[].price or lines[][\"unit price\"]")
        steps.append(EACH if found["each"] else found["plain"] or _unquoted(found["quoted"]))
        at = found.end()
    return tuple(steps)


def _unquoted(text: str) -> str:
    try:
        return json.loads(text)
    except ValueError:
        raise argparse.ArgumentTypeError(f"{text} is no name between quotes, as JSON has them") from None
