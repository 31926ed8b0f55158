"""A case, and why it fails."""
import os
from dataclasses import dataclass
from typing import Callable

FOLDER = os.path.dirname(os.path.abspath(__file__))
MOST_SHOWN = 400


class Wrong(Exception):
    """Something came that was not wanted."""

    def __init__(self, wanted, came):
        super().__init__()
        self.wanted, self.came = shown_pair(wanted, came)


@dataclass
class Case:
    """A name, and a check that takes a program and raises `Wrong` where it fails.

    A case without `needs_program` is of the reference alone, and is checked once.
    """
    name: str
    check: Callable
    needs_program: bool = True


def expect(wanted, came):
    """Raises `Wrong` where the two differ."""
    if wanted != came:
        raise Wrong(wanted, came)


def expect_that(holds, wanted, came):
    """Raises `Wrong` where something does not hold."""
    if not holds:
        raise Wrong(wanted, came)


def text_of(value):
    return value if isinstance(value, str) else repr(value)


def shortened(text, start=0):
    """The part of a text from a place on that fits into a report."""
    part = text[start:start + MOST_SHOWN]
    return ("... " if start else "") + part + (" ..." if start + MOST_SHOWN < len(text) else "")


def shown_pair(wanted, came):
    """Both as texts, shortened to the places where they differ."""
    first, second = text_of(wanted), text_of(came)
    if max(len(first), len(second)) <= MOST_SHOWN:
        return first, second
    same = len(os.path.commonprefix([first, second]))
    start = max(same - 80, 0)
    return shortened(first, start), shortened(second, start)


def read_cases(file):
    """The cases of a data file, each with its outcome."""
    with open(os.path.join(FOLDER, "data", file), encoding="utf-8") as opened:
        lines = opened.read().removesuffix("\n").split("\n")
    pairs = [line.rpartition(" = ") for line in lines if line and not line.startswith("#")]
    return [(case, outcome) for case, _, outcome in pairs]
