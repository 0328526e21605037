"""Excerpts of sources: of each the lines that the picture of a report needs."""

import re
from typing import AnyStr, NamedTuple, Pattern, Sequence

from ._parts import Text

# How lines end, as the library has it: one way has two characters, and is no end of each.
_PAIR, _BYTE_PAIR = "\r\n", b"\r\n"
_ENDS = ["\n", "\v", "\f", "\r", "\x85", "\u2028", "\u2029"]
_BYTE_ENDS = [end.encode() for end in _ENDS]
_ANY = re.compile("|".join([_PAIR, *_ENDS]))
_ANY_BYTES = re.compile(b"|".join([_BYTE_PAIR, *_BYTE_ENDS]))
_WINDOW = 256  # characters that are looked at first for where a line begins


class Excerpt(NamedTuple):
    """Whole lines of a text, and how many lines and offsets are in front of them."""

    text: Text
    lines: int
    front: int


def excerpt(text: Text, first: int, last: int, near: int) -> Excerpt:
    """The lines of offsets from `first` to `last`, and so many above and below them."""
    if isinstance(text, bytes):
        return _excerpt(text, first, last, near, _ANY_BYTES, _BYTE_ENDS, _BYTE_PAIR)
    return _excerpt(text, first, last, near, _ANY, _ENDS, _PAIR)


def _excerpt(
    text: AnyStr, first: int, last: int, near: int, any_end: "Pattern[AnyStr]", ends: Sequence[AnyStr], pair: AnyStr
) -> Excerpt:
    begin = _first_line(text, min(first, len(text)), near, any_end)
    behind = _behind_line(text, min(last, len(text)), near, any_end)
    lines = sum(text.count(end, 0, begin) for end in ends) - text.count(pair, 0, begin)
    return Excerpt(text[begin:behind], lines, begin)


def _first_line(text: AnyStr, at: int, near: int, any_end: "Pattern[AnyStr]") -> int:
    """Where the line of an offset begins, or one that is so many lines above it."""
    # (The end of a text may be that of its last line.)
    near += at == len(text)
    begin = _line_begin(text, at, any_end)
    while near and begin:
        begin = _line_begin(text, begin - 1, any_end)
        near -= 1
    return begin


def _line_begin(text: AnyStr, at: int, any_end: "Pattern[AnyStr]") -> int:
    """Where the line of an offset begins."""
    window = _WINDOW
    while True:
        start = max(0, at - window)
        # (An end of two characters may begin in front of the offset, and end behind it.)
        found = [it.end() for it in any_end.finditer(text, start, at + 1) if it.end() <= at]
        if found or not start:
            return found[-1] if found else 0
        window *= 4


def _behind_line(text: AnyStr, at: int, near: int, any_end: "Pattern[AnyStr]") -> int:
    """The offset behind the line of an offset, or behind one that is so many lines below it."""
    found = any_end.search(text, at)
    while found and near:
        found = any_end.search(text, found.end())
        near -= 1
    return found.end() if found else len(text)
