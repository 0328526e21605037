"""Offsets of lines and columns, as compilers count them."""

from typing import AnyStr

from ._call import integer, wrong
from ._library import LARGEST
from ._parts import Text


def offset(text: Text, line: int, column: int) -> int:
    """The offset of a column of a line, both from 1: in characters of a `str`, in bytes of `bytes`.

    Lines end at line feeds alone. A column past its line is the line's end, in front of its LF or CR LF, and
    column 0 is column 1. If the text has no such line, the offset is past every text, and a label there is
    skipped. The text is read from its beginning.

    >>> offset("let a = 1;\\nlet b = c;\\n", 2, 9)
    19
    """
    line, column = integer(line, "line"), integer(column, "column")
    if isinstance(text, bytes):
        return _offset(text, line, column, b"\n", b"\r")
    if isinstance(text, str):
        return _offset(text, line, column, "\n", "\r")
    raise wrong("text", text, "text")


def _offset(text: AnyStr, line: int, column: int, feed: AnyStr, carriage: AnyStr) -> int:
    begin = _line_begin(text, line, feed)
    if begin == LARGEST:
        return begin
    found = text.find(feed, begin)
    end = len(text) if found < 0 else found
    if begin < found and text[found - 1 : found] == carriage:
        end -= 1
    return min(begin + max(column, 1) - 1, end)


def _line_begin(text: AnyStr, line: int, feed: AnyStr) -> int:
    """Where a line begins, or the largest number if there is no such line."""
    begin = 0 if line > 0 else LARGEST
    while line > 1:
        begin = text.find(feed, begin) + 1
        if not begin:
            return LARGEST
        line -= 1
    return begin
