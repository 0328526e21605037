"""Colours by their numbers."""

import operator
from typing import ClassVar


class Color(int):
    """A colour: one of the names below, `Color.fixed(81)` of the palette, or `Color.rgb(1, 2, 3)`.

    >>> Color.RED, Color.fixed(81), Color.rgb(1, 2, 3)
    (Color.RED, Color.fixed(81), Color.rgb(1, 2, 3))
    """

    PRIMARY: ClassVar["Color"]
    BLACK: ClassVar["Color"]
    RED: ClassVar["Color"]
    GREEN: ClassVar["Color"]
    YELLOW: ClassVar["Color"]
    BLUE: ClassVar["Color"]
    MAGENTA: ClassVar["Color"]
    CYAN: ClassVar["Color"]
    WHITE: ClassVar["Color"]
    BRIGHT_BLACK: ClassVar["Color"]
    BRIGHT_RED: ClassVar["Color"]
    BRIGHT_GREEN: ClassVar["Color"]
    BRIGHT_YELLOW: ClassVar["Color"]
    BRIGHT_BLUE: ClassVar["Color"]
    BRIGHT_MAGENTA: ClassVar["Color"]
    BRIGHT_CYAN: ClassVar["Color"]
    BRIGHT_WHITE: ClassVar["Color"]

    @classmethod
    def fixed(cls, number: int) -> "Color":
        """The colour of this number, 0 to 255, in the palette."""
        return cls(_PALETTE + _byte(number))

    @classmethod
    def rgb(cls, red: int, green: int, blue: int) -> "Color":
        """The colour of red, green and blue, each 0 to 255."""
        return cls(_RGB | _byte(red) << 16 | _byte(green) << 8 | _byte(blue))

    def __repr__(self) -> str:
        if 0 < self <= len(_NAMES):
            return f"Color.{_NAMES[self - 1]}"
        if _PALETTE <= self < 2 * _PALETTE:
            return f"Color.fixed({self - _PALETTE})"
        if _RGB <= self < 2 * _RGB:
            return f"Color.rgb({self >> 16 & 255}, {self >> 8 & 255}, {self & 255})"
        return f"Color({int(self)})"

    def __str__(self) -> str:
        return int.__repr__(self)


_PALETTE, _RGB = 1 << 8, 1 << 24
_NAMES = "PRIMARY BLACK RED GREEN YELLOW BLUE MAGENTA CYAN WHITE".split()
_NAMES += [f"BRIGHT_{it}" for it in _NAMES[1:]]
for _number, _name in enumerate(_NAMES, 1):
    setattr(Color, _name, Color(_number))


def _byte(number: int) -> int:
    if not 0 <= operator.index(number) <= 255:
        raise ValueError(f"{number} is not from 0 to 255")
    return number
