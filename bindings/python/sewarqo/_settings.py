"""How a report is drawn. tools/settings writes the lists."""

from typing import List, NamedTuple, Optional, Tuple

# Those that are on or off, with the flag that each sets, and whether it sets that if it is on.
SWITCHES: List[Tuple[str, int, bool]] = [
    ("color", 1, False),
    ("ascii", 2, True),
    ("compact", 4, True),
    ("underlines", 16, False),
    ("multiline_arrows", 32, False),
    ("cross_gap", 64, False),
    ("safe", 128, False),
    ("lone_underlines", 256, True),
    ("excerpts", 0, True),
]
ALL_FLAGS = 511
# Those that are numbers, with the least one, and what one counts.
NUMBERS: List[Tuple[str, int, str]] = [
    ("tab_width", 1, "width"),
    ("context_lines", 0, "number of lines"),
    ("width", 0, "number of columns"),
]


class Config(NamedTuple):
    """How a report is drawn. `attach` is where strokes meet a label: "start", "middle" or "end".

    Where `color` is None there are colours if what is written to is a terminal, and the environment variable
    NO_COLOR is not set, or empty. `render` and `draw`, which write nothing, ask standard error for it.

    Where `safe` is off, texts are drawn as they are: an escape character in one reaches the terminal.
    With `lone_underlines` labels are underlined also where no label of their line has a message.
    `context_lines` lines are shown above and below each line that has a label. `width` is how many columns
    the text of a line may take, which is cut where it takes more; 0 is any number. With `excerpts` the
    library is handed only the lines that the picture needs, and no others are checked: a call over a large
    source takes less.

    >>> report = Report("error", "a \\x1b[1mbold\\x1b[0m word")
    >>> report.render("", Config(color=False))
    'Error: a \u241b[1mbold\u241b[0m word\\n'
    """

    color: Optional[bool] = True
    ascii: bool = False
    compact: bool = False
    underlines: bool = True
    multiline_arrows: bool = True
    cross_gap: bool = True
    attach: str = "middle"
    tab_width: int = 4
    safe: bool = True
    lone_underlines: bool = False
    context_lines: int = 0
    width: int = 0
    excerpts: bool = False
