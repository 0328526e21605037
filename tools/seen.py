"""Reads what `ariadne-show --ascii --color=never` writes, for try-show: its pictures and the rows between
them. It reads each picture by itself: its headers, which columns are marked below which line, which lines
a label spans, and the texts of labels, helps and notes.
"""

import re
import unicodedata
from dataclasses import dataclass, field
from typing import NamedTuple

from marks import columns_of

START = re.compile(r" *,-\[ (.*):(\d+):(\d+) \]$")
NEXT = re.compile(r" *\|-\[ (.*):(\d+):(\d+) \]$")
TAIL = re.compile(r"-+'$")
SOURCE = re.compile(r" *(\d+) \| ?")
BELOW = re.compile(r" *[|:] ?")
ARROW = re.compile(r"( *\| [ |]*)(`-+|--+) (.*)$")
ASIDE = re.compile(r" *\| +(Help|Note)\b(?: \d+)?: (.*)$")
MORE = re.compile(r" *\| {2,}(.*)$")
CHANGED = re.compile(r" *\d+ [-+] ")
TAB = 4


class Arrow(NamedTuple):
    """The text of a label, and the column of a terminal of the line above that leads to it. None leads to
    that of a label over several lines."""

    path: str
    line: int
    column: int
    text: str


class Span(NamedTuple):
    """A label over several lines."""

    path: str
    line: int
    end_line: int


@dataclass
class Picture:
    """A picture, as it can be read."""

    header: str
    place: tuple  # the file, the line and the column of its first header
    rows: list = field(default_factory=list)
    marked: dict = field(default_factory=dict)  # by file and line, the columns of a terminal
    arrows: list = field(default_factory=list)
    spans: list = field(default_factory=list)
    asides: list = field(default_factory=list)  # the rows of helps and notes, and behind one the lines that change
    notes: list = field(default_factory=list)  # the first rows of notes
    faults: list = field(default_factory=list)

    def texts(self):
        """All that it says below its header, beside the lines of files."""
        return [*(arrow.text for arrow in self.arrows), *self.asides]


def is_sign(character):
    """Whether a picture shows a sign for a character of a line."""
    return unicodedata.category(character) in ("Cc", "Cf")


def shown_cells(line):
    """The characters of a line as a picture has them: how many columns each takes."""
    column = 0
    for character in line:
        width = TAB - column % TAB if character == "\t" else 1 if is_sign(character) else columns_of(character)
        column += width
        yield width


def shown_column(line, at):
    """The columns of a terminal that a picture has in front of a character of a line, or behind all."""
    return sum(list(shown_cells(line))[:at])


def shown_length(line):
    """How many characters a picture has for a line: one for each but for tabs, which are blanks."""
    line = line.rstrip()
    widths = shown_cells(line)
    return sum(width if character == "\t" else 1 for character, width in zip(line, widths))


class PictureReader:
    """Reads the rows of a picture behind its header. `line` gives the lines of files."""

    def __init__(self, header, match, name, line):
        self.name, self.line_of = name, line
        self.path, self.number, self.left, self.open = name(match[1]), None, 0, {}
        self.picture = Picture(header, (self.path, int(match[2]), int(match[3])))
        self.is_below = False

    def take(self, row):
        """Takes the next row of the picture."""
        self.picture.rows.append(row)
        match = NEXT.match(row)
        if match:
            self.path, self.number = self.name(match[1]), None
        elif SOURCE.match(row):
            self.take_source(row)
        elif self.number and self.is_below:
            self.take_marks(row)
        else:
            self.take_text(row)

    def take_source(self, row):
        """Takes a row that shows a line: what stands in front of the line are the ends of long labels."""
        match = SOURCE.match(row)
        self.number, self.is_below = int(match[1]), True
        length = shown_length(self.line_of(self.path, self.number))
        self.left = len(row.rstrip() if length else row) - length
        if self.left < match.end():
            self.picture.faults.append(f"no such line: {row}")
        for place, stroke in enumerate(row[match.end() : self.left]):
            if stroke == ",":
                self.open[place] = self.number
            elif stroke == "|" and row[match.end() + place + 1 : match.end() + place + 2] == "-":
                first = self.open.pop(place, self.number)
                self.picture.spans.append(Span(self.path, first, self.number))

    def take_marks(self, row):
        """Takes the row below a line."""
        self.is_below = False
        if ARROW.match(row):
            self.take_text(row)
            return
        columns = {at - self.left for at, stroke in enumerate(row) if at >= self.left and stroke in "^|"}
        if columns:
            self.picture.marked[self.path, self.number] = columns

    def take_text(self, row):
        """Takes a row that may have the text of a label, or a help or a note."""
        arrow, aside, more = ARROW.match(row), ASIDE.match(row), MORE.match(row)
        if aside:
            self.picture.asides.append(aside[2].rstrip())
            self.picture.notes += [aside[2].rstrip()] if aside[1] == "Note" else []
        elif arrow and self.number and not self.picture.asides:
            column = arrow.end(1) - self.left
            text = arrow[3].rstrip()
            self.picture.arrows.append(Arrow(self.path, self.number, column if column >= 0 else None, text))
        elif more and self.picture.asides and CHANGED.match(more[1]):
            self.picture.asides[-1] += f"\n{more[1].rstrip()}"
        elif more and self.picture.asides:
            self.picture.asides.append(more[1].rstrip())


def shown_in(text, name, line):
    """The pictures and the other rows of an output, in their order. `name` gives the name of a file from
    that in a header, and `line` its lines."""
    rows, reader = text.removesuffix("\n").split("\n"), None
    for at, row in enumerate(rows):
        following = START.match(rows[at + 1]) if at + 1 < len(rows) else None
        if reader and TAIL.match(row):
            yield reader.picture
            reader = None
        elif reader and not START.match(row):
            reader.take(row)
        elif reader is None and following:
            reader = PictureReader(row, following, name, line)
        elif reader is None:
            yield row
