"""A small terminal: what a reader sees of some bytes, and what else they did.

It obeys what terminals in use obey, as far as a picture could misuse it. It moves its cursor, erases,
scrolls back, hides text, and has titles, clipboards and links. Strings swallow what follows. A row that
leaves letters painted paints the next one. It obeys backspaces, tabs, carriage returns and the controls of the second page, and tells marks that turn a text.
A line feed begins the next row, as on a terminal in its usual mode. Columns aren't told apart by width.

The usual one reads UTF-8, and its rows are as long as what they show. A `Terminal` may differ: it reads
8 bits, its rows end, its background is a colour that texts may have, or it turns letters.
"""

import math
import re
from dataclasses import dataclass, field
from unicodedata import bidirectional

from pages import rows_of, trimmed

# ESC [ with its parameters, or what begins a string that lasts to BEL, ESC \ or U+009C.
SEQUENCE = re.compile(r"(?:\x1b\[|\x9b)([0-?]*)[ -/]*([@-~])")
STRING = re.compile(r"(?:\x1b[\]PX^_]|[\x90\x98\x9d-\x9f])(.*?)(?:\x07|\x1b\\|\x9c|\Z)", re.DOTALL)
DIRECTION_MARKS = "\u061c\u200e\u200f\u202a\u202b\u202c\u202d\u202e\u2066\u2067\u2068\u2069"
# The first of the characters that are not seen, and the one behind the last: Unicode's
# Default_Ignorable_Code_Point, without the selectors of text and emoji and the marks of direction above.
IGNORABLE = (
    (0xAD, 0xAE), (0x34F, 0x350), (0x115F, 0x1161), (0x17B4, 0x17B6), (0x180B, 0x1810), (0x200B, 0x200E),
    (0x2060, 0x2066), (0x206A, 0x2070), (0x3164, 0x3165), (0xFE00, 0xFE0E), (0xFEFF, 0xFF00),
    (0xFFA0, 0xFFA1), (0xFFF0, 0xFFF9), (0x1BCA0, 0x1BCA4), (0x1D173, 0x1D17B), (0xE0000, 0xE1000),
)  # fmt: skip
# And the separators, Braille without dots, the marks of annotations, the controls of hieroglyphs, the filler of
# Khitan and the notehead that is null.
UNSEEN = (
    *IGNORABLE, (0x2028, 0x202A), (0x2800, 0x2801), (0xFFF9, 0xFFFC), (0x13430, 0x13460), (0x16FE4, 0x16FE5),
    (0x1D159, 0x1D15A),
)  # fmt: skip
TITLES, LINK, CLIPBOARD = ("0", "1", "2"), "8", "52"


@dataclass(frozen=True)
class Terminal:
    """What a terminal is that differs from the usual one."""

    is_8_bit: bool = False  # it reads each byte as a character
    width: float = math.inf  # the columns of a row, behind which it goes on in the next one
    background: tuple = None  # red, green and blue
    turns_letters: bool = False  # letters from right to left are turned


@dataclass
class Screen:
    """The rows of a terminal, from the top, and what was done beside showing text."""

    terminal: Terminal = Terminal()
    rows: list = field(default_factory=lambda: [[]])
    row: int = 0
    column: int = 0
    is_hidden: bool = False
    is_wrapped: bool = True
    foreground: tuple = ()
    look: tuple = ()  # the numbers of colours since the last 0
    misused: list = field(default_factory=list)

    def text(self):
        """What is seen, row by row, without the blanks at the ends of rows."""
        rows = trimmed("".join(row) for row in self.rows)
        return list(map(turned, rows)) if self.terminal.turns_letters else rows

    def put(self, character):
        """Shows a character where the cursor is, in place of what stands there."""
        if self.column == self.terminal.width:
            self.move(*((self.row + 1, 0) if self.is_wrapped else (self.row, self.column - 1)))
        row = self.rows[self.row]
        row.extend(" " * (self.column + 1 - len(row)))
        is_unseen = self.is_hidden or self.foreground == self.terminal.background
        row[self.column] = " " if is_unseen else character
        self.column += 1

    def move(self, row, column):
        """Moves the cursor, and makes the rows above it."""
        self.row, self.column = max(row, 0), max(column, 0)
        while len(self.rows) <= self.row:
            self.rows.append([])

    def erase(self, way):
        """Erases from the cursor on, up to it, or all."""
        self.erase_row(way)
        if way == 0:
            del self.rows[self.row + 1 :]
            return
        end = self.row if way == 1 else len(self.rows)
        self.rows[:end] = [[] for _ in self.rows[:end]]

    def erase_row(self, way):
        """Erases the row of the cursor: from there on, up to there, or all of it."""
        row = self.rows[self.row]
        if way == 0:
            del row[self.column :]
        else:
            end = self.column + 1 if way == 1 else len(row)
            row[:end] = " " * len(row[:end])

    def obey(self, parameters, final):
        """Obeys a sequence."""
        numbers = [int(number) if number.isdigit() else 0 for number in parameters.split(";")]
        first, count = numbers[0], max(numbers[0], 1)
        if final == "m":
            self.paint(numbers)
            return
        self.misused.append(f"sequence {final}")
        if parameters == "?7":
            self.is_wrapped = final == "h"
            return
        moves = {"A": (-count, 0), "B": (count, 0), "C": (0, count), "D": (0, -count)}
        if final in moves:
            self.move(self.row + moves[final][0], self.column + moves[final][1])
        elif final in "EF":
            self.move(self.row + (count if final == "E" else -count), 0)
        elif final in "Gd":
            self.move(*((self.row, count - 1) if final == "G" else (count - 1, self.column)))
        elif final in "Hf":
            self.move(count - 1, max(numbers[1] if len(numbers) > 1 else 1, 1) - 1)
        elif final == "J":
            self.erase(first)
        elif final == "K":
            self.erase_row(first)
        elif final in "LM":
            place = slice(self.row, self.row + (count if final == "M" else 0))
            self.rows[place] = [] if final == "M" else [[] for _ in range(count)]
            self.move(self.row, 0)
        elif final in "PX":
            row, end = self.rows[self.row], self.column + count
            row[self.column : end] = "" if final == "P" else " " * len(row[self.column : end])

    def reset(self):
        """Begins anew, on an empty screen."""
        self.rows, self.row, self.column, self.is_hidden = [[]], 0, 0, False

    def paint(self, numbers):
        """Obeys the numbers of a colour. Of all that they may ask for, hidden text alone is a misuse."""
        left = list(numbers)
        while left:
            number = left.pop(0)
            if number in (38, 48):  # 5 and one number follow, or 2 and three
                count = 2 if left[:1] == [5] else 4
                if number == 38:
                    self.foreground = tuple(left[1:count])
                self.look += (number, *left[:count])
                del left[:count]
            elif number == 0:
                self.is_hidden, self.foreground, self.look = False, (), ()
            else:
                self.look += (number,)
                if number == 28:
                    self.is_hidden = False
                elif number == 8:
                    self.is_hidden = True
                    self.misused.append("hidden text")

    def obey_string(self, text):
        """Obeys a string that is not shown."""
        number = text.split(";")[0]
        names = {**dict.fromkeys(TITLES, "title"), LINK: "link", CLIPBOARD: "clipboard"}
        self.misused.append(names.get(number, "string"))

    def control(self, character):
        """Obeys a control of one character."""
        if character == "\n":
            if self.look:
                self.misused.append(f"letters left painted by {self.look}")
            self.move(self.row + 1, 0)
            return
        self.misused.append(f"control {ord(character):#04x}")
        if character in "\v\f\x84":
            self.move(self.row + 1, self.column)
        elif character == "\x85":
            self.move(self.row + 1, 0)
        elif character == "\x8d":
            self.move(self.row - 1, self.column)
        elif character == "\r":
            self.move(self.row, 0)
        elif character == "\b":
            self.move(self.row, self.column - 1)
        elif character == "\t":
            self.move(self.row, self.column // 8 * 8 + 8)


def turned(row):
    """A row that runs from left to right, as the bidirectional algorithm shows it: letters from right to left
    are turned, with what stands between them. (It does else where digits do.)"""
    kinds = "".join({"R": "R", "AL": "R", "L": "L", "EN": "L"}.get(bidirectional(it), " ") for it in row)
    for run in re.finditer("R(?:[R ]*R)?", kinds):
        row = row[: run.start()] + row[run.start() : run.end()][::-1] + row[run.end() :]
    return row


def shown(text, terminal=Terminal()):
    """The screen of a terminal after a text was sent to it."""
    text = text.encode().decode("latin-1") if terminal.is_8_bit else text
    screen, at = Screen(terminal), 0
    while at < len(text):
        sequence, string = SEQUENCE.match(text, at), STRING.match(text, at)
        if sequence or string:
            if sequence:
                screen.obey(sequence[1], sequence[2])
            else:
                screen.obey_string(string[1])
            at = (sequence or string).end()
            continue
        character = text[at]
        at += 1
        if character == "\x1b":
            obey_short(screen, text[at : at + 1])
            at += 1
        elif ord(character) < 32 or 0x7F <= ord(character) < 0xA0:
            screen.control(character)
        elif character in DIRECTION_MARKS:
            screen.misused.append(f"mark {ord(character):#06x}")
        elif any(first <= ord(character) < behind for first, behind in UNSEEN):
            screen.misused.append(f"unseen {ord(character):#06x}")
        else:
            screen.put(character)
    return screen


def obey_short(screen, letter):
    """Obeys ESC and a letter: a reset, or a move by a row."""
    screen.misused.append(f"escape {letter}")
    if letter == "c":
        screen.reset()
    elif letter in ("D", "E", "M"):
        screen.move(screen.row + (-1 if letter == "M" else 1), 0 if letter == "E" else screen.column)


COLORS = re.compile("\x1b\\[[0-9;]*m")


def faults_of(picture):
    """What is wrong with a picture on the usual terminal: what it did beside showing text, and the first row
    that is not seen as it is sent. A picture that hides nothing has none."""
    screen = shown(picture)
    rows = rows_of(COLORS.sub("", picture))
    seen = screen.text()
    different = [(number, row) for number, row in enumerate(rows) if seen[number : number + 1] != [row]]
    return screen.misused + [f"row {number + 1} is not seen: {row!r}" for number, row in different[:1]]
