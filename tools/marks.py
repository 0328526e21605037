"""Reads what tools print, for try-show: which diagnostics a text tells, at which places, and which of its
lines tell none. It reads the tools' own marks (the `~~^~~` below the lines that they quote, the spans of
their JSON, the ranges in a head), and nothing that ariadne-show draws.

A text becomes a list of items, in the order of its lines:

    Diagnostic   what is to be drawn once, with its notes
    Line         a line that is no diagnostic's, and its role:
        pass     it has to stand in the output as it is
        scope    `F: In function ..`: it may stand there as it is
        sum      `2 errors generated.` behind what is no diagnostic's: likewise
        blank    an empty line that ends what a tool says of one thing: likewise
        own      what a tool writes for itself, as its sums behind a diagnostic: it must not stand there
        again    a diagnostic that was told before: it must not be drawn

Lines of files and columns count from 1, columns count characters, and the end of a piece is the column
behind it. Where a tool marks one column and nothing else, the end is not known (None).
"""

import json
import os
import re
import unicodedata
from dataclasses import dataclass, field
from pathlib import Path
from typing import NamedTuple

COUNT = re.compile(r"\d+ (?:warning|error)s?\b")
# Colours, and where links begin and end.
SGR = re.compile(r"\x1b\[[0-9;]*[mK]|\x1b\]8;[^\x07\x1b]*(?:\x07|\x1b\\)")
MARK = "\ufeff"


class Piece(NamedTuple):
    """A piece of a file that a tool marks, and what it says of it."""

    path: str
    line: int
    column: int
    end_line: int = None
    end_column: int = None
    label: str = None


@dataclass
class Diagnostic:
    """A diagnostic, or one of its notes or fronts. The first of its pieces is at its own place."""

    first: int  # its lines in the text, from 1
    last: int
    kind: str  # as the tool writes it; None where it names none
    code: str
    message: str
    path: str = None  # None: it is about no place
    line: int = None
    column: int = None  # None: any column of the line
    pieces: list = field(default_factory=list)
    puts: list = field(default_factory=list)  # what is to be put somewhere
    details: list = field(default_factory=list)  # further lines of its message
    fronts: list = field(default_factory=list)  # places that lead to it
    notes: list = field(default_factory=list)


class Line(NamedTuple):
    """A line of a text that is no diagnostic's."""

    first: int
    role: str


# ---- lines of files, and the rows that quote them


class Files:
    """The files below a folder, which tools name from one of its folders. Bytes that are no UTF-8 are
    characters of their own."""

    def __init__(self, root, folder):
        self.root, self.folders, self.kept = root, [root / folder], {}

    def name(self, path):
        """The name, from the root, of a file that a tool names, or None where there is no such file."""
        for folder in reversed(self.folders):
            file = Path(os.path.normpath(folder / path))
            if file.is_file() and file.is_relative_to(self.root):
                return str(file.relative_to(self.root))
        return None

    def lines(self, name):
        """The lines of a file without what ends them."""
        if name not in self.kept:
            text = (self.root / name).read_bytes().decode("utf-8", "surrogateescape")
            self.kept[name] = [line.removesuffix("\r") for line in text.split("\n")]
        return self.kept[name]

    def line(self, name, number):
        """A line of a file; an empty one past its end."""
        lines = self.lines(name)
        return lines[number - 1] if number <= len(lines) else ""


def columns_of(character):
    """How many columns of a terminal a character takes, as gcc and clang count them."""
    if unicodedata.combining(character) or unicodedata.category(character) == "Cf":
        return 0
    return 2 if unicodedata.east_asian_width(character) in "WF" else 1


def columns_by_clang(character):
    """How many columns clang gives a character: it takes no emoji for a wide one."""
    return 1 if 0x1F000 <= ord(character) < 0x20000 else columns_of(character)


def is_never_escaped(_):
    return False


def is_escaped_by_gcc(character):
    """Whether gcc writes a character as `<U+202E>`, below its warning of such marks."""
    return unicodedata.category(character) == "Cf"


def is_escaped_by_clang(character):
    """Whether clang writes a character as `<U+001B>`, or a byte as `<FC>`."""
    return character != "\t" and unicodedata.category(character) in ("Cc", "Cf", "Cs")


def escaped(character):
    """A character or a byte as its number in hexadecimal digits."""
    code = ord(character)
    return f"<{code - 0xDC00:02X}>" if 0xDC80 <= code <= 0xDCFF else f"<U+{code:04X}>"


def cells_of(line, is_escaped=is_never_escaped, widths=columns_of):
    """The characters of a line as a compiler quotes them: the text and the columns of each."""
    column = 0
    for character in line:
        shown, width = character, widths(character)
        if is_escaped(character):
            shown = escaped(character)
            width = len(shown)
        elif character == "\t":
            width = 8 - column % 8
            shown = " " * width
        column += width
        yield shown, width


def character_at(cells, column):
    """The number, from 0, of the cell that has a column, from 0; a column behind all of them goes on."""
    behind = 0
    for number, (_, width) in enumerate(cells):
        behind += width
        if column < behind:
            return number
    return len(cells) + column - behind


CUT = re.compile(r"((?:  )?\.\.\.|)(.*?)(?:\.\.\.)?$")


def left_out_of(shown, row):
    """How many columns in front a row lacks that shows a line: none, or those for which clang writes
    `  ...`, and mypy `...`, and gcc nothing. None where the row shows another line."""
    if shown.rstrip() == row.rstrip():
        return 0
    if len(row) > 40 and shown.rstrip().endswith(row.rstrip()):
        return sum(map(columns_of, shown.rstrip().removesuffix(row.rstrip())))
    dots, middle = CUT.match(row).groups()
    if len(middle) in (0, len(row)) or middle not in shown or not (dots or shown.startswith(middle)):
        return None
    return sum(map(columns_of, shown[: shown.rfind(middle)])) - len(dots) if dots else 0


class Quote:
    """A line of a file, and the row that shows it, if it does: in one of the ways of the tools. The row has
    no colours, and lacks those that the line has itself; the marks below it count these all the same."""

    def __init__(self, line, row, widths=columns_of):
        for is_escaped in (is_never_escaped, is_escaped_by_clang, is_escaped_by_gcc):
            for mark in (MARK, ""):
                text = line.removeprefix(mark)
                cells = list(cells_of(text, is_escaped, widths))
                self.left_out = left_out_of(SGR.sub("", "".join(shown for shown, _ in cells)), row)
                if self.left_out is not None:
                    self.cells = [("", 0)] * (len(line) - len(text)) + cells
                    return

    def __bool__(self):
        return self.left_out is not None

    def character(self, column):
        """The number of the character that has a column of the row."""
        return character_at(self.cells, column + self.left_out)


def piece_of_run(path, number, quote, run):
    """The piece that a run of marks below a row marks. One mark alone marks no end."""
    start, end = (quote.character(column) for column in run.span())
    if len(run[0]) == 1:
        return Piece(path, number, start + 1)
    return Piece(path, number, start + 1, number, end + 1)


# ---- the reader of lines


class Reader:
    """Reads the lines of a text. A form says what a head and a front are, and takes what follows a head."""

    FRONTS, SCOPE, SUM = (), None, None

    def __init__(self, said, files):
        self.rows = SGR.sub("", said.decode("utf-8", "surrogateescape")).removesuffix("\n").split("\n")
        self.files, self.at, self.items = files, 0, []
        self.fronts, self.current, self.place = [], None, None

    def row(self):
        """The next row, or an empty one behind the last."""
        return self.rows[self.at] if self.at < len(self.rows) else ""

    def items_of_text(self):
        """All items of the text, in the order of its lines."""
        while self.at < len(self.rows):
            if not (self.take_front() or self.take_head()):
                self.take_line(self.role())
        return sorted(self.items, key=lambda item: item.first)

    def role(self):
        """The role of the next row, which is no head's."""
        for role, pattern in (("scope", self.SCOPE), ("sum", self.SUM)):
            if pattern and pattern.match(self.row()):
                return "own" if COUNT.match(self.row()) and self.is_behind_told() else role
        return "pass"

    def is_behind_told(self):
        """Whether the row in front of the next one is of a diagnostic, or a sum behind one."""
        last = self.items[-1] if self.items else None
        return (last.last if isinstance(last, Diagnostic) else last and last.role == "own" and last.first) == self.at

    def take_line(self, role):
        """Takes a row that is no diagnostic's. Fronts go with it, and notes behind it are by themselves."""
        if role == "pass":
            self.items += [Line(front.first, "pass") for front in self.fronts]
            self.fronts, self.current = [], None
        self.at += 1
        self.items.append(Line(self.at, role))

    def take_front(self):
        """Takes a row that names a place which leads to the next one."""
        for pattern in self.FRONTS:
            match, name = self.match(pattern)
            if name:
                told = self.begin(None, None, match["message"], name, match["line"], None)
                told.column = self.byte_column(told, int(match["column"])) if match["column"] else None
                told.pieces = [Piece(told.path, told.line, told.column)]
                self.fronts.append(told)
                return True
        return False

    def match(self, pattern):
        """The match of the next row, and the name of the file that it names; None for what isn't there."""
        match = pattern.match(self.row())
        return match, match and self.files.name(match["path"])

    def begin(self, kind, code, message, name, line, column):
        """Takes the row of a head or a front."""
        self.at += 1
        told = Diagnostic(self.at, self.at, kind, code, message, name, int(line))
        told.column = self.column(told, int(column)) if column else None
        return told

    def keep(self, told):
        """Keeps what was read behind a head: a note in the diagnostic before it, if there is one."""
        told.last, told.fronts, self.fronts = self.at, self.fronts, []
        place = told.path, told.line, told.column
        if not told.pieces:
            again = self.place and self.place[0] == place and told.column
            told.pieces = [self.place[1]._replace(label=None)] if again else [Piece(*place)]
        self.place = place, told.pieces[0]
        is_note = told.kind == "note" and not told.code or told.message.startswith(GOES_ON)
        if is_note and self.current and self.is_about(told):
            self.current.notes.append(told)
            self.current.last = self.at
        else:
            self.items.append(told)
            self.current = told
        return True

    def is_about(self, _):
        """Whether a note belongs to the diagnostic before it."""
        return True

    def column(self, told, column):
        """The column in characters of one that a head of this tool names: in bytes, from 1."""
        return self.byte_column(told, column)

    def byte_column(self, told, column):
        """The column in characters of one that counts bytes, from 1. So gcc writes those of fronts."""
        line = self.files.line(told.path, told.line).encode("utf-8", "surrogateescape")
        before = line[: column - 1]
        return len(before.decode("utf-8", "surrogateescape")) + column - len(before)

    def take_head(self):
        """Takes the next row, if it is a head, and what follows it."""
        raise NotImplementedError


# ---- gcc, clang and what writes as they do

KINDS = "fatal error|error|warning|note|style|performance|portability|information"
HEAD = re.compile(
    r"(?P<path>[^\s:][^:]*):(?P<line>\d+):(?P<column>\d+):(?P<ranges>(?:\{[\d:-]+\})*):? "
    rf"(?P<kind>{KINDS}): (?P<words>.*)$"
)
CODE = re.compile(r"(.*?) +\[([^\[\] ]+)\]$")
RANGE = re.compile(r"\{(\d+):(\d+)-(\d+):(\d+)\}")
INCLUDED = re.compile(r"(?P<message>In file included from) (?P<path>[^:]+):(?P<line>\d+)(?::(?P<column>\d+))?[,:]$")
FROM = re.compile(r" +(?P<message>from) (?P<path>[^:]+):(?P<line>\d+)(?::(?P<column>\d+))?[,:]$")
REQUIRED = re.compile(r"(?P<path>[^\s:][^:]*):(?P<line>\d+):(?P<column>\d+):   (?P<message>(?:required|in) .*)$")
MARKS = re.compile(r"[ ~^]*[~^][ ~^]*$")
# How g++ begins a message that goes on with that of the head in front.
GOES_ON = "  "
PLACELESS = re.compile(r"(?:cc1: |cc1plus: )?note: (?P<words>.*)$")
# A row of -fdiagnostics-parseable-fixits, the escapes in its text, and what their letters mean.
FIX_ROW = re.compile(r'fix-it:"(?P<path>[^"]*)":\{[\d:-]+\}:"(?P<words>.*)"$')
ESCAPE, LETTERS = re.compile(rb"\\(?:([0-7]{3})|(.))"), {b"n": b"\n", b"t": b"\t"}
# A note of clang's about a text that stands in no file, which it quotes, with marks.
UNFILED = re.compile(r"<(?:scratch space|inline asm|command line|built-in)>:\d+:\d+: note: (?P<words>.*)$")


def message_and_code(words):
    """A message, and the code in brackets behind it."""
    match = CODE.match(words)
    return (match[1], match[2]) if match else (words, None)


def meant(escape):
    """The bytes that an escape in a row of a fix stands for."""
    return bytes([int(escape[1], 8)]) if escape[1] else LETTERS.get(escape[2], escape[2])


class Compiler(Reader):
    """What gcc, clang, clang-tidy and cppcheck have in common: heads, fronts and lines of other roles."""

    FRONTS = (INCLUDED, FROM, REQUIRED)
    SCOPE = re.compile(r"[^\s:][^:]*: (?:In|At) .*:$")
    SUM = re.compile(r"\d+ (?:warning|error)s?(?: and \d+ errors?)? generated\.$")

    def take_head(self):
        match, name = self.match(HEAD)
        if not name:
            return self.take_placeless()
        message, code = message_and_code(match["words"])
        told = self.begin(match["kind"], code, message, name, match["line"], match["column"])
        self.take_ranges(told, match["ranges"])
        while self.is_detail(told):
            told.details.append(self.row().strip())
            self.at += 1
        self.take_snippet(told)
        self.take_fix_rows(told)
        return self.keep(told)

    def take_fix_rows(self, told):
        """Takes the rows that tell programs what is to be put where. A snippet may have shown it."""
        while (match := FIX_ROW.match(self.row())) and self.files.name(match["path"]) == told.path:
            put = ESCAPE.sub(meant, match["words"].encode()).decode().strip()
            told.puts += [put] if put and put not in told.puts else []
            self.at += 1

    def take_placeless(self):
        """Takes a note of the diagnostic in front that names no place."""
        match, unfiled = PLACELESS.match(self.row()), UNFILED.match(self.row())
        if not (match or unfiled) or not self.current or self.current.last != self.at:
            return False
        self.at += 1
        note = Diagnostic(self.at, self.at, "note", None, (match or unfiled)["words"])
        if unfiled:
            note.details = [self.row().strip()]
            self.at += 2
        note.last = self.current.last = self.at
        self.current.notes.append(note)
        return True

    def is_detail(self, _):
        """Whether the next row goes on with the message of a head."""
        return False

    def take_ranges(self, told, ranges):
        """Takes the ranges that clang names in a head. The one that holds the place comes first."""
        for match in RANGE.finditer(ranges):
            line, column, end_line, end_column = map(int, match.groups())
            first, last = (self.column(Diagnostic(0, 0, "", "", "", told.path, at), column)
                           for at, column in ((line, column), (end_line, end_column)))
            told.pieces.append(Piece(told.path, line, first, end_line, last))
        put_own_first(told)


def put_own_first(told):
    """Puts the piece that holds the place of a diagnostic first, or the place alone."""
    if not told.pieces:
        return
    own = [it for it in told.pieces if holds(it, told)]
    first = own[0] if own else Piece(told.path, told.line, told.column)
    told.pieces = [first] + [it for it in told.pieces if it is not first]


def holds(piece, told):
    """Whether a piece holds the place of a diagnostic."""
    end = (piece.end_line, piece.end_column) if piece.end_line else (piece.line, piece.column + 1)
    return piece.path == told.path and (piece.line, piece.column) <= (told.line, told.column) < end


class Gcc(Compiler):
    """gcc's text, with a gutter: quoted lines by their numbers, marks, labels and fix-its below them."""

    GUTTER = re.compile(r" *(\d+|\+\+\+)? \|(.*)$")
    # What the analyzer's events begin with, each row of theirs, where a function returns, and the file of rows.
    EVENTS = re.compile(r"  .*: events? \d+(?:-\d+)?$")
    BAR = re.compile(r" *\|(.*)$")
    RETURN = re.compile(r" *<-+\+$")
    IN_FILE = re.compile(r"(?P<path>\S[^:]*):\d+:\d+:$")
    # A second event at a mark has no bar of its own, and one at no place is told behind a bar alone.
    EVENT = re.compile(r"\(\d+\) ")
    EVENT_ALONE = re.compile(r" (\(\d+\): .*)$")
    has_events = False

    def column(self, told, column):
        """gcc's text counts columns of a terminal."""
        return character_at(list(cells_of(self.files.line(told.path, told.line))), column - 1) + 1

    def is_detail(self, _):
        return self.row().startswith("   ") and not self.GUTTER.match(self.row()) and not FROM.match(self.row())

    def take_snippet(self, told):
        path = told.path
        while (row := self.snippet_row()) is not None:
            self.at += 1
            match, file = self.GUTTER.match(row), self.IN_FILE.match(row)
            if event := self.EVENT_ALONE.match(row):
                told.notes.append(Diagnostic(self.at, self.at, "note", None, event[1]))
            text = match[2].removeprefix(" ") if match else ""
            if file:
                path = self.files.name(file["path"])
            elif match and match[1] == "+++":
                told.puts.append(text.removeprefix("+"))
            elif match and match[1]:
                number, columns = int(match[1]), None
                quote = self.quote(path, number, text)
            elif match and columns is None:
                columns, bars = self.take_marks(told, path, number, quote, text), set()
            elif match:
                bars = self.take_below(told, columns, bars, text)
        put_own_first(told)

    def snippet_row(self):
        """The next row of a snippet, which stands behind a bar where events are told; None where it is no row."""
        row, behind = self.row(), self.BAR.match(self.row())
        is_frame = self.EVENTS.match(row) or self.has_events and self.RETURN.match(row)
        if is_frame or self.has_events and behind:
            self.has_events = True
            return "" if is_frame else behind[1]
        if not self.GUTTER.match(row) and row != "......":
            return None
        self.has_events = False
        return row

    def quote(self, path, number, text):
        """The line of a file that a row quotes."""
        quote = Quote(self.files.line(path, number), text)
        if not quote:
            raise ValueError(f"line {self.at} of the text doesn't quote {path}:{number}")
        return quote

    def take_marks(self, told, path, number, quote, text):
        """Takes a row of marks. The columns that it marks lead to their pieces."""
        columns = {}
        for run in re.finditer(r"[~^]+", text):
            columns |= {column: len(told.pieces) for column in range(*run.span())}
            told.pieces.append(piece_of_run(path, number, quote, run))
        return columns

    def take_below(self, told, columns, bars, text):
        """Takes a row below marks: bars, labels that stand below bars, or what is to be put there. The bars
        that go on come back."""
        words = {run.start(): run[0] for run in re.finditer(r"\|(?= |$)|\S+(?: \S+)*", text)}
        if bars and len(words) == len(bars) and all(word == "|" or self.EVENT.match(word) for word in words.values()):
            words = dict(zip(sorted(bars), words.values()))
        going_on = {column for column, word in words.items() if word == "|"}
        if not going_on and not set(words) <= bars and not all(map(self.EVENT.match, words.values())):
            told.puts += [word for word in words.values() if word.strip("-")]
            return bars
        for column in set(words) - going_on:
            place = columns[column]
            piece = told.pieces[place]._replace(label=words[column])
            if told.pieces[place].label:
                told.pieces.append(piece)
            else:
                told.pieces[place] = piece
        return going_on


class Clang(Compiler):
    """clang's and clang-tidy's text: the quoted line, marks, and a row of what is to be put there."""

    SUM = re.compile(Compiler.SUM.pattern + r"|Suppressed \d+ warnings .*|Use -header-filter=.*")

    def is_detail(self, told):
        return self.row().startswith("      ") and not self.quote(told)

    def quote(self, told):
        """The line of a place, if the next row quotes it, and marks stand below it."""
        marks = self.rows[self.at + 1] if self.at + 1 < len(self.rows) else ""
        quote = Quote(self.files.line(told.path, told.line), self.row(), columns_by_clang)
        return quote if quote and MARKS.match(marks) else None

    def take_snippet(self, told):
        """clang doesn't quote a line that has nothing, but marks it."""
        if not self.files.line(told.path, told.line) and self.row() and MARKS.match(self.row()):
            self.at += 1
            return
        quote = self.quote(told)
        if not quote:
            return
        runs = re.finditer(r"[~^]+", self.rows[self.at + 1])
        told.pieces = [piece_of_run(told.path, told.line, quote, run) for run in runs]
        put_own_first(told)
        self.at += 2
        if not self.is_known():
            told.puts = re.findall(r"\S+(?: \S+)*", self.row())
            self.at += 1

    def is_known(self):
        """Whether the next row is one that can stand behind marks."""
        patterns = (HEAD, PLACELESS, UNFILED, FIX_ROW, self.SUM, *self.FRONTS, re.compile(r"===|Found compiler error|$"))
        return any(pattern.match(self.row()) for pattern in patterns)


class ClangRanges(Clang):
    """clang's text with ranges in its heads: a blank stands in front of the quoted line, before its tabs are made
    blanks, and of the marks."""

    def quote(self, told):
        line, marks = self.files.line(told.path, told.line), self.rows[self.at + 1 : self.at + 2]
        shown = "".join(shown for shown, _ in cells_of(f" {line}", is_never_escaped, columns_by_clang))
        if not marks or not MARKS.match(marks[0]) or shown.rstrip() != self.row():
            return None
        quote = Quote(line, line.expandtabs(), columns_by_clang)
        quote.left_out = -1
        return quote


class Cppcheck(Compiler):
    """cppcheck's text: the quoted line with a blank for each tab, and a caret that says what the head does."""

    def column(self, told, column):
        return super().column(told, column) if column else None

    def take_snippet(self, told):
        line = self.files.line(told.path, told.line).replace("\t", " ").rstrip()
        if self.row() == line:
            self.at += 2


class Shellcheck(Compiler):
    """shellcheck's lines in gcc's form, which quote nothing. Columns count characters."""

    def column(self, told, column):
        return column

    def take_snippet(self, told):
        pass


class RustcShort(Shellcheck):
    """rustc's lines of `--error-format=short`, which quote nothing. Columns count characters. Further rows of a
    message stand as far to the right as its first; so may the words by which cargo tells what it has done."""

    STATUS = re.compile(r" {7}(?:Fresh|Dirty|Fixed) ")

    HEAD = re.compile(
        r"(?P<path>[^\s:][^:]*):(?P<line>\d+):(?P<column>\d+): (?P<kind>error|warning)(?:\[(?P<code>\w+)\])?: (?P<words>.*)$"
    )

    def take_head(self):
        match, name = self.match(self.HEAD)
        if not name:
            return False
        told = self.begin(match["kind"], match["code"], match["words"], name, match["line"], match["column"])
        in_front = " " * (match.start("words") - match.start("kind"))
        while self.row().startswith(in_front) and not self.STATUS.match(self.row()):
            told.message += f"\n{self.row().removeprefix(in_front)}"
            self.at += 1
        return self.keep(told)


class Make(Gcc):
    """gcc's text among make's, which tells the folders that it enters."""

    def take_line(self, role):
        match = re.match(r"make\[\d+\]: (Entering|Leaving) directory '(.*)'$", self.row())
        if match and match[1] == "Entering":
            self.files.folders.append(self.files.folders[0] / match[2])
        elif match:
            self.files.folders.pop()
        super().take_line(role)


# ---- others that write lines


class Javac(Reader):
    """javac's text: no column in the head, the line as it is, a caret below it, and more of the message."""

    HEAD = re.compile(r"(?P<path>[^:]+):(?P<line>\d+): (?P<kind>error|warning): (?:\[(?P<code>\w+)\] )?(?P<words>.*)$")
    SUM = re.compile(r"\d+ (?:error|warning)s?$")

    def take_head(self):
        match, name = self.match(self.HEAD)
        if not name:
            return False
        told = self.begin(match["kind"], match["code"], match["words"], name, match["line"], None)
        line = self.files.line(told.path, told.line).rstrip()
        told.column = self.character(line, self.row().rstrip(), self.rows[self.at + 1].index("^")) + 1
        self.at += 2
        while self.row().startswith("  "):
            told.details.append(self.row().strip())
            self.at += 1
        return self.keep(told)

    def character(self, line, row, column):
        """The number of the character in a column of the row that quotes a line, both from 0: javac counts units of
        UTF-16, and writes `?` for a character that it can't write. Of a file that it reads as ASCII it has `?` for
        each byte that is none."""
        units = [(it, len(it.encode("utf-16-le")) // 2) for it in line]
        as_bytes = [(it if it.isascii() else "?" * len(it.encode()), len(it.encode())) for it in line]
        if row in (line, line.encode("ascii", "replace").decode()):
            return character_at(units, column)
        if row == "".join(shown for shown, _ in as_bytes):
            return character_at(as_bytes, column)
        raise ValueError(f"line {self.at + 1} of the text quotes no line")


class Mypy(Reader):
    """mypy's text. Its columns count bytes, but those of syntax errors. What it says stands in the order of
    the lines of files, so that a note belongs to an error of its line alone. With --pretty a message goes on in
    the next lines, and the line is quoted, with marks that count bytes below it. These go no further than the line
    has characters: what stands there is not known, but where the head says it."""

    HEAD = re.compile(
        r"(?P<path>[^:]+):(?P<line>\d+)(?::(?P<column>\d+)(?::(?P<end_line>\d+):(?P<end_column>\d+))?)?: "
        r"(?P<kind>error|note): (?P<words>.*)$"
    )
    MARKS = re.compile(r" +(\^~*)(\.\.\.)?$")

    def take_head(self):
        match, name = self.match(self.HEAD)
        if not name:
            return False
        message, code = message_and_code(match["words"])
        told = self.begin(match["kind"], code, message, name, match["line"], None)
        if match["column"]:
            column = int(match["column"])
            told.column = column if code == "syntax" else self.column(told, column)
            told.pieces = [self.piece(told, match)]
        if told.kind != "note":
            self.take_snippet(told)
        return self.keep(told)

    def is_about(self, told):
        return (told.path, told.line) == (self.current.path, self.current.line)

    def piece(self, told, match):
        """The range that a head names: its end is the last byte. One that is its start is none."""
        if match["end_line"] is None or match.group("line", "column") == match.group("end_line", "end_column"):
            return Piece(told.path, told.line, told.column)
        end = Diagnostic(0, 0, "", "", "", told.path, int(match["end_line"]))
        return Piece(told.path, told.line, told.column, end.line, self.column(end, int(match["end_column"]) + 1))

    def take_snippet(self, told):
        """Takes the rows behind a head of --pretty: more of the message, the line, and its marks."""
        ahead = next((at for at in range(5) if self.is_snippet(told, self.at + at)), None)
        if ahead is None:
            return
        told.details = [row.strip() for row in self.rows[self.at : self.at + ahead]]
        row, marks = self.rows[self.at + ahead : self.at + ahead + 2]
        self.at += ahead + 2
        if told.column is None:
            self.take_marks(told, row.removeprefix("    "), self.MARKS.match(marks))

    def take_marks(self, told, row, run):
        """Takes the marks below a quoted line, as far as they say which bytes they mean."""
        line = self.files.line(told.path, told.line)
        left_out = Quote(line, row).left_out
        if left_out and not line.isascii():
            return
        start, behind = (self.byte_at(line, at - 4 + left_out) for at in run.span(1))
        if start is not None:
            told.column = self.column(told, start + 1)
            is_whole = len(run[1]) > 1 and not run[2] and behind is not None
            end = (told.line, self.column(told, behind) + 1) if is_whole else ()
            told.pieces = [Piece(told.path, told.line, told.column, *end)]

    @staticmethod
    def byte_at(line, column):
        """The byte that mypy means by a column of a row below a line, both from 0: it shows the first so many
        characters. None where it may mean any behind them."""
        byte = next((at for at in range(len(line)) if len(line[:at].expandtabs()) >= column), len(line))
        return byte if line.isascii() or byte < len(line) else None

    def is_snippet(self, told, at):
        """Whether a row quotes the line of a place, and marks stand below it."""
        rows = self.rows[at : at + 2]
        quote = Quote(self.files.line(told.path, told.line), rows[0].removeprefix("    ")) if rows else None
        return quote and len(rows) == 2 and self.MARKS.match(rows[1])


class Pylint(Reader):
    """pylint's text. Its columns count bytes from 0, and characters in what looks at lines or tokens; where those are
    Python's own, and where hidden characters stand, they count from 1."""

    HEAD = re.compile(r"(?P<path>[^\s:]+):(?P<line>\d+):(?P<column>\d+): (?P<code>[A-Z]\d{4}): (?P<words>.*)$")
    COUNT_CHARACTERS, FROM_ONE = ("C0303", "W0511", "W1401", "W1402"), ("E0001", "E2515")

    def take_head(self):
        match, name = self.match(self.HEAD)
        if not name:
            return False
        told = self.begin(None, match["code"], match["words"], name, match["line"], None)
        column = int(match["column"])
        if told.code in self.FROM_ONE:
            told.column = column
        elif told.code in self.COUNT_CHARACTERS:
            told.column = column + 1
        else:
            told.column = self.column(told, column + 1)
        return self.keep(told)


class Erlc(Reader):
    """erlc's text: errors name no kind, columns count characters, and an empty line ends each."""

    HEAD = re.compile(r"(?P<path>[^\s:]+):(?P<line>\d+):(?P<column>\d+): (?:(?P<kind>Warning): )?(?P<words>.*)$")

    def take_head(self):
        match, name = self.match(self.HEAD)
        if not name:
            return False
        told = self.begin(match["kind"], None, match["words"], name, match["line"], None)
        told.column = int(match["column"])
        while self.row().startswith("% "):
            self.at += 1
        self.keep(told)
        if self.row() == "":
            self.take_line("blank")
        return True


# ---- JSON


class Json(Reader):
    """Values of JSON in lines among others, each in one line or over many. A form says which diagnostics a value
    tells."""

    def take_head(self):
        if not self.row().startswith(("{", "[")):
            return False
        rest = "\n".join(self.rows[self.at :])
        value, end = json.JSONDecoder().raw_decode(rest)
        self.begun, self.at = self.at + 1, self.at + rest.count("\n", 0, end) + 1
        self.items += self.items_of_value(value)
        return True

    def character(self, path, line, column):
        """The column in characters of one in bytes."""
        return self.column(Diagnostic(0, 0, "", "", "", path, line), column)


class GccJson(Json):
    """A line of gcc's JSON: a list of diagnostics. A note belongs to the one before it. A byte order mark has
    no column."""

    def items_of_value(self, value):
        items = []
        for item in (it for whole in value for it in (whole, *whole["children"])):
            if items and (item["kind"] == "note" or item["message"].startswith(GOES_ON)):
                items[-1].notes.append(self.told(item))
            else:
                items.append(self.told(item))
        return items

    def told(self, item):
        """An item of the list, or a note in one."""
        told = Diagnostic(self.begun, self.at, item["kind"], item.get("option"), item["message"])
        for location in item["locations"][:1]:
            caret = location["caret"]
            told.path, told.line = self.files.name(caret["file"]), caret["line"]
            told.column = self.column_of(caret)
        told.pieces = [self.piece(location) for location in item["locations"]]
        told.pieces += [self.event(*it) for it in enumerate(item.get("path", ()), 1)]
        told.puts = [it["string"].strip() for it in item.get("fixits", ()) if it["string"].strip()]
        put_own_first(told)
        return told

    def column_of(self, point, behind=0):
        """The column of a point of gcc's, or of the byte behind it."""
        name, line = self.files.name(point["file"]), point["line"]
        mark = len(MARK.encode()) if self.files.line(name, line).startswith(MARK) else 0
        return self.character(name, line, mark + point["byte-column"] + behind)

    def event(self, number, event):
        """An event that leads to a diagnostic of the analyzer: where it is, and its number and what is done."""
        at = event["location"]
        label = f"({number}) {event['description']}"
        return Piece(self.files.name(at["file"]), at["line"], self.column_of(at), label=label)

    def piece(self, location):
        """A location: its start and its finish, which is the last byte, or the caret alone."""
        caret, label = location["caret"], location.get("label")
        start, finish = (location.get(name, caret) for name in ("start", "finish"))
        end = (finish["line"], self.column_of(finish, 1)) if start != finish else (None, None)
        return Piece(self.files.name(caret["file"]), start["line"], self.column_of(start), *end, label)


class RustcJson(Json):
    """A line of rustc's JSON, or of cargo's, whose files stand below a folder above the package's."""

    def __init__(self, said, files):
        super().__init__(said, files)
        self.told_before = set()

    def items_of_value(self, value):
        if "reason" not in value:
            return [self.told(value)]
        if value["reason"] != "compiler-message":
            return [Line(self.at, "own")]
        key = value["package_id"], json.dumps(value["message"])
        if key in self.told_before:
            return [Line(self.at, "again")]
        self.told_before.add(key)
        folder = self.files.folders[0] / value["manifest_path"]
        self.files.folders = [self.files.folders[0], *folder.parents]
        return [self.told(value["message"])]

    def told(self, message):
        """A message of rustc's, or a note in one."""
        told = Diagnostic(
            self.begun, self.at, message["level"], (message["code"] or {}).get("code"), message["message"]
        )
        spans = sorted(message["spans"], key=lambda span: not span["is_primary"])
        puts = [span["suggested_replacement"] for span in spans if span["suggested_replacement"] is not None]
        told.puts = [line.strip() for put in puts for line in put.split("\n") if line.strip()]
        placed = [span for span in spans if not self.is_of_crate(span)]
        told.pieces = [] if puts else [piece for span in placed for piece in self.pieces(span)]
        told.notes = [self.told(child) for child in message["children"]]
        if told.pieces:
            told.path, told.line, told.column = told.pieces[0][:3]
        return told

    @staticmethod
    def is_of_crate(span):
        """Whether a span stands for a whole crate: rustc's text names no place for it."""
        return span["byte_start"] == span["byte_end"] == 0 and not span["text"] and not span["label"]

    def pieces(self, span):
        """The pieces of a span: where it is, or else the first of the macro calls around it that is in one of the
        files; and where the outermost of them is, if it isn't around that."""
        spans = list(self.spans_around(span))
        own = [it for it in spans if it.path]
        yield from own[:1]
        if own and spans[-1].path and not is_within(own[0], spans[-1]):
            yield spans[-1]

    def spans_around(self, span):
        """Where a span is, and the macro calls around it, the innermost first."""
        name = self.files.name(span["file_name"])
        yield Piece(name, *(span[it] for it in ("line_start", "column_start", "line_end", "column_end", "label")))
        if span["expansion"]:
            yield from self.spans_around(span["expansion"]["span"])


def is_within(piece, other):
    """Whether a piece is within another one."""
    return piece.path == other.path and other[1:3] <= piece[1:3] and piece[3:5] <= other[3:5]


class ShellcheckJson(Json):
    """shellcheck's JSON. Columns count characters, and an end is the column behind it."""

    def items_of_value(self, value):
        return [self.told(comment) for comment in value["comments"]]

    def told(self, comment):
        """A comment."""
        place = self.files.name(comment["file"]), comment["line"], comment["column"]
        told = Diagnostic(self.begun, self.at, comment["level"], f"SC{comment['code']}", comment["message"], *place)
        told.pieces = [Piece(*place, comment["endLine"], comment["endColumn"])]
        puts = (comment["fix"] or {"replacements": ()})["replacements"]
        told.puts = [it["replacement"].strip() for it in puts if it["replacement"].strip()]
        return told


class SarifLog(Json):
    """A log of SARIF by clang's analyzer, whose columns count characters. A region of no characters is a place. The
    steps of a result's first flow lead to it, as the events of gcc's analyzer do."""

    def items_of_value(self, value):
        return [self.told(it) for run in value["runs"] for it in run["results"]]

    def told(self, result):
        """A result."""
        told = Diagnostic(self.begun, self.at, result.get("level", "warning"), result["ruleId"], result["message"]["text"])
        told.pieces = [self.piece(it["physicalLocation"]) for it in result["locations"]]
        told.path, told.line, told.column = told.pieces[0][:3]
        steps = result["codeFlows"][0]["threadFlows"][0]["locations"]
        told.pieces += [self.step(number, it["location"]) for number, it in enumerate(steps, 1)]
        return told

    def step(self, number, location):
        """A step that leads to a result: where it is, and its number and what is said of it."""
        label = f"({number}) {location['message']['text']}"
        return self.piece(location["physicalLocation"])._replace(label=label)

    def piece(self, location):
        """The piece of a file that a location names."""
        region, path = location["region"], location["artifactLocation"]["uri"].removeprefix("file://")
        start = region["startLine"], region["startColumn"]
        end = region.get("endLine", start[0]), region["endColumn"]
        return Piece(self.files.name(path), *start, *(end if end != start else (None, None)))


class Utf16Json(Json):
    """JSON whose columns count the units of UTF-16."""

    def column_of(self, path, line, units):
        """The column in characters behind so many units of a line."""
        before = self.files.line(path, line).encode("utf-16-le", "surrogateescape")[: 2 * units]
        return len(before.decode("utf-16-le")) + 1


class EslintJson(Utf16Json):
    """eslint's JSON: a list of files, each with its messages. An end is the column behind it, and not each names one."""

    KINDS = (None, "warning", "error")

    def items_of_value(self, value):
        return [self.told(self.files.name(file["filePath"]), it) for file in value for it in file["messages"]]

    def told(self, path, item):
        """A message of a file."""
        start = item["line"], self.column_of(path, item["line"], item["column"] - 1)
        told = Diagnostic(
            self.begun, self.at, self.KINDS[item["severity"]], item["ruleId"], item["message"], path, *start
        )
        end = item.get("endLine")
        ends = (end, self.column_of(path, end, item["endColumn"] - 1)) if end else ()
        told.pieces = [Piece(path, *start, *ends)]
        told.puts = [item["fix"]["text"]] if "fix" in item else []
        return told


class Published(Utf16Json):
    """The diagnostics that clangd publishes by LSP. Lines and columns count from 0."""

    KINDS = (None, "error", "warning", "note", "note")

    def items_of_value(self, value):
        path = self.files.name(value["params"]["uri"].removeprefix("file://"))
        return [self.told(path, it) for it in value["params"]["diagnostics"]]

    def told(self, path, item):
        """A diagnostic of a file."""
        start, end = (self.spot(path, item["range"][name]) for name in ("start", "end"))
        told = Diagnostic(
            self.begun, self.at, self.KINDS[item["severity"]], item.get("code"), item["message"], path, *start
        )
        told.pieces = [Piece(path, *start, *end)]
        return told

    def spot(self, path, at):
        """The line and the column of a place."""
        return at["line"] + 1, self.column_of(path, at["line"] + 1, at["character"])


class GoVet(Json):
    """go vet's JSON: of each package, the diagnostics of each analyzer. Columns count bytes, and no end is named."""

    def items_of_value(self, value):
        return [self.told(name, it) for package in value.values() for name, all_of in package.items() for it in all_of]

    def told(self, name, item):
        """A diagnostic of an analyzer."""
        path, line, column = item["posn"].rsplit(":", 2)
        path, line = self.files.name(path), int(line)
        place = path, line, self.character(path, line, int(column))
        told = Diagnostic(self.begun, self.at, "error", name, item["message"], *place)
        told.pieces = [Piece(*place)]
        return told


class RustcText(RustcJson):
    """rustc's text: each of its blocks is what rustc's JSON of the same run has as `rendered`. Its arrow says
    where it is, which is the second place of two of its own once."""

    ARROW = re.compile(r"--> (.*?):(\d+):(\d+)\n")
    ASIDE = re.compile(r" *= (note|help): (.*)$")

    def __init__(self, said, files, in_json):
        super().__init__(said, files)
        self.messages = [json.loads(row) for row in in_json.decode().split("\n") if row.startswith("{")]

    def take_head(self):
        rows = self.messages[0]["rendered"].split("\n")[:-1] if self.messages else [None]
        if self.rows[self.at : self.at + len(rows)] != rows:
            return False
        message, first = self.messages.pop(0), self.at + 1
        if not message["spans"]:
            return False
        self.begun = self.at
        told = self.told(message)
        told.code = told.code if rows[0].startswith(f"{told.kind}[") else None
        told.notes = [note for note in told.notes if note.message.split("\n")[0] in message["rendered"]]
        known = "\n".join(note.message for note in told.notes)
        for row in map(self.ASIDE.match, rows):
            if row and row[2] not in known:
                told.notes.append(Diagnostic(first, first, row[1], None, row[2]))
        arrow = self.ARROW.search(message["rendered"])
        told.path, told.line, told.column = self.files.name(arrow[1]), int(arrow[2]), int(arrow[3])
        told.first, told.last = first, self.at + len(rows)
        self.at = told.last
        self.items.append(told)
        return True


class NoForm(Reader):
    """Lines of which none is a diagnostic."""

    def take_head(self):
        return False


FORMS = {
    "none": NoForm,
    "gcc": Gcc,
    "make": Make,
    "clang": Clang,
    "clang ranges": ClangRanges,
    "cppcheck": Cppcheck,
    "shellcheck": Shellcheck,
    "rustc short": RustcShort,
    "javac": Javac,
    "mypy": Mypy,
    "pylint": Pylint,
    "erlc": Erlc,
    "gcc json": GccJson,
    "rustc json": RustcJson,
    "rustc": RustcText,
    "shellcheck json": ShellcheckJson,
    "sarif": SarifLog,
    "eslint json": EslintJson,
    "lsp": Published,
    "go vet json": GoVet,
}


# ---- stored items


def is_left_out(value):
    """Whether a member is not written: none, an empty list, or the columns of an unknown end."""
    return value is None or value == []


def plain(value):
    """A value as JSON has it, without what is left out of it."""
    if isinstance(value, Piece):
        return list(value[: 6 if value.label is not None else 5 if value.end_line is not None else 3])
    if isinstance(value, Line):
        return {"first": value.first, "role": value.role}
    if isinstance(value, Diagnostic):
        return {name: plain(it) for name, it in vars(value).items() if not is_left_out(it)}
    return [plain(it) for it in value] if isinstance(value, list) else value


def item_of(value):
    """An item from what `plain` made of it."""
    if "role" in value:
        return Line(value["first"], value["role"])
    told = Diagnostic(**{"code": None, "kind": None, "last": value["first"]} | value)
    told.pieces = [Piece(*piece) for piece in told.pieces]
    told.notes, told.fronts = ([item_of(it) for it in list_] for list_ in (told.notes, told.fronts))
    return told
