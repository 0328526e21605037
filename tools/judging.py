"""Judges what ariadne-show writes of a text, for try-show: each diagnostic stands there once, whole and at
its place, and all that isn't one stands there as it was, in its order.

What is wanted are the items of marks.py. A diagnostic has one picture, whose header is at its place. In it
are marked the pieces that the tool marks, those of its notes and of what leads to it, and nothing else; their
texts stand at them. Further lines of a message may stand in the picture, or behind it as they were. Where
a tool marks one column, what is marked begins there, and may go on; where it names no column, what is
marked is in that line.
"""

import re
from collections import Counter
from itertools import product
from typing import NamedTuple

from attacks import is_hidden, sign
from marks import SGR, Diagnostic, Line, message_and_code
from seen import Picture, Span, shown_column, shown_in

SUM = re.compile(r"(\d+) (error|warning|note)s?(?:, |$)")
# What rustc says of others at the end.
SUMS = re.compile(r"aborting due to |.* emitted$")
MUST, MAY = ("pass",), ("scope", "sum", "blank")
# The words that a header may have for a kind, beside its own.
LIKE = {
    "fatal error": "Error",
    "warning": "Warning",
    "performance": "Warning",
    "portability": "Warning",
    "information": "Warning",
    "info": "Note",
    "note": "Note",
    "help": "Note",
    "style": "Note",
    "failure-note": "Note",
}
ERRORS = ("error", "fatal error")


class Wanted(NamedTuple):
    """A row or a picture that has to stand in the output, or may."""

    item: object
    rows: tuple  # the rows that it may be; none where it is a picture
    must: bool


def signs(text):
    """A text in a row: with signs for its hidden characters, but for tabs."""
    return "".join(sign(it) if is_hidden(it) and it != "\t" else it for it in text)


# ---- what is wanted


def kinds_of(told):
    """The words that a header may have for the kind of a diagnostic."""
    own = told.kind or ""
    words = {own, own.capitalize(), LIKE.get(own.lower(), "")}
    return sorted(words - {""}) or ["Error", "Warning", "Note"]


def headers_of(told):
    """The rows that a header may be, but for what goes on of a message of several lines."""
    codes = {told.code, message_and_code(" ".join(["", *told.details]))[1]}
    for kind, code in product(kinds_of(told), codes - {None} if told.code else codes):
        if code is None:
            yield f"{kind}: {told.message.rstrip()}"
            message, _, in_brackets = told.message.removesuffix("]").rpartition("[")
            yield f"[{in_brackets}] {kind}: {message.rstrip()}"
        else:
            yield f"[{code}] {kind}: {told.message.rstrip()}"
            yield f"{kind}: {told.message} [{code}]"
            yield f"{kind}: [{code}] {told.message}"


def is_header(row, told):
    """Whether a row is the header of a diagnostic: whole, or as far as its first lines go."""
    more = " ".join(["", *told.details, ""])
    headers = [header for header in map(signs, headers_of(told)) if row.startswith(header)]
    return any(more.startswith(row.removeprefix(header)) for header in headers)


def is_sum(told):
    """Whether a diagnostic without a place sums up others, or says where to read more."""
    return not told.path and (told.kind == "failure-note" or SUMS.match(told.message))


def parts_of(told):
    """A diagnostic with its notes and what leads to them."""
    yield told
    for part in (*told.fronts, *told.notes):
        yield from parts_of(part)


def wanted_row(rows, line):
    """What a line that is no diagnostic's has to be in the output, or may be."""
    if line.role in MUST + MAY:
        row = rows[line.first - 1]
        yield Wanted(line, (row, signs(row)), line.role in MUST)


def wanted_rows(said, items):
    """What has to stand in the output of a text, or may, in its order."""
    rows = SGR.sub("", said.decode("utf-8", "surrogateescape")).split("\n")
    lines = {item.first: item for item in items if isinstance(item, Line)}
    for item in items:
        if isinstance(item, Line):
            yield from wanted_row(rows, item)
        elif item.path:
            # (What stands among its lines may stand in front of it, since it is drawn when it is whole.)
            among = [lines[at] for at in range(item.first, item.last) if at in lines]
            yield from (wanted for line in among for wanted in wanted_row(rows, line))
            yield Wanted(item, (), True)
        else:
            yield Wanted(item, tuple(headers_of(item)), True)
            notes = sorted(item.notes, key=lambda note: note.kind == "help")
            asides = [line.strip() for note in notes for line in note.message.split("\n")]
            yield from (Wanted(item, (f"Note: {it}", f"Help: {it}", f"      {it}"), False) for it in asides)


# ---- a picture


class Marks(NamedTuple):
    """What is to be marked below a line: columns that have to be, columns where a mark begins, those that may
    be marked, or any."""

    sure: set
    begins: set
    may: set
    is_any: list

    @classmethod
    def none(cls):
        return cls(set(), set(), set(), [])

    def differ(self, marked):
        """What is wrong with the columns that are marked."""
        if self.is_any:
            return None if marked else "nothing is marked"
        missing = (self.sure | self.begins) - marked
        if missing:
            return f"columns {sorted(missing)} are not marked"
        more = {at for at in marked - self.sure - self.may if not self.goes_on(at, marked)}
        return f"columns {sorted(more)} are marked" if more else None

    def goes_on(self, column, marked):
        """Whether a column goes on with a mark whose end is not known."""
        return any(begin <= column and set(range(begin, column)) <= marked for begin in self.begins)


class PictureJudge:
    """What is wrong with the picture of a diagnostic. `ranges` has the pieces that the text marks anywhere, by
    the places that they are of."""

    def __init__(self, told, picture, files, ranges):
        self.told, self.picture, self.files, self.ranges = told, picture, files, ranges
        self.parts = list(parts_of(told))

    def faults(self):
        """All that is wrong with the picture."""
        yield from self.picture.faults
        yield from self.header_faults()
        yield from self.mark_faults()
        yield from self.text_faults()
        yield from self.repeat_faults()

    def repeat_faults(self):
        """What is said twice at one column."""
        arrows = [arrow for arrow in self.picture.arrows if arrow.column is not None and arrow.text != "here"]
        yield from (f"twice: {arrow.text!r}" for arrow, times in Counter(arrows).items() if times > 1)

    def header_faults(self):
        path, line, column = self.picture.place
        wanted = self.told.column and min(self.told.column, len(self.files.line(path, line)) + 1)
        if not is_header(self.picture.header, self.told):
            yield f"its header is {self.picture.header!r}"
        if (path, line) != (self.told.path, self.told.line) or wanted not in (None, column):
            yield f"it is drawn at {path}:{line}:{column}"

    def columns(self, piece):
        """The columns of a terminal, in a picture, of a piece of one line: one at least. What is behind the
        line is one column, the end of the line."""
        line = self.files.line(piece.path, piece.line)
        start, end = (shown_column(line, at - 1) for at in (piece.column, piece.end_column or piece.column))
        return set(range(start, max(end + ((piece.end_column or 0) > len(line) + 1), start + 1)))

    def wanted_marks(self):
        """By file and line, what has to be marked; and the pieces of several lines. A note at all of the
        diagnostic's own has no other label over them."""
        marks, spans = {}, []
        for part, piece in ((part, piece) for part in self.parts for piece in part.pieces):
            wanted = marks.setdefault((piece.path, piece.line), Marks.none())
            if piece.column is None:
                wanted.is_any.append(piece)
            elif piece.end_line is None:
                wanted.begins.update(self.columns(piece))
                wanted.may.update(*map(self.columns, self.ranges.get(piece[:3], ())))
            elif piece.end_line == piece.line:
                wanted.sure.update(self.columns(piece))
            elif part is self.told or piece[:5] != self.told.pieces[0][:5]:
                spans.append(Span(piece.path, piece.line, piece.end_line))
        return marks, spans

    def mark_faults(self):
        marks, spans = self.wanted_marks()
        for span in self.picture.spans:
            if span in spans:
                spans.remove(span)
            elif not self.joins(span, marks):
                yield f"a label is over lines {span.line} to {span.end_line}"
        yield from (f"no label is over lines {span.line} to {span.end_line}" for span in spans)
        for place in sorted(marks.keys() | self.picture.marked.keys()):
            fault = marks.get(place, Marks.none()).differ(self.picture.marked.get(place, set()))
            if fault and not (place in marks and self.is_spanned(place)):
                yield f"below {place[0]}:{place[1]} {fault}"

    def joins(self, span, marks):
        """Whether a label is over lines that all have marks of their own: those of a piece of several lines."""
        return all(marks.get((span.path, at)) for at in (span.line, span.end_line))

    def is_spanned(self, place):
        """Whether a label over several lines begins or ends in a line, or goes on there."""
        path, line = place
        return any(it.path == path and it.line <= line <= it.end_line for it in self.picture.spans)

    def text_faults(self):
        """What isn't said, or not where it is said of."""
        said = "\n".join(self.picture.texts())
        for part in self.parts:
            labelled = [piece for piece in part.pieces if piece.label]
            yield from (f"no label {it.label!r}" for it in labelled if not self.stands_at(it.label, [it]))
            yield from (f"{put!r} is not named" for put in part.puts if put not in said)
            if part is not self.told and part.puts and not self.is_reasoned(part):
                yield f"{part.puts!r} don't stand behind {part.message!r}"
            if part is not self.told and not self.is_said(part):
                yield f"no label {part.message!r} at {part.path}:{part.line}"
        known = [line for part in self.parts for line in [*part.message.split("\n"), *part.details]]
        for note in self.picture.notes:
            if not any(signs(line.strip()) in note for line in known if line.strip()):
                yield f"another note: {note!r}"

    def is_reasoned(self, part):
        """Whether what a note says is to be put somewhere stands behind what the note says. Each may have a row."""
        reason = signs(part.message.strip().split("\n")[0])
        behind = [text.partition(reason)[2] for text in self.picture.texts()]
        return any(put in text for put in part.puts for text in behind)

    def is_said(self, part):
        """Whether a note is said at its place; or below, where it has none, or one that is said of already, or
        names no column in the line that its diagnostic is about."""
        message = signs(part.message.strip().split("\n")[0])
        is_included = message in ("In file included from", "from")
        is_of_line = (part.path, part.line) == (self.told.path, self.told.line)
        if part.path is None or any(it.label for it in part.pieces) or is_of_line and self.is_of_place(part):
            return any(message in text for text in self.picture.texts())
        return self.stands_at("" if is_included else message, part.pieces)

    def is_of_place(self, part):
        """Whether a note in the line of its diagnostic names the column of that, or none."""
        return part.column in (None, self.told.column)

    def stands_at(self, text, pieces):
        """Whether a label with a text leads to one of some pieces."""
        return any(
            text in arrow.text and any(self.leads_to(arrow, piece) for piece in pieces) for arrow in self.picture.arrows
        )

    def leads_to(self, arrow, piece):
        """Whether a label leads to a piece: to one of its columns, or from the lines that it is over."""
        end_line = piece.end_line or piece.line
        last = end_line + self.is_spanned((piece.path, piece.line))
        if arrow.path != piece.path or not piece.line <= arrow.line <= last:
            return False
        if arrow.column is None or piece.column is None or end_line != piece.line:
            return True
        columns = self.columns(piece)
        if piece.end_line is None:
            marked = self.picture.marked.get((arrow.path, arrow.line), set())
            columns |= marked & set(range(min(columns), arrow.column + 1))
        return arrow.column in columns


# ---- an output


def is_said_by(picture, line):
    """Whether a picture says a further line of a message, and the code in it, which may stand in front."""
    said = "\n".join([picture.header, *picture.texts()])
    message, code = message_and_code(f" {line}")
    return message.strip() in said and (code is None or f"[{code}]" in said)


class Judge:
    """What is wrong with the output of a text."""

    def __init__(self, said, items, files):
        self.files, self.items = files, items
        self.wanted = list(wanted_rows(said, items))
        self.at, self.ranges = 0, {}
        for part in (part for item in items if isinstance(item, Diagnostic) for part in parts_of(item)):
            if part.pieces and part.pieces[0].end_line == part.line:
                self.ranges.setdefault((part.path, part.line, part.column), []).append(part.pieces[0])

    def faults_of(self, output):
        """All that is wrong with an output, the last row too, which counts the diagnostics."""
        rows, last = output.split("\n")[:-1], ""
        if rows and SUM.match(rows[-1]):
            last = rows.pop()
        yield from self.sum_faults(last)
        yield from self.faults_between("".join(f"{row}\n" for row in rows))

    def faults_between(self, output):
        """All that is wrong with an output without its last row."""
        elements = list(shown_in(output, self.name, self.files.line)) if output else []
        for place, element in enumerate(elements):
            fits = self.next_fit(element)
            if fits is not None:
                yield from self.take(fits, element)
            elif element != "" or not self.is_by_picture(elements, place):
                yield f"a row or a picture that is none of the text's: {self.told(element)}"
        yield from self.lost(len(self.wanted))

    def name(self, shown):
        """The name of a file that a header shows: as the tool names it, or from the folder of the run."""
        return self.files.name(shown) or next((it for it in self.names() if it.endswith(f"/{shown}")), shown)

    def names(self):
        """The names of all files that the text is about."""
        told = [item for item in self.items if isinstance(item, Diagnostic)]
        return {piece.path for item in told for part in parts_of(item) for piece in part.pieces if piece.path}

    def told(self, element):
        """An element in one line."""
        return f"{element.header} at {element.place}" if isinstance(element, Picture) else repr(element)

    def next_fit(self, element):
        """Where what is wanted next fits an element; further on, where it doesn't, but not for what may stand
        anywhere."""
        for place in range(self.at, len(self.wanted)):
            if self.fits(self.wanted[place], element):
                return place
            if self.wanted[place].must and element == "":
                return None
        return None

    def fits(self, wanted, element):
        """Whether a row or a picture is a wanted one."""
        if isinstance(element, str):
            return element in wanted.rows
        told = wanted.item
        return not wanted.rows and is_header(element.header, told) and element.place[0] == told.path

    def take(self, place, element):
        """Takes an element that fits, and tells what is lost in front of it and wrong with it."""
        yield from self.lost(place)
        wanted, self.at = self.wanted[place], place + 1
        if isinstance(element, Picture):
            for fault in PictureJudge(wanted.item, element, self.files, self.ranges).faults():
                yield f"line {wanted.item.first}: {fault}"
            left = [it for it in wanted.item.details if not is_said_by(element, it)]
            self.wanted[self.at : self.at] = [Wanted(wanted.item, (it,), True) for it in left]

    def lost(self, place):
        """What has to stand in front of a place, and doesn't."""
        for wanted in self.wanted[self.at : place]:
            if wanted.must:
                yield f"line {wanted.item.first}: lost, or not in its place"
        self.at = max(self.at, place)

    def is_by_picture(self, elements, place):
        """Whether an element stands by a picture, or by the rows of a diagnostic without a place."""
        alone = {row for wanted in self.wanted if isinstance(wanted.item, Diagnostic) for row in wanted.rows}
        return any(isinstance(it, Picture) or it in alone for it in elements[max(place - 1, 0) : place + 2])

    def sum_faults(self, row):
        """What is wrong with the last row: how many there were of each kind."""
        told = [item for item in self.items if isinstance(item, Diagnostic) and not is_sum(item)]
        counts = {kind: int(number) for number, kind in SUM.findall(row)}
        errors = sum(item.kind in ERRORS for item in told)
        if all(item.kind for item in told) and counts.get("error", 0) != errors:
            yield f"{errors} errors are wanted: {row!r}"
        if sum(counts.values()) != len(told):
            yield f"{len(told)} diagnostics are wanted: {row!r}"
