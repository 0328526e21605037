"""The picture of a report, reckoned from the report alone: one model for all tools that try pictures.

It is written from the definitions in crates/ariadne_picture/specs, in the order in which they are
read, and shares nothing with the code that draws. A report is a dict with the members of a case of
ariadne_replay. `answer_of(report)` has the bytes that are sent, as a text, and the labels left out.

Lines, columns, places and offsets count from 0. A place is a character of a line, or one past it.
"""

import re
import unicodedata
from bisect import bisect_left, bisect_right
from dataclasses import dataclass
from functools import cache, cached_property
from itertools import accumulate, chain
from typing import NamedTuple, Optional

# ---- sources: lines, and offsets in characters and in bytes

LINE_END = re.compile("\r\n|[\n\v\f\r\x85\u2028\u2029]")
WHITE_SPACE = (
    "\t\n\v\f\r \x85\xa0\u1680\u2000\u2001\u2002\u2003\u2004\u2005\u2006\u2007\u2008\u2009\u200a"
    "\u2028\u2029\u202f\u205f\u3000"
)


class Source:
    """A text, its lines with their ends, and the offset before each character and at its end."""

    def __init__(self, given):
        self.text = given["text"]
        self.display_offset = given["offset"]
        ends = [found.end() for found in LINE_END.finditer(self.text)]
        if not ends or ends[-1] < len(self.text):
            ends.append(len(self.text))
        self.starts = [0, *ends[:-1]]
        self.lines = [self.text[start:end] for start, end in zip(self.starts, ends)]

    @cached_property
    def offsets(self):
        """The offsets of the characters and of the end, by what offsets count."""
        sizes = (len(character.encode()) for character in self.text)
        return {"Char": range(len(self.text) + 1), "Byte": list(accumulate(sizes, initial=0))}

    def in_characters(self, offset, index_type):
        """An offset in characters, or None where it lies inside a character or past the text."""
        offsets = self.offsets[index_type]
        place = bisect_left(offsets, offset)
        return place if place < len(offsets) and offsets[place] == offset else None

    def line_at(self, offset):
        """The line of an offset: the last one that starts at it or before it."""
        return bisect_right(self.starts, offset) - 1

    def number_of(self, line):
        """The number that is printed of a line."""
        return line + 1 + self.display_offset


def sources_of(report):
    """The sources that the cache of a report has, by their ids. The last one of an id counts."""
    return {given["id"]: Source(given) for given in report["sources"]}


# ---- columns

# A width of the library that the two properties don't tell which `columns_of` reads. It is not the only
# one, and Python's tables are of an older Unicode: of the 144,755 characters that Unicode 14 names 511
# have another width in the library. Among them are Indic vowel signs, Hangul jamo and hexagrams.
ODD_COLUMNS = {"\u17d8": 3}


@cache
def columns_of(character):
    """The columns of a character that is printed as it is. A control character has one."""
    if character in ODD_COLUMNS:
        return ODD_COLUMNS[character]
    if unicodedata.category(character) in ("Mn", "Me", "Cf"):
        return 0
    return 2 if unicodedata.east_asian_width(character) in "WF" else 1


def shown_columns(character, column, tab_width):
    """The columns of a character of a source row, at this column. A tab reaches to the next stop."""
    if character == "\t":
        return tab_width - column % tab_width
    return 1 if character in WHITE_SPACE else columns_of(character)


# ---- judging: which labels are drawn, and what they are in characters


@dataclass(frozen=True, eq=False)
class Drawn:
    """A label that is drawn: its span in characters, and the lines and places of both ends."""

    position: int  # in the report's list
    label: dict
    start: int
    end: int
    start_line: int
    start_place: int
    end_line: int
    end_place: int
    attach: int  # the place of its arrow, where it lies within a line

    @property
    def color(self):
        """The colour that the label asks for, or None."""
        return self.label.get("color")

    @property
    def has_message(self):
        """Whether it has rows of its own. One without a message colours its text, and is underlined."""
        return self.label["message"] is not None

    @property
    def is_within_line(self):
        """Whether it starts and ends on one line."""
        return self.start_line == self.end_line

    @property
    def length(self):
        """How many characters it covers."""
        return self.end - self.start


def drawn_of(position, label, source, start, end, attach):
    """The drawn label over the characters from start to end. An empty one has its start."""
    last = max(end - 1, start)
    start_line, end_line = source.line_at(start), source.line_at(last)
    line_start = source.starts[start_line]
    attached = {"Start": start, "Middle": (start + end) // 2, "End": last}[attach]
    return Drawn(
        position=position,
        label=label,
        start=start,
        end=end,
        start_line=start_line,
        start_place=start - line_start,
        end_line=end_line,
        end_place=last - source.starts[end_line],
        attach=attached - line_start,
    )


def judge(position, label, source, config):
    """The label as it is drawn, or the reason why it is left out."""
    if source is None:
        return "Unfetched"
    index_type = config["index_type"]
    size = source.offsets[index_type][-1]
    if label["start"] > size or label["end"] > size + 1:
        return "PastSource"
    start = source.in_characters(label["start"], index_type)
    end = source.in_characters(min(label["end"], size), index_type)
    if start is None or end is None:
        return "CutsCharacter"
    return drawn_of(position, label, source, start, end, config["label_attach"])


# ---- groups


def is_cut(before, after):
    """Whether a group ends between two labels: the source changes, or the end line falls."""
    return before.label["id"] != after.label["id"] or after.end_line < before.end_line


def groups_of(drawn):
    """The drawn labels by their order, cut into groups."""
    groups = []
    for label in sorted(drawn, key=lambda label: label.label["order"]):
        if not groups or is_cut(groups[-1][-1], label):
            groups.append([])
        groups[-1].append(label)
    return groups


# ---- what the labels of a group do in the gutter, and at each line

WITHIN, STARTS, ENDS = "within", "starts", "ends"


class LineLabel(NamedTuple):
    """What a label does at a line: it lies within it, starts there, or ends there."""

    label: Drawn
    side: str
    column: Optional[int]  # its gutter column, where it runs over lines
    place: int  # where its stroke leaves the line


def by_place(met):
    """The order of what meets a line: by place, then the later start."""
    return met.place, -met.label.start


def by_preference(label):
    """The order of labels that cover one character: by falling priority, then the shorter one."""
    return -label.label["priority"], label.length


def preferred_at(labels, offset, length):
    """The preferred label at each place of a line, whose first character has this offset. Of equal
    ones the first in the list is preferred. None stands where no label covers the place."""
    places = [None] * length
    for label in reversed(sorted(labels, key=by_preference)):
        start, end = max(label.start - offset, 0), min(label.end - offset, length)
        if start < end:
            places[start:end] = [label] * (end - start)
    return places


# ---- lines that are cut

SEEN, MARKED, UNSEEN = "seen", "marked", "unseen"
MARKS = {"Unicode": "…", "Ascii": "..."}


def runs_of(parts):
    """Parts joined to runs that neither meet nor overlap, in order. Each is a first place and one behind it."""
    runs = []
    for first, behind in sorted(parts):
        if runs and first <= runs[-1][1]:
            runs[-1][1] = max(behind, runs[-1][1])
        else:
            runs.append([first, behind])
    return runs


class Cut:
    """A text that takes more columns than it may: which of its places are seen, round what is met there."""

    def __init__(self, columns, limit, mark):
        self.columns = columns  # where each place of the whole text begins, and where it ends
        self.size = len(columns) - 1
        self.limit = limit
        self.mark = mark

    def goes_on(self, place):
        """Whether a place has no columns, and so goes on with a letter before it."""
        return place < self.size and self.columns[place] == self.columns[place + 1]

    def widened(self, parts, more):
        """Parts with so many more places on both sides, and with whole letters at their ends."""
        wide = []
        for first, behind in parts:
            first, behind = max(first - more, 0), behind + more
            while first > 0 and self.goes_on(first):
                first -= 1
            while self.goes_on(behind):
                behind += 1
            wide.append((first, behind))
        return runs_of(wide)

    def marked(self, runs):
        """The places of marks: right before each run, and right behind the last one."""
        places = [first - 1 for first, _ in runs if 0 < first <= self.size]
        return places + [runs[-1][1]] * (runs[-1][1] < self.size)

    def fits(self, parts, more):
        """Whether parts that are so much wider take no more columns than they may."""
        runs = self.widened(parts, more)
        seen = sum(self.columns[min(behind, self.size)] - self.columns[min(first, self.size)] for first, behind in runs)
        return seen + len(self.mark) * len(self.marked(runs)) <= self.limit

    def sights(self, spans, places):
        """What is seen of each place: round these spans, or these places if that doesn't fit."""
        needed = spans if self.fits(spans, 0) else places
        more = 0
        while more + 1 < self.size and self.fits(needed, more) and self.fits(needed, more + 1):
            more += 1
        runs = self.widened(needed, more)
        sights = [UNSEEN] * self.size
        for first, behind in runs:
            seen = range(self.size)[first:behind]
            sights[first:behind] = [SEEN] * len(seen)
        for place in self.marked(runs):
            sights[place] = MARKED
        return sights


class Layout:
    """A line of a group that shows something: what meets it, its text, and where its places are."""

    def __init__(self, margin, labels, offset, text, config):
        self.margin = margin  # what has the arrow head beside the source row, or None
        self.labels = labels  # what has rows below the source row, by rank
        self.offset = offset
        self.text = text
        self.shown = text.rstrip(WHITE_SPACE)
        self.config = config
        self.mark = MARKS[config["char_set"]]
        self.columns = [0]  # where each shown place of the whole line begins, and where they end
        for character in self.shown:
            column = self.columns[-1]
            self.columns.append(column + shown_columns(character, column, config["tab_width"]))

    @cached_property
    def sights(self):
        """What is seen of each shown place. A line is cut round its labels with a message, or round all of them
        where none has one; or to its beginning."""
        limit = self.config["width"]
        if not 0 < limit < self.columns[-1]:
            return [SEEN] * len(self.shown)
        labels = [*([self.margin] if self.margin else []), *self.labels]
        labels = [met for met in labels if met.label.has_message] or labels
        places = [(met.place, met.place + 1) for met in labels] or [(0, 1)]
        spans = [self.span_of(met) for met in labels] or [(0, 1)]
        return Cut(self.columns, limit, self.mark).sights(spans, places)

    def span_of(self, met):
        """The places of a label within the line, with that of its arrow; or that of another's stroke."""
        if met.side != WITHIN:
            return met.place, met.place + 1
        start, end = met.label.start - self.offset, met.label.end - self.offset
        return min(start, met.place), max(end, met.place + 1)

    def width(self, place):
        """The columns of a place. Past the shown text each has one."""
        if place >= len(self.shown):
            return 1
        whole = self.columns[place + 1] - self.columns[place]
        return {SEEN: whole, MARKED: len(self.mark), UNSEEN: 0}[self.sights[place]]

    @cached_property
    def arrow_length(self):
        """How many places the rows below the line have."""
        if any(met.side != WITHIN for met in self.labels):
            end = len(self.text)
        else:
            end = max((met.label.end - self.offset for met in self.labels), default=0)
        return end + (1 if self.config["compact"] else 2)

    def is_margin(self, met):
        """Whether this is what has the arrow head of the line."""
        margin = self.margin
        return margin is not None and met.side != WITHIN and met.column == margin.column

    @cached_property
    def verticals(self):
        """The ranks of the labels whose verticals stand at a place, in their order, by the place."""
        ranks = {}
        for rank, met in enumerate(self.labels):
            if met.label.has_message and not self.is_margin(met):
                ranks.setdefault(met.place, []).append(rank)
        return ranks

    def vertical_at(self, rank, place):
        """Whose vertical is seen at a place of the rows of a rank: the first from that rank on."""
        ranks = self.verticals.get(place, ())
        found = bisect_left(ranks, rank)
        return self.labels[ranks[found]] if found < len(ranks) else None

    @cached_property
    def underlines(self):
        """Whose underline is seen at each place."""
        within = [met.label for met in self.labels if met.side == WITHIN]
        return preferred_at(within, self.offset, self.arrow_length)

    @cached_property
    def underlined_rank(self):
        """The rank of the row that has the underlines: the first one with a message, or behind all ranks."""
        ranks = (rank for rank, met in enumerate(self.labels) if met.label.has_message)
        return next(ranks, len(self.labels))

    @cached_property
    def has_underlines_alone(self):
        """Whether the row below the line has underlines alone: no label has a message, and one holds something."""
        is_asked = self.config["lone_underlines"] and self.config["underlines"] and not self.config["compact"]
        labels = [met.label for met in self.labels]
        return is_asked and any(label.length for label in labels) and not any(label.has_message for label in labels)

    def underline_at(self, rank, place):
        """Whose underline is seen at a place of the alternate row of a rank."""
        is_there = self.config["underlines"] and rank == self.underlined_rank
        return self.underlines[place] if is_there else None


# ---- rows, in their order: by the part of the group, then the line or number, then the step

SOURCE, GAP, BARE, ALTERNATE, ARROW = "source", "gap", "bare", "alternate", "arrow"
HEADER, SPACER, BLANK, PIECE, TAIL = "header", "spacer", "blank", "piece", "tail"
HEADER_PART, SPACER_PART, LINES_PART, HELPS_PART, NOTES_PART, TAIL_PART = range(6)


class Row(NamedTuple):
    """The name of a row. A row stands before another where it is the lesser one."""

    part: int
    line: int  # or the number of a help or a note
    step: int
    name: str

    @property
    def rank(self):
        """The rank of the label that an alternate or arrow row belongs to. That of a row of underlines alone is
        behind all labels."""
        return (self.step - 1) // 2


def source_row(line):
    """The row with the text of a line."""
    return Row(LINES_PART, line, 0, SOURCE)


def alternate_row(line, rank):
    """The row with underlines and verticals above the arrow row of a rank."""
    return Row(LINES_PART, line, 2 * rank + 1, ALTERNATE)


def arrow_row(line, rank):
    """The row with the message of the label of a rank."""
    return Row(LINES_PART, line, 2 * rank + 2, ARROW)


class Group:
    """The labels of a group in order, over the lines of their source."""

    def __init__(self, labels, source, config):
        self.labels = labels
        self.source = source
        self.config = config
        start, end = min(label.start_line for label in labels), max(label.end_line for label in labels)
        self.first_line = max(start - config["context_lines"], 0)
        self.last_line = max(end, min(end + config["context_lines"], len(source.lines) - 1))
        over_lines = (label for label in labels if not label.is_within_line)
        self.over_lines = sorted(over_lines, key=lambda label: -label.length)
        self.gutter = [label for label in self.over_lines if label.has_message]
        self.layouts = self.layouts_by_line()

    # What meets each line

    def layouts_by_line(self):
        """The layouts of the lines that show something, by the line."""
        ends, within = {}, {}
        for column, label in enumerate(self.gutter):
            start = LineLabel(label, STARTS, column, label.start_place)
            end = LineLabel(label, ENDS, column, label.end_place)
            ends.setdefault(label.start_line, []).append(start)
            ends.setdefault(label.end_line, []).append(end)
        for label in self.labels:
            if label.is_within_line:
                met = LineLabel(label, WITHIN, None, label.attach)
                within.setdefault(label.start_line, []).append(met)
        lines = ends.keys() | within.keys()
        return {line: self.layout_of(line, ends.get(line, []), within.get(line, [])) for line in lines}

    def layout_of(self, line, ends, within):
        """The layout of a line, by the ends of labels over lines there, and the labels within it."""
        margin = min(ends, key=by_place, default=None)
        labels = [met for met in ends if met is not margin or met.side == ENDS] + within
        labels.sort(key=lambda met: (met.label.label["order"], *by_place(met)))
        return Layout(margin, labels, self.source.starts[line], self.source.lines[line], self.config)

    def layout_at(self, line):
        """The layout of a line. One that is shown near others meets nothing."""
        return self.layouts.get(line) or self.layout_of(line, [], [])

    @cached_property
    def met_lines(self):
        """The lines that show something, in order."""
        return sorted(self.layouts)

    def is_hidden(self, line):
        """Whether no line shows something that is at most as far away as lines are shown."""
        reach = self.config["context_lines"]
        found = bisect_left(self.met_lines, line - reach)
        return found == len(self.met_lines) or line + reach < self.met_lines[found]

    def is_crossed(self, line):
        """Whether the line's first character lies inside a label over lines."""
        offset = self.source.starts[line]
        return any(label.start <= offset < label.end for label in self.over_lines)

    # Its rows

    def rows(self, texts):
        """The rows of the group. The texts are the helps and the notes, by their part, as lists of
        lines, if it is the last group."""
        is_compact = self.config["compact"]
        rows = [Row(HEADER_PART, 0, 0, HEADER)]
        rows += [] if is_compact else [Row(SPACER_PART, 0, 0, SPACER)]
        for line in range(self.first_line, self.last_line + 1):
            rows += self.line_rows(line)
        for part, pieces in texts.items():
            for number, lines in enumerate(pieces):
                rows += [] if is_compact else [Row(part, number, 0, BLANK)]
                rows += [Row(part, number, piece + 1, PIECE) for piece in range(len(lines))]
        return rows + ([] if is_compact else [Row(TAIL_PART, 0, 0, TAIL)])

    def line_rows(self, line):
        """The rows of a line. Of hidden lines in turn the first one has a row, or none has."""
        if self.is_hidden(line):
            if line > self.first_line and self.is_hidden(line - 1):
                return []
            if self.is_crossed(line):
                return [Row(LINES_PART, line, 0, GAP)]
            return [] if self.config["compact"] else [Row(LINES_PART, line, 0, BARE)]
        layout, rows = self.layout_at(line), [source_row(line)]
        for rank, met in enumerate(layout.labels):
            if met.label.has_message:
                rows += [] if self.config["compact"] else [alternate_row(line, rank)]
                rows.append(arrow_row(line, rank))
        if layout.has_underlines_alone:
            rows.append(alternate_row(line, len(layout.labels)))
        return rows

    # The gutter

    def arrow_row_of(self, column, line, side):
        """The arrow row of an end of a gutter label at a line."""
        labels = self.layouts[line].labels
        ranks = (rank for rank, met in enumerate(labels) if (met.column, met.side) == (column, side))
        return arrow_row(line, next(ranks))

    def has_margin(self, column, line):
        """Whether a gutter label has the arrow head of a line."""
        margin = self.layouts[line].margin
        return margin is not None and margin.column == column

    @cached_property
    def bars(self):
        """Of each gutter column the rows between which its bar stands, and the row of its tee."""
        bars = []
        for column, label in enumerate(self.gutter):
            first, last = label.start_line, label.end_line
            top = source_row(first)
            if not self.has_margin(column, first):
                top = self.arrow_row_of(column, first, STARTS)
            tee = source_row(last) if self.has_margin(column, last) else None
            bars.append((top, self.arrow_row_of(column, last, ENDS), tee))
        return bars

    def has_bar(self, row, column):
        """Whether the bar of a gutter column stands in a row."""
        if column >= len(self.gutter):
            return False
        top, bottom, tee = self.bars[column]
        return top < row < bottom and row != tee


# ---- cells: which stroke is seen where. A cell is a text and its colour, or None.


class Strokes(NamedTuple):
    """The characters of a character set."""

    horizontal: str
    vertical: str
    crossing: str
    gap: str
    up_arrow: str
    right_arrow: str
    left_top: str
    left_bottom: str
    right_bottom: str
    middle_bottom: str
    left_bracket: str
    right_bracket: str
    left_tee: str
    underlined_vertical: str
    underline: str


STROKES = {"Unicode": Strokes(*"─│┼┆▲▶╭╰╯┴[]├┬─"), "Ascii": Strokes(*"-|+:^>,`'^[]||^")}
BLANK_CELL = (" ", None)


class Ink(NamedTuple):
    """What the first cell of a place or a gutter column shows, and what all others show."""

    first: tuple
    rest: tuple


BLANKS = Ink(BLANK_CELL, BLANK_CELL)


def ink_of(first, rest, label):
    """Both in the colour of a label, which blanks have too."""
    return Ink((first, label.color), (rest, label.color))


def cells_of(ink, columns):
    """The cells of a place or a gutter column with so many columns."""
    return [ink.first] + [ink.rest] * (columns - 1) if columns else []


class TextArea:
    """The rows of a line, to the right of the gutter."""

    def __init__(self, group, layout):
        self.group = group
        self.layout = layout
        self.config = group.config
        self.strokes = STROKES[group.config["char_set"]]

    def shown_cells(self):
        """The text of the source row, each character in the colour of the label it belongs to."""
        layout = self.layout
        margin = [layout.margin.label] if layout.margin else []
        labels = margin + self.group.over_lines + [met.label for met in layout.labels]
        painters = preferred_at(labels, layout.offset, len(layout.shown))
        for place, (character, painter) in enumerate(zip(layout.shown, painters)):
            color = painter.color if painter else UNIMPORTANT_COLOR
            if layout.sights[place] != SEEN:
                yield from [(layout.mark, color)] * (layout.sights[place] == MARKED)
            elif character == "\t":
                yield from [(" ", color)] * layout.width(place)
            else:
                yield " " if character in WHITE_SPACE else character, color

    def alternate_ink(self, rank, place):
        """A place of the alternate row of a rank."""
        strokes = self.strokes
        vertical = self.layout.vertical_at(rank, place)
        underline = self.layout.underline_at(rank, place)
        if vertical and underline:
            return ink_of(strokes.underlined_vertical, strokes.underline, vertical.label)
        if vertical:
            is_arrow = vertical.side != WITHIN and rank == 0 and self.config["multiline_arrows"]
            return ink_of(strokes.up_arrow if is_arrow else strokes.vertical, " ", vertical.label)
        if underline:
            return ink_of(strokes.underline, strokes.underline, underline)
        return BLANKS

    def arrow_ink(self, rank, place):
        """A place of the arrow row of a rank."""
        strokes, own = self.strokes, self.layout.labels[rank]
        if place == own.place and not self.layout.is_margin(own):
            corners = {
                WITHIN: strokes.left_bottom,
                ENDS: strokes.middle_bottom,
                STARTS: strokes.right_bottom,
            }
            return ink_of(corners[own.side], strokes.horizontal, own.label)
        is_crossed = {WITHIN: own.place < place, ENDS: True, STARTS: place <= own.place}[own.side]
        vertical = self.layout.vertical_at(rank, place)
        if is_crossed and vertical and not self.config["cross_gap"]:
            return ink_of(strokes.crossing, " ", own.label)
        if is_crossed:
            return ink_of(strokes.horizontal, strokes.horizontal, own.label)
        if vertical:
            is_arrow = vertical.side != WITHIN and rank == 0 and self.config["compact"]
            stroke = strokes.up_arrow if is_arrow else strokes.vertical
            return Ink((stroke, vertical.label.color), (" ", own.label.color))
        return BLANKS

    def cells(self, row):
        """The places of an alternate or arrow row."""
        ink = self.alternate_ink if row.name == ALTERNATE else self.arrow_ink
        for place in range(self.layout.arrow_length):
            yield from cells_of(ink(row.rank, place), self.layout.width(place))


class Gutter:
    """The columns between a row's margin and its text: one for each gutter label, and one for arrow
    heads."""

    def __init__(self, group):
        self.group = group
        self.strokes = STROKES[group.config["char_set"]]
        self.is_crossing = not group.config["cross_gap"]

    def cells(self, row):
        """The gutter of a row."""
        labels = len(self.group.gutter)
        size = 1 if self.group.config["compact"] else 2
        for column in range(labels + 1 if labels else 0):
            yield from cells_of(self.ink(row, column), size)

    def ink(self, row, column):
        """A column of a row."""
        if row.name in (SOURCE, GAP):
            return self.bar_ink(row, column) or self.margin_ink(row, column)
        if row.name == ALTERNATE:
            return self.bar_ink(row, column) or BLANKS
        if row.name == ARROW:
            return self.turn_ink(row, column) or self.bar_ink(row, column) or BLANKS
        return BLANKS

    def bar_ink(self, row, column):
        """The bar of a column, if it stands in the row. Only this stroke leaves the rest plain."""
        if not self.group.has_bar(row, column):
            return None
        bar = self.strokes.gap if row.name == GAP else self.strokes.vertical
        return Ink((bar, self.group.gutter[column].color), BLANK_CELL)

    def margin_ink(self, row, column):
        """A column beside a source row, where no bar is: the stroke to the arrow head."""
        layout, strokes = self.group.layouts.get(row.line), self.strokes
        margin = layout.margin if layout else None
        if margin is None or column < margin.column:
            return BLANKS
        if column == len(self.group.gutter):
            return ink_of(strokes.right_arrow, " ", margin.label)
        if column > margin.column:
            return ink_of(strokes.horizontal, strokes.horizontal, margin.label)
        corner = strokes.left_top if margin.side == STARTS else strokes.left_tee
        return ink_of(corner, strokes.horizontal, margin.label)

    def turn_ink(self, row, column):
        """A column of the arrow row of a label over lines: its corner, and the stroke to its text."""
        own, strokes = self.group.layouts[row.line].labels[row.rank], self.strokes
        if own.side == WITHIN or column < own.column:
            return None
        if column == own.column:
            corner = strokes.left_top if own.side == STARTS else strokes.left_bottom
            return ink_of(corner, strokes.horizontal, own.label)
        is_crossing = self.is_crossing and self.group.has_bar(row, column)
        first = strokes.crossing if is_crossing else strokes.horizontal
        return ink_of(first, strokes.horizontal, own.label)


# ---- the whole picture

MARGIN_COLOR, SKIPPED_COLOR = "Fixed 246", "Fixed 240"
UNIMPORTANT_COLOR, NOTE_COLOR = "Fixed 249", "Fixed 115"
KIND_COLORS = {"Error": "Red", "Warning": "Yellow", "Advice": "Fixed 147"}


def lines_of(text):
    """The lines of a help or a note. LF and CR LF end one, and no further one is behind the last."""
    lines = [line.removesuffix("\r") for line in text.split("\n")[:-1]]
    rest = text.split("\n")[-1]
    return lines + [rest] if rest else lines


class Model:
    """What is reckoned of a report: which labels are left out, the groups, and the picture."""

    def __init__(self, report):
        self.report = report
        self.config = report["config"]
        self.strokes = STROKES[self.config["char_set"]]
        self.sources = sources_of(report)
        self.drawn, self.left_out = [], []
        for position, label in enumerate(report["labels"]):
            judged = judge(position, label, self.sources.get(label["id"]), self.config)
            if isinstance(judged, Drawn):
                self.drawn.append(judged)
            else:
                self.left_out.append([position, judged])
        self.groups = [
            Group(labels, self.sources[labels[0].label["id"]], self.config)
            for labels in groups_of(self.drawn)
        ]
        numbers = (group.source.number_of(group.last_line) for group in self.groups)
        self.number_width = len(str(max(numbers, default=0)))
        self.texts = {
            part: [lines_of(text) for text in report.get(name) or ()]
            for part, name in ((HELPS_PART, "helps"), (NOTES_PART, "notes"))
        }

    # Its rows, as lists of cells

    def rows(self):
        """The rows of the picture, from top to bottom."""
        yield self.header()
        for number, group in enumerate(self.groups):
            is_last = number == len(self.groups) - 1
            for row in group.rows(self.texts if is_last else {}):
                if row.name == HEADER:
                    yield self.group_header(group, number == 0)
                elif row.name in (SPACER, TAIL):
                    yield self.frame(is_last and row.name == TAIL)
                else:
                    yield self.line_row(group, row)

    def header(self):
        """The first row: the kind, behind its code of at least two characters, and the message."""
        report, code = self.report, ""
        if report.get("code") is not None:
            code = f"[{report['code']:2}] "
        elif report.get("number") is not None:
            code = f"[{report['number']:02}] "
        color = report.get("kind_color") or KIND_COLORS[report["kind"]]
        return [(f"{code}{report['kind']}:", color), (f" {report.get('message') or ''}", None)]

    def frame(self, is_last):
        """The last row of a picture, or one between the parts of it."""
        strokes, width = self.strokes, self.number_width + 2
        if is_last:
            return [(strokes.horizontal * width + strokes.right_bottom, MARGIN_COLOR)]
        return [(" " * width, None), (strokes.vertical, MARGIN_COLOR)]

    def line_row(self, group, row):
        """A row of a line, a help or a note: its margin, its gutter, and what stands behind."""
        margin = self.margin(group, row)
        if row.name == BARE:
            return margin
        return chain(margin, Gutter(group).cells(row), self.behind_gutter(group, row))

    def group_header(self, group, is_first):
        """The row that names a group's source, and where in it the report is."""
        strokes = self.strokes
        corner = strokes.left_top if is_first else strokes.left_tee
        return [
            (" " * (self.number_width + 2), None),
            *((stroke, MARGIN_COLOR) for stroke in (corner, strokes.horizontal, strokes.left_bracket)),
            (f" {self.name_of(group)}:{self.location_of(group)} ", None),
            (strokes.right_bracket, MARGIN_COLOR),
        ]

    def name_of(self, group):
        """What the source of a group is called. One of a single source has no name."""
        source_id = group.labels[0].label["id"]
        is_hidden = source_id is None or source_id in (self.report.get("hidden") or ())
        return "<unknown>" if is_hidden else source_id

    def location_of(self, group):
        """The line and the column of the report's own start, if it is in the group's source, else of
        the group's first label."""
        source_id, start, _ = self.report["span"]
        source = group.source
        if source_id == group.labels[0].label["id"]:
            offset = source.in_characters(start, self.config["index_type"])
        else:
            offset = group.labels[0].start
        if offset is None:
            return "?:?"
        line = source.line_at(offset)
        return f"{source.number_of(line)}:{offset - source.starts[line] + 1}"

    def margin(self, group, row):
        """The margin of a row of a line: its number, or blanks, and a bar."""
        number = group.source.number_of(row.line) if row.name == SOURCE else ""
        bar = self.strokes.gap if row.name == GAP else self.strokes.vertical
        text = f"{number:>{self.number_width}} {bar}"
        color = MARGIN_COLOR if row.name == SOURCE else SKIPPED_COLOR
        return [BLANK_CELL, (text, color)] + ([] if self.config["compact"] else [BLANK_CELL])

    def behind_gutter(self, group, row):
        """What a row has to the right of its gutter."""
        if row.name == PIECE:
            return self.aside(row)
        if row.name not in (SOURCE, ALTERNATE, ARROW):
            return []
        layout = group.layout_at(row.line)
        area = TextArea(group, layout)
        if row.name == SOURCE:
            return area.shown_cells()
        own = layout.labels[row.rank] if row.name == ARROW else None
        has_text = own is not None and own.side != STARTS
        message = [BLANK_CELL, (own.label.label["message"], None)] if has_text else []
        return chain(area.cells(row), message)

    def aside(self, row):
        """A line of a help or a note: the first one behind its word, the others below it."""
        word, texts = {HELPS_PART: "Help", NOTES_PART: "Note"}[row.part], self.texts[row.part]
        prefix = word if len(texts) == 1 else f"{word} {row.line + 1}"
        line = texts[row.line][row.step - 1]
        if row.step == 1:
            return [(prefix, NOTE_COLOR), (f": {line}", None)]
        return [(" " * (len(prefix) + 2) + line, None)]

    # What is sent

    def picture(self, has_color=None):
        """The picture as it is sent: in colours where the report asks for them, if not told."""
        if has_color is None:
            has_color = self.config["color"]
        printed = painted if has_color else joined
        return "".join(printed(cells) + "\n" for cells in self.rows())


def answer_of(report):
    """What the program has to answer to a report."""
    model = Model(report)
    return {"picture": model.picture(), "left_out": model.left_out}


# ---- colours, as they are sent

BASIC_COLORS = ("Black", "Red", "Green", "Yellow", "Blue", "Magenta", "Cyan", "White")
PARAMETERS = {
    "Primary": "39",
    **{name: str(30 + number) for number, name in enumerate(BASIC_COLORS)},
    **{f"Bright{name}": str(90 + number) for number, name in enumerate(BASIC_COLORS)},
}
NAMED_COLORS = tuple(PARAMETERS)


@cache
def parameters_of(color):
    """The numbers of an escape that sets a colour: `Red`, `Fixed 7` or `Rgb 1 2 3`."""
    if color in PARAMETERS:
        return PARAMETERS[color]
    form, *numbers = color.split(" ")
    return ";".join(["38", {"Fixed": "5", "Rgb": "2"}[form], *numbers])


def joined(cells):
    """The cells of a row without colours."""
    return "".join(text for text, _ in cells)


def painted(cells):
    """The cells of a row, each between the escapes of its own colour."""
    return "".join(
        text if color is None else f"\x1b[{parameters_of(color)}m{text}\x1b[0m" for text, color in cells
    )
