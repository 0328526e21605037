"""A model of `ariadne_edits`: which edits are refused, and the help that shows those which are made."""

from dataclasses import dataclass
from itertools import accumulate, groupby

from attacks import is_hidden, sign
from report_model import WHITE_SPACE, Source, columns_of

# What stands for white space that has no sign of its own, where white space is shown by signs.
BLANK, OTHER_BLANK = "\u00b7", "\u2423"
SEPARATORS = "\n\r\x0b\x0c\x85\u2028\u2029"
CLOSING = set(SEPARATORS) - {"\r"}  # those that LF behind them can't join
LAST_NUMBER = 2**64 - 1


@dataclass(frozen=True)
class Edit:
    """What stands in place of a piece of a text. Offsets count characters or bytes."""

    start: int
    end: int
    text: str


@dataclass(frozen=True)
class View:
    """How lines are shown: the columns from one tab stop to the next, the columns that a line may take, 0 for any, and
    the mark in place of what is left out then."""

    tab_width: int
    width: int
    mark: str

    @staticmethod
    def of(config):
        """That of a report with these settings."""
        return View(config["tab_width"], config["width"], "..." if config["char_set"] == "Ascii" else "\u2026")

    @property
    def most(self):
        """The columns that a line may take, where it may not take any."""
        return max(self.width, 2 * len(self.mark))


@dataclass(frozen=True)
class Row:
    """A line that is removed (`-`) or added (`+`), whether its white space is shown by signs, and the line at its
    place among those that are added or removed there; an empty one where there is none."""

    sign: str
    number: int
    line: str
    is_marked: bool
    counterpart: str


def in_order(edits):
    """The edits with their numbers, by their spans."""
    return sorted(enumerate(edits), key=lambda it: (it[1].start, it[1].end, it[0]))


def refusal(text, is_bytes, edits):
    """Why edits are refused, as the library's error is printed, or None."""
    size = len(text.encode() if is_bytes else text)
    whole = {0, *accumulate(len(it.encode()) for it in text)}
    ordered = in_order(edits)
    ends = [0, *(it.end for _, it in ordered)]
    reasons = (
        ("Reversed", [number for number, it in ordered if it.end < it.start]),
        ("Overlaps", [number for (number, it), end in zip(ordered, ends) if it.start < end]),
        ("PastSource", [number for number, it in ordered if it.end > size]),
        ("CutsCharacter", [number for number, it in ordered if is_bytes and not {it.start, it.end} <= whole]),
    )
    return next((f"{reason}({numbers[0]})" for reason, numbers in reasons if numbers), None)


def in_bytes(text, is_bytes, edits):
    """Edits that are made, in order, each as its bytes."""
    places = range(LAST_NUMBER) if is_bytes else [0, *accumulate(len(it.encode()) for it in text)]
    return [(places[it.start], places[it.end], it.text.encode()) for _, it in in_order(edits)]


def edited(old, changes):
    """The bytes that changes make of others."""
    out, at = b"", 0
    for start, end, new in changes:
        out, at = out + old[at:start] + new, end
    return out + old[at:]


def common(one, other):
    """How many bytes two texts have in common in front."""
    return next((at for at, (a, b) in enumerate(zip(one, other)) if a != b), min(len(one), len(other)))


def trimmed(old, change):
    """A change without what it has in common with what it replaces."""
    start, end, new = change
    front = common(old[start:end], new)
    back = common(old[start + front : end][::-1], new[front:][::-1])
    return start + front, end - back, new[front : len(new) - back]


def stays(old, changes):
    """The pieces that changes leave: where each begins and ends, and where it begins in the edited text."""
    start = to = 0
    for change in changes:
        end, behind, new = trimmed(old, change)
        yield start, end, to
        start, to = behind, to + end - start + len(new)
    yield start, len(old), to


def begins_of(lines):
    """The byte at which each line begins, and the end."""
    return [0, *accumulate(len(line.encode()) for line in lines)]


def is_same(olds, i, news, j):
    """Whether a line is kept as another: it is the same, or the last one lacks its terminator alone."""
    last = i + 1 == len(olds) and j + 1 < len(news) and news[j].startswith(olds[i])
    first = j + 1 == len(news) and i + 1 < len(olds) and olds[i].startswith(news[j])
    rest = news[j][len(olds[i]) :] if last else olds[i][len(news[j]) :] if first else "x"
    return olds[i] == news[j] or all(it in SEPARATORS for it in rest)


def kept(olds, news, pieces):
    """The pairs of lines that are kept, of those that begin at the same byte of a piece that stays."""
    begins = {begin: j for j, begin in enumerate(begins_of(news)[:-1])}
    i = j = 0
    for line, begin in enumerate(begins_of(olds)[:-1]):
        for start, end, to in pieces:
            at = begins.get(to + begin - start) if start <= begin <= end else None
            if at is not None and line >= i and at >= j and is_same(olds, line, news, at):
                yield line, at
                i, j = line + 1, at + 1


def seen(line):
    """What is seen of a line: its characters but for white space."""
    return [it for it in line if it not in WHITE_SPACE]


def run_of(olds, i, news, j):
    """The rows of lines that change, which are numbered from these on."""
    twins = [seen(old) == seen(new) for old, new in zip(olds, news)] + [False] * max(len(olds), len(news))
    for sign_of_row, first, lines, others in ("-", i, olds, news), ("+", j, news, olds):
        for at, line in enumerate(lines):
            yield Row(sign_of_row, first + at, line, twins[at], others[at] if at < len(others) else "")


def rows_of(olds, news, pieces):
    """Each row that is drawn, and None where lines are kept."""
    i = j = 0
    for before, after in [*kept(olds, news, pieces), (len(olds), len(news))]:
        yield from run_of(olds[i:before], i, news[j:after], j)
        yield None
        i, j = before + 1, after + 1


def spread(line, tab_width):
    """A line without what ends it, with blanks for its tabs, and signs for what is hidden."""
    shown, column = "", 0
    for it in line:
        if it == "\t":
            blanks = tab_width - column % tab_width
            shown, column = shown + " " * blanks, column + blanks
        elif it not in SEPARATORS:
            it = sign(it) if is_hidden(it) else it
            shown, column = shown + it, column + columns_of(it)
    return shown


def mark(it):
    """What stands for a character where white space is shown by signs."""
    if is_hidden(it):
        return sign(it)
    return BLANK if it == " " else OTHER_BLANK if it in WHITE_SPACE else it


def body_of(row, line, tab_width):
    """What a row shows of a line that is shown whole."""
    return "".join(map(mark, line)) if row.is_marked else spread(line, tab_width)


def columns(text):
    """The columns of a text."""
    return sum(map(columns_of, text))


def cut_in_front(text, most, cut):
    """A text in so many columns: if it takes more, the mark and the most of its last characters, from one on that
    takes columns."""
    if columns(text) <= most:
        return text
    fitting = (text[at:] for at in range(len(text)) if columns_of(text[at]) and columns(text[at:]) <= most - len(cut))
    return cut + next(fitting, "")


def cut_behind(text, most, cut):
    """A text in so many columns: if it takes more, the most of its first characters, and the mark."""
    if columns(text) <= most:
        return text
    return max((text[:at] for at in range(len(text) + 1) if columns(text[:at]) <= most - len(cut)), key=len) + cut


def fitted(text, other, view):
    """What is shown of a line with a counterpart: if one of them takes too many columns, half of them at the most
    for what both have in common in front, and the rest for what differs."""
    if not view.width or max(columns(text), columns(other)) <= view.most:
        return text
    at = common(text, other)
    front = cut_in_front(text[:at], view.most // 2, view.mark)
    return front + cut_behind(text[at:], view.most - columns(front), view.mark)


def drawn(rows, offset, view):
    """The text of rows. Where lines are kept between two of them, `...` stands for these."""
    numbers = [min(offset + row.number + 1, LAST_NUMBER) for row in rows if row]
    width = max(map(len, map(str, numbers)), default=1)
    lines = []
    for is_drawn, group in groupby(rows, bool):
        if not is_drawn:
            lines.append("...".rjust(width))
        for row in group if is_drawn else ():
            number = str(min(offset + row.number + 1, LAST_NUMBER)).rjust(width)
            text, other = (body_of(row, line, view.tab_width) for line in (row.line, row.counterpart))
            lines.append(f"{number} {row.sign} {fitted(text, other, view)}")
    first = 1 if rows and rows[0] is None else 0
    return "\n".join(lines[first:-1])


def in_characters(old, change):
    """Where a trimmed change of a text begins and ends there, to whole characters."""
    start, end, _ = change
    whole = [at for at in range(len(old) + 1) if at == len(old) or old[at] & 0xC0 != 0x80]
    return max(at for at in whole if at <= start), min(at for at in whole if at >= end)


def untouched(olds, changes):
    """The numbers of the lines that no change meets, nor their borders, by where changes begin and end. A change
    may begin right behind a line that ends in another terminator than CR."""
    begins = begins_of(olds)
    ends = [end + 1 - (line[-1:] in CLOSING) for end, line in zip(begins[1:], olds)]
    return {
        line
        for line, (begin, end) in enumerate(zip(begins, ends))
        if all(behind < begin or end <= start for start, behind in changes)
    }


def help_of(source, is_bytes, view, edits):
    """The help that shows edits of a source, or why they are refused.

    The rows are right by themselves, however they were found: the source's lines without the removed ones
    and with the added ones are those of the edited text, and no line that is untouched is removed.
    """
    text = source["text"]
    refused = refusal(text, is_bytes, edits)
    if refused:
        return refused
    old, changes = text.encode(), in_bytes(text, is_bytes, edits)
    after = edited(old, changes).decode()
    olds, news = Source(source).lines, Source({"text": after, "offset": 0}).lines
    rows = list(rows_of(olds, news, list(stays(old, changes))))
    removed = {row.number for row in rows if row and row.sign == "-"}
    added = {row.number for row in rows if row and row.sign == "+"}
    left = [line.rstrip(SEPARATORS) for at, line in enumerate(olds) if at not in removed]
    assert left == [line.rstrip(SEPARATORS) for at, line in enumerate(news) if at not in added]
    assert not removed & untouched(olds, [in_characters(old, trimmed(old, it)) for it in changes])
    return drawn(rows, source["offset"], view)
