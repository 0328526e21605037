"""Tells a text again in ariadne-show's own form, for the self-test of try-show: what it draws of that is right
by the items of marks.py, or wrong in one way that the judge has to refuse. The program draws its own form
without reading what tools print, so that this tells of the judge alone.
"""

import json
from copy import deepcopy

from judging import LIKE, headers_of, parts_of
from marks import Diagnostic, Line, Piece


def label_of(piece, text, is_primary=False):
    """A label of the program's own form."""
    label = {"file": piece.path, "start": [it for it in piece[1:3] if it], "text": text, "primary": is_primary}
    return label | ({"end": list(piece[3:5])} if piece.end_line else {})


def labels_of(told):
    """The labels of a diagnostic: one at its place, those of its pieces, and those of its notes."""
    if told.column and told.pieces[0].end_line:
        yield label_of(Piece(told.path, told.line, told.column, told.line, told.column + 1), "", True)
    for part in parts_of(told):
        for number, piece in enumerate(part.pieces):
            own = "" if part is told or number else part.message.strip()
            yield label_of(piece, piece.label or own, part is told)


def reason_of(part, told):
    """What stands in front of what is to be put: what a note says."""
    return "" if part is told else f"{part.message.strip()}: "


def report_of(told):
    """A diagnostic as a line in the program's own form."""
    kind = (told.kind or "error").lower()
    parts = list(parts_of(told))
    report = {
        "kind": LIKE.get(kind, kind).lower(),
        "code": told.code,
        "message": told.message,
        "columns": "chars",
        "labels": list(labels_of(told)),
        "notes": told.details + [it.message for it in parts[1:] if not it.path or any(at.label for at in it.pieces)],
        "helps": [f"{reason_of(part, told)}put {put}" for part in parts for put in part.puts],
    }
    return json.dumps({name: value for name, value in report.items() if value is not None})


def told_again(items, rows):
    """The rows of a text in which each diagnostic is a report."""
    for item in items:
        if isinstance(item, Diagnostic):
            yield report_of(item) if item.path else next(headers_of(item))
        elif item.role not in ("own", "again"):
            yield rows[item.first - 1]


# ---- what is wrong with one diagnostic


def moved(piece, by):
    """A piece that begins a column further on, and ends so."""
    return piece._replace(column=piece.column + by, end_column=piece.end_column and piece.end_column + by)


def move_column(told, _):
    by = -1 if told.column and told.column > 1 else 1
    told.pieces = [moved(piece, by) if piece.column else piece._replace(line=piece.line - 1) for piece in told.pieces]
    told.line, told.column = (told.line, told.column + by) if told.column else (told.line - 1, None)


def cut_range(told, _):
    """Cuts the last column of the first piece, where that is neither the place nor another piece's."""
    piece = told.pieces[0]
    others = [it for part in parts_of(told) for it in part.pieces if it is not piece]
    is_long = piece.end_line == piece.line and piece.end_column > max(piece.column, told.column) + 1
    if is_long and not any(may_have_end(it, piece) for it in others):
        told.pieces[0] = piece._replace(end_column=piece.end_column - 1)


def may_have_end(piece, other):
    """Whether a piece may have the last column of another one."""
    is_there = piece.path == other.path and piece.line <= other.line <= (piece.end_line or piece.line)
    return is_there and (piece.end_line != piece.line or piece.column < other.end_column <= piece.end_column)


def change_message(told, _):
    told.message += "."


def change_kind(told, _):
    told.kind = told.kind and ("warning" if told.kind == "error" else "error")


def drop_code(told, _):
    told.code = None


def drop_note(told, _):
    """Drops the last note, where it says what nothing else says."""
    messages = [part.message for part in parts_of(told)]
    if told.notes and messages.count(told.notes[-1].message) == 1:
        told.notes.pop()


def drop_front(told, _):
    told.fronts = told.fronts[1:]


def drop_put(told, _):
    """Drops what is to be put first, where nothing else says it."""
    parts = list(parts_of(told))
    said = [text for part in parts for text in (part.message, *part.puts)][1:]
    said += [piece.label or "" for part in parts for piece in part.pieces]
    if told.puts and sum(told.puts[0] in text for text in said) == 1:
        del told.puts[0]


def take_put(told, _):
    """Tells what notes say is to be put as what the diagnostic does."""
    for note in told.notes:
        told.puts, note.puts = told.puts + note.puts, []


def drop_detail(told, _):
    told.details = told.details[:-1]


def drop_label(told, _):
    told.pieces = [piece._replace(label=None) for piece in told.pieces]


def hand_note_on(told, following):
    """Hands the last note on to the diagnostic behind it, if that has no such one."""
    if following and told.notes and told.notes[-1].message not in [part.message for part in parts_of(following)]:
        following.notes.append(told.notes.pop())


CHANGES = (
    move_column, cut_range, change_message, change_kind, drop_code, drop_note, drop_front, drop_put, take_put,
    drop_detail, drop_label, hand_note_on,
)  # fmt: skip


def changed(items, change):
    """Items that are each wrong in one way, and the first lines of those that are."""
    wrong = deepcopy(items)
    told = [item for item in wrong if isinstance(item, Diagnostic) and item.path]
    for item, following in zip(told, [*told[1:], None]):
        change(item, following)
    before = {item.first: item for item in items if isinstance(item, Diagnostic)}
    return wrong, [item.first for item in told if report_of(item) != report_of(before[item.first])]


# ---- what is wrong with an output


def without(items, left_out):
    return [item for item in items if item is not left_out]


def with_behind(items, place, more):
    """Items with another one behind one of them."""
    return [it for item in items for it in ([item, more] if item is place else [item])]


def in_place_of(items, left_out, other):
    return [other if item is left_out else item for item in items]


def wrong_items(items):
    """Items that are wrong in one way, by a name of it."""
    passing = [item for item in items if isinstance(item, Line) and item.role == "pass"]
    told = [item for item in items if isinstance(item, Diagnostic) and item.path]
    for line in passing[-1:]:
        yield "a lost line", without(items, line)
        yield "a line twice", with_behind(items, line, line)
        if line is not items[0]:
            yield "a line that goes first", [line, *without(items, line)]
    for last in told[-1:]:
        yield "a lost diagnostic", without(items, last)
        yield "a diagnostic twice", with_behind(items, last, last)
        yield "a row of a snippet", with_behind(items, last, Line(min(last.first + 1, last.last), "pass"))
        yield "a diagnostic as a row", in_place_of(items, last, Line(last.first, "pass"))
    for role in ("own", "again"):
        for line in [item for item in items if isinstance(item, Line) and item.role == role][:1]:
            yield f"a line that is {role}", in_place_of(items, line, Line(line.first, "pass"))


def wrong_outputs(items, rows):
    """Rows of a text that are wrong in one way, by a name of it."""
    yield from ((way, told_again(wrong, rows)) for way, wrong in wrong_items(items))
    for line in [item for item in items if isinstance(item, Line) and item.role == "pass"][:1]:
        changed_rows = [f"{row} " if at == line.first - 1 else row for at, row in enumerate(rows)]
        yield "a changed line", told_again(items, changed_rows)
