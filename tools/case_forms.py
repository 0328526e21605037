"""The form of a case: which members it has, of which form each is, and which of them go together. The
page docs/dev/CASES.md says the same. `check_case(case)` refuses one that is not so."""

import re
from dataclasses import dataclass
from typing import Callable

import settings
from cases import LARGEST, LAST_OFFSET, given_sources
from report_model import Source

SIZES = range(LAST_OFFSET + 1)
PIECE = re.compile("([0-9]+)[.][.](=?)([0-9]+)")
NUMBERED_COLOR = re.compile("Fixed ([0-9]+)|Rgb ([0-9]+) ([0-9]+) ([0-9]+)")
HUES = ("Black", "Red", "Green", "Yellow", "Blue", "Magenta", "Cyan", "White")
NAMED_COLORS = {"Primary", *HUES, *(f"Bright{hue}" for hue in HUES)}
KINDS = ("Error", "Warning", "Advice")
# The cache that reads the texts of its sources from files.
FILES = "FileCache"


class Mistake(Exception):
    """What is wrong with a case: of a word or a member of it, or of a line of its file."""

    def __init__(self, wrong, word=None, line=None):
        super().__init__(wrong if word is None else f"'{word}' is {wrong}")
        self.line = line


@dataclass(frozen=True)
class Form:
    """What a member has to be, and what is told of one that isn't."""

    fits: Callable
    wrong: str


def is_text(value):
    return isinstance(value, str)


def is_count(value):
    """Whether a value is a number from 0 on. One that is past TOML's is a text of its digits."""
    if is_text(value):
        return re.fullmatch("[0-9]+", value) is not None and int(value) in SIZES
    return type(value) is int and 0 <= value <= LARGEST


def is_color(value):
    if not is_text(value):
        return False
    numbered = NUMBERED_COLOR.fullmatch(value)
    numbers = filter(None, numbered.groups()) if numbered else ()
    return value in NAMED_COLORS or bool(numbered) and all(int(number) < 256 for number in numbers)


def is_piece(value):
    found = PIECE.fullmatch(value) if is_text(value) else None
    return bool(found) and int(found[1]) <= int(found[3]) <= LAST_OFFSET


def is_left_out(value):
    """Whether a value is a label that is left out, with its reason."""
    is_pair = isinstance(value, list) and len(value) == 2
    return is_pair and is_count(value[0]) and not is_text(value[0]) and is_text(value[1])


def words(*known):
    """One of these words."""
    told = f"{', '.join(known[:-1])} or {known[-1]}"
    return Form(lambda value: value in known, f"not {told}")


def list_of(fits, wrong):
    return Form(lambda value: isinstance(value, list) and all(map(fits, value)), f"not a list {wrong}")


TEXT = Form(is_text, "not a text")
SWITCH = Form(lambda value: isinstance(value, bool), "neither true nor false")
COUNT = Form(is_count, "not a number from 0 on")
WIDTH = Form(lambda value: is_count(value) and int(value) > 0, "not a number from 1 on")
NUMBER = Form(
    lambda value: type(value) is int and -(2**31) <= value < 2**31, "not a number from -2^31 to 2^31 - 1"
)
COLOR = Form(is_color, "not a colour")
WHERE = Form(is_piece, "not a piece of a source, as 0..5 or 0..=4, with its start at most its end")
CACHE = Form(lambda value: value in (FILES, "no memory"), "not a cache of sources with ids")
TABLE = Form(lambda value: isinstance(value, dict), "not a table")
TEXTS = list_of(is_text, "of texts")
TABLES = list_of(TABLE.fits, "of tables")

CASE = {
    "name": TEXT,
    "kind": TEXT,
    "kind_color": COLOR,
    "number": COUNT,
    "code": TEXT,
    "message": TEXT,
    "id": TEXT,
    "at": WHERE,
    "source": TEXT,
    "line_offset": COUNT,
    "sources": TABLES,
    "missing": TEXTS,
    "hidden": TEXT,
    "cache": CACHE,
    "labels": TABLES,
    "helps": TEXTS,
    "edits": TABLES,
    "notes": TEXTS,
    "painted": list_of(is_color, "of colours"),
    "settings": TABLE,
    "safe": words("All", "LineFeeds"),
    "takes": COUNT,
    "worked": TEXT,
    "left_out": list_of(is_left_out, 'as [[1, "PastSource"]]'),
    "fails": words("Io", "Memory"),
    "picture": TEXT,
}


def form_of(setting):
    """The form of a setting of `Config`."""
    if setting.values:
        return words(*setting.values)
    return {0: COUNT, 1: WIDTH}[setting.least] if setting.is_number else SWITCH


SETTINGS = {it.name: form_of(it) for it in settings.SETTINGS}
EDIT = {"at": TEXT, "text": TEXT}
SOURCE = {"id": TEXT, "text": TEXT, "line_offset": COUNT}
LABEL = {"at": WHERE, "id": TEXT, "message": TEXT, "color": COLOR, "order": NUMBER, "priority": NUMBER}
# Members that don't stand together: one, another, and what the first is beside that.
CLASHES = (
    *((member, "source", "no member beside 'source'") for member in ("sources", "missing", "hidden", "id", "cache")),
    ("line_offset", "sources", "a member of each of the 'sources'"),
    ("cache", "hidden", "no member beside 'hidden'"),
    *((member, "safe", "no member beside 'safe'") for member in ("cache", "takes", "number", "painted")),
)
# Members of a source that this cache doesn't read.
UNREAD = {
    "text": "no member beside a FileCache, which reads files",
    "line_offset": "no member beside a FileCache, which counts from 1",
}


def check(told, forms):
    """Refuses a table that has a member of another name or of another form than these."""
    for name, value in told.items():
        if name not in forms:
            raise Mistake("an unknown member", name)
        if not forms[name].fits(value):
            raise Mistake(forms[name].wrong, value if is_text(value) else name)


def check_has(told, name):
    """Refuses a table that lacks a member."""
    if name not in told:
        raise Mistake("missing", name)


def check_source(source, cache):
    """Refuses a source that has an odd member, or lacks its id, or its text where that is in no file."""
    check(source, SOURCE)
    check_has(source, "id")
    if cache != FILES:
        return check_has(source, "text")
    for name, wrong in UNREAD.items():
        if name in source:
            raise Mistake(wrong, name)


def check_tables(case):
    """Refuses a case of which a source, a label or the settings have an odd member, or lack one."""
    for source in case.get("sources", []):
        check_source(source, case.get("cache"))
    for label in case.get("labels", []):
        check(label, LABEL)
        check_has(label, "at")
    for edit in case.get("edits", []):
        check(edit, EDIT)
        check_has(edit, "at")
    check(case.get("settings", {}), SETTINGS)


def check_together(case):
    """Refuses a case that lacks a source, or has members that don't stand together."""
    if "sources" not in case:
        check_has(case, "source")
    for name, other, wrong in CLASHES:
        if name in case and other in case:
            raise Mistake(wrong, name)
    if "kind_color" not in case and case.get("kind", KINDS[0]) not in KINDS:
        raise Mistake("a kind without a kind_color", case["kind"])


def check_ids(case):
    """Refuses ids of a case and of its labels that no source has."""
    known = {*(source["id"] for source in case.get("sources", [])), *case.get("missing", [])}
    told = [case.get("id"), case.get("hidden"), *(label.get("id") for label in case.get("labels", []))]
    for name in told:
        if name is not None and name not in known:
            raise Mistake("not the id of a source of the case, nor of a missing one", name)


def check_pieces(case):
    """Refuses pieces of which some have '=' and others not, or that have it where no piece has."""
    told = [part["at"] for part in (*case.get("labels", []), case) if "at" in part]
    with_last = {"=" in piece for piece in told}
    if len(with_last) > 1:
        raise Mistake("written with '=' in some pieces and without in others", "at")
    for name in ("safe", "cache"):
        if True in with_last and name in case:
            raise Mistake(f"written with '=', which no piece is beside '{name}'", "at")


def check_numbers(case):
    """Refuses a source whose last line would have a number past the greatest one."""
    if case.get("cache") != FILES:
        for source in given_sources(case):
            if source["offset"] + len(Source(source).lines) > LAST_OFFSET:
                raise Mistake("too great for the lines of the source", "line_offset")


def check_case(case):
    """Refuses a case that has an odd member, or members that make no sense together."""
    check(case, CASE)
    check_tables(case)
    check_together(case)
    check_ids(case)
    check_pieces(case)
    check_numbers(case)
