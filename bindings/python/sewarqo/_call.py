"""One call of the library: what it is handed, and what came of it."""

import collections.abc
import ctypes
import operator
from typing import TYPE_CHECKING, Any, Dict, Hashable, Iterable, Iterator, List, NamedTuple, Optional, Tuple

from ._excerpt import excerpt
from ._errors import LabelError, ReportError, SourceError
from ._library import LARGEST, CLabel, CLeftOut, COptional, CReport, CSource, CText, library, size
from ._parts import Edit, Label, LeftOut, Picture, Source, Sources, Text
from ._settings import NUMBERS, SWITCHES, Config

if TYPE_CHECKING:
    from ._report import Report

KINDS = {"error": 0, "warning": 1, "advice": 2}
_CUSTOM = 3
_ATTACH = {"middle": 0, "start": 1, "end": 2}
_REASONS = {1: "past its source", 2: "cuts a character"}
BYTE_OFFSETS = 8
_LEFT_OUT, BUFFER_TOO_SMALL, NO_MEMORY = 1, 2, 3
_REPORT_FAULTS = {
    4: "kind", 5: "kind_color", 6: "kind", 7: "config", 8: "config", 9: "code", 10: "message", 15: "helps",
    16: "notes",
}
_LABEL_FAULTS = {
    11: "its source was not given", 12: "it ends before it starts", 13: "its colour is none",
    14: "its message is not UTF-8",
}
SOURCE_FAULTS = {
    17: "its name is not UTF-8", 18: "its text is not UTF-8",
    19: "its line_offset and the number of its lines exceed the largest line number",
}


class _Given(NamedTuple):
    """A source, the key that it was handed in under, and what is shown of that, if anything is."""

    key: Hashable
    name: Optional[str]
    text: Text
    line_offset: int


class _Answer(NamedTuple):
    """What the library returned, and what it has written. `number` is that of what is at fault, or how many
    labels are left out."""

    status: int
    out: "ctypes.Array[ctypes.c_char]"
    length: int
    left: "ctypes.Array[CLeftOut]"
    number: int


class Call:
    """One call of the library."""

    def __init__(self, report: "Report", sources: Sources, config: Config) -> None:
        self.report = report
        self.config = config
        self.labels: List[Label] = listed(report.labels, "labels")
        self.given = list(_given(sources))
        self.numbers: Dict[Hashable, int] = {it.key: number for number, it in enumerate(self.given)}
        self.flags = flags_of(config) | BYTE_OFFSETS * _counts_bytes(self.given)
        self.asked = self.report_of(config)
        if config.excerpts:
            self.given = [self.cut(number, it) for number, it in enumerate(self.given)]
        self.sources = (CSource * len(self.given))(*map(_source, self.given))

    def cut(self, number: int, given: _Given) -> _Given:
        """The source with this number, of which only those lines are left that the picture needs. The places in
        it count from their beginning."""
        labels = [self.asked.labels[at] for at in range(self.asked.labels_len)]
        own = [it for it in labels if it.source == number]
        starts = [it.start for it in own] + [self.asked.start] * (self.asked.source == number)
        if not starts:
            return given._replace(text=given.text[:0])
        last = max(starts + [it.end - 1 for it in own if it.end])
        found = excerpt(given.text, min(starts), last, self.asked.context_lines)
        for label in own:
            label.start -= found.front
            label.end -= found.front
        self.asked.start -= found.front * (self.asked.source == number)
        return given._replace(text=found.text, line_offset=given.line_offset + found.lines)

    def given_labels(self) -> List[CLabel]:
        """The labels."""
        given = []
        for number, label in enumerate(self.labels):
            try:
                given.append(self.label(number, label))
            except TypeError as error:
                raise TypeError(f"label {number}: {error}") from None
        return given

    def label(self, number: int, label: Label) -> CLabel:
        """The label with this number. Its `TypeError` names the field alone."""
        if not isinstance(label, Label):
            raise TypeError(f"{label!r} is no Label")
        source = self.number_of(label.source)
        if source is None:
            raise LabelError(_LABEL_FAULTS[11], number, label)
        start, end = integer(label.start, "start"), integer(label.end, "end")
        if not (0 <= start <= LARGEST and 0 <= end <= LARGEST):
            raise LabelError(f"{start} to {end} is no piece of a text", number, label)
        order, priority = integer(label.order, "order"), integer(label.priority, "priority")
        if not all(-(2**31) <= it < 2**31 for it in (order, priority)):
            raise LabelError("its order or its priority takes more than 32 bits", number, label)
        color = 0 if label.color is None else integer(label.color, "color")
        if label.color is not None and not 0 < color < 2**32:
            raise LabelError(_LABEL_FAULTS[13], number, label)
        try:
            message = COptional() if label.message is None else COptional(c_text(label.message, "message"), 1)
        except UnicodeEncodeError as error:
            raise LabelError(surrogate(error), number, label) from None
        return CLabel(source, start, end, message, color, order, priority)

    def number_of(self, key: Hashable) -> Optional[int]:
        """The number of the source with this key."""
        try:
            return self.numbers.get(key)
        except TypeError:
            raise wrong("source", key, "key of a source") from None

    def place(self, labels: List[CLabel]) -> Tuple[int, int]:
        """The place that the header names. One in a source that was not given is none."""
        if self.report.at is None:
            return (labels[0].source, labels[0].start) if labels else (LARGEST, 0)
        try:
            source, given = self.report.at
        except (TypeError, ValueError):
            raise wrong("at", self.report.at, "source with an offset") from None
        start = integer(given, "at")
        if not 0 <= start <= LARGEST:
            raise ReportError(f"at: {start} is no offset", "at")
        number = self.number_of(source)
        return LARGEST if number is None else number, start

    def report_of(self, config: Config) -> CReport:
        report = self.report
        labels, numbers = self.given_labels(), sizes(config)
        kind_color = integer(report.kind_color, "kind_color")
        if not 0 < kind_color < 2**32:
            raise ReportError("the colour of the kind is none", "kind_color")
        kind_name = _part(report.kind, "kind")
        kind = KINDS.get(report.kind, _CUSTOM)
        source, start = self.place(labels)
        helps, notes = _parts(report.helps, "helps"), _parts(report.notes, "notes")
        return CReport(
            kind, kind_color, kind_name,
            COptional() if report.code is None else COptional(_part(report.code, "code"), 1),
            _part(report.message, "message"), source, start,
            (CLabel * len(labels))(*labels), len(labels),
            (CText * len(helps))(*helps), len(helps), (CText * len(notes))(*notes), len(notes),
            self.flags, _ATTACH[config.attach], *numbers,
        )

    def drawn(self) -> Picture:
        """The picture: the call is made again where the buffer was too short for it."""
        a_label = 2048 if self.config.color else 256  # (so that few are drawn twice)
        answer = self.call(4096 + a_label * len(self.labels))
        if answer.status == BUFFER_TOO_SMALL:
            answer = self.call(answer.length)
        if answer.status > _LEFT_OUT:
            raise self.error(answer.status, answer.number)
        left_out = [LeftOut(it.label, _REASONS[it.reason]) for it in answer.left[:answer.number]]
        return Picture(answer.out.raw[:answer.length].decode(), left_out)

    def call(self, room: int) -> _Answer:
        """Calls the library with so many bytes of room."""
        out = ctypes.create_string_buffer(room)
        left = (CLeftOut * len(self.labels))()
        length, count = size(), size()
        status = library().sewarqo_draw(
            ctypes.byref(self.asked), self.sources, len(self.sources), out, room, ctypes.byref(length), left,
            len(self.labels), ctypes.byref(count),
        )
        return _Answer(status, out, length.value, left, count.value)

    def error(self, status: int, number: int) -> Exception:
        """The exception for the status of an error."""
        if status == NO_MEMORY:
            return MemoryError("there was no memory for the picture")
        if status in _LABEL_FAULTS:
            return LabelError(_LABEL_FAULTS[status], number, self.labels[number])
        if status in SOURCE_FAULTS:
            return SourceError(SOURCE_FAULTS[status], self.given[number].key)
        part = _REPORT_FAULTS.get(status, "")
        return ReportError(f"{part} is faulty (status {status})", part)


# ---- what is of another type


def wrong(what: str, value: object, wanted: str) -> TypeError:
    """The exception for what is of another type."""
    return TypeError(f"{what}: {value!r} is no {wanted}")


def integer(value: int, what: str) -> int:
    """The number. What has `__index__` is one, as those of numpy."""
    try:
        return operator.index(value)
    except TypeError:
        raise wrong(what, value, "int") from None


def listed(given: Iterable[Any], what: str) -> List[Any]:
    """What is given, as a list. A text or a label alone is no list of some."""
    if isinstance(given, (str, bytes, Label, Edit)):
        raise wrong(what, given, "list")
    try:
        return list(given)
    except TypeError:
        raise wrong(what, given, "list") from None


# ---- sources


def _given(sources: Sources) -> Iterator[_Given]:
    """The sources. A text alone has the key None, and those of a list have numbers; they have no names."""
    if isinstance(sources, (str, bytes, Source)):
        yield _one(None, False, sources)
    elif isinstance(sources, collections.abc.Mapping):
        for key, source in sources.items():
            yield _one(key, key is not None, source)
    elif isinstance(sources, collections.abc.Sequence):
        for number, unnamed in enumerate(sources):
            yield _one(number, False, unnamed)
    else:
        raise wrong("sources", sources, "text, and has no texts")


def _one(key: Hashable, is_shown: bool, given: Any) -> _Given:
    """The source of a key, which is its name where it has none of its own and the key is shown."""
    text, line_offset, name = given if isinstance(given, Source) else (given, 0, None)
    if not isinstance(text, (str, bytes)):
        raise wrong(f"source {key!r}", text, "text: neither str nor bytes")
    shown = key if name is None and is_shown else name
    if not (shown is None or isinstance(shown, str)):
        shown = str(shown)
    return _Given(key, shown, text, integer(line_offset, f"source {key!r}: line_offset"))


def one_source(source: object) -> CSource:
    """A source alone, which has no name, as the library is handed it."""
    given = _one(None, False, source)
    return _source(given._replace(name=None))


def _source(given: _Given) -> CSource:
    """The source as the library is handed it."""
    try:
        name = COptional() if given.name is None else COptional(c_text(given.name, "name"), 1)
        text = c_text(given.text, "text")
    except UnicodeEncodeError as error:
        raise SourceError(surrogate(error), given.key) from None
    if not 0 <= given.line_offset <= LARGEST:
        raise SourceError(f"its line_offset {given.line_offset} is no number of lines", given.key)
    return CSource(name, text, given.line_offset)


def _counts_bytes(given: Iterable[_Given]) -> bool:
    """Whether offsets count bytes: where the texts are bytes."""
    kinds = {isinstance(source.text, bytes) for source in given}
    if len(kinds) == 2:
        raise TypeError("the texts of sources are all of type str, or all of type bytes")
    return kinds == {True}


# ---- settings


def sizes(config: Config) -> List[int]:
    """The settings that are numbers. One that is none is refused, and so is another `attach`."""
    if config.attach not in list(_ATTACH):
        raise ReportError(f"attach: {config.attach!r} is not 'start', 'middle' or 'end'", "config")
    return [_size(config, *it) for it in NUMBERS]


def _size(config: Config, name: str, least: int, counts: str) -> int:
    size = integer(getattr(config, name), name)
    if not least <= size <= LARGEST:
        raise ReportError(f"{name}: {size} is no {counts}", "config")
    return size


def flags_of(config: Config) -> int:
    flags = 0
    for name, bit, is_set in SWITCHES:
        value = getattr(config, name)
        if value not in (True, False):
            raise wrong(name, value, "bool")
        flags |= bit * (value == is_set)
    return flags


# ---- texts


def c_text(text: Text, what: str) -> CText:
    """A text; one of type bytes is in UTF-8. A subclass of str is one, whatever its `encode` does."""
    if isinstance(text, str):
        text = str.encode(text)
    elif not isinstance(text, bytes):
        raise wrong(what, text, "str")
    return CText(text, len(text))


def _part(text: str, part: str) -> CText:
    """A text of the report."""
    try:
        return c_text(text, part)
    except UnicodeEncodeError as error:
        raise ReportError(f"{part}: {surrogate(error)}", part) from None


def _parts(texts: Iterable[str], part: str) -> List[CText]:
    return [_part(it, part) for it in listed(texts, part)]


def surrogate(error: UnicodeEncodeError) -> str:
    return f"there is half a character, a lone surrogate, at {error.start} in {error.object!r}"
