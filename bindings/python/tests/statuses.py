"""Has each refusal of the module on purpose, and looks at its exception; and each status of the library, by
structs that the module itself would not hand in. The last line is 'N refusals, M faults', and the status 1
where M > 0.
"""

import ctypes
import resource

from sewarqo import Color, Config, Edit, EditError, Label, LabelError, Report, ReportError, Source, SourceError
from sewarqo._library import CEdit, CLabel, COptional, CReport, CSource, CSuggestion, CText, library
from sewarqo._settings import ALL_FLAGS

LARGEST = 2**64 - 1
LONE = "a\ud800"


def label(*words, **settings):
    """A report whose second label has these words."""
    return Report("error", "m", labels=[Label(None, 0, 1), Label(None, *words, **settings)])


# What is handed in, the exception, and what it names.
REFUSALS = [
    (Report("hint", kind_color=18), "x", ReportError, "kind_color"),
    (Report("hint", kind_color=0), "x", ReportError, "kind_color"),
    (Report(LONE), "x", ReportError, "kind"),
    (Report("error", LONE), "x", ReportError, "message"),
    (Report("error", code=LONE), "x", ReportError, "code"),
    (Report("error", helps=["h", LONE]), "x", ReportError, "helps"),
    (Report("error", notes=[LONE]), "x", ReportError, "notes"),
    (Report("error", at=(None, -1)), "x", ReportError, "at"),
    (label(3, 2), "xyz", LabelError, 1),
    (label(-1, 2), "xyz", LabelError, 1),
    (label(0, LARGEST + 1), "xyz", LabelError, 1),
    (label(0, 1, LONE), "xyz", LabelError, 1),
    (label(0, 1, color=18), "xyz", LabelError, 1),
    (label(0, 1, color=2**25), "xyz", LabelError, 1),
    (label(0, 1, order=2**31), "xyz", LabelError, 1),
    (label(0, 1, priority=-(2**31) - 1), "xyz", LabelError, 1),
    (Report("error", labels=[Label("a", 0, 0)]), {"b": "x"}, LabelError, 0),
    (Report("error"), {"a": "x", "b": LONE}, SourceError, "b"),
    (Report("error"), {"a": b"x", "b": b"\xff"}, SourceError, "b"),
    (Report("error"), {LONE: "x"}, SourceError, LONE),
    (Report("error"), {"a": Source("x", line_offset=-1)}, SourceError, "a"),
    (Report("error"), {"a": Source("x", line_offset=LARGEST)}, SourceError, "a"),
]
# The status of a call, the number of what is at fault, and what is changed in a call that draws.
STATUSES = [
    (0, 0, lambda it: None),
    (1, 1, lambda it: set_field(it.labels[1], "end", 9)),
    (2, 0, lambda it: set_field(it, "room", 3)),
    (4, 0, lambda it: set_field(it.report, "kind", 4)),
    (5, 0, lambda it: set_field(it.report, "kind", 3)),
    (6, 0, lambda it: set_kind_name(it.report)),
    (7, 0, lambda it: set_field(it.report, "flags", ALL_FLAGS + 1)),
    (8, 0, lambda it: set_field(it.report, "attach", 3)),
    (9, 0, lambda it: set_field(it.report, "code", NO_OPTIONAL)),
    (10, 0, lambda it: set_field(it.report, "message", NO_TEXT)),
    (11, 1, lambda it: set_field(it.labels[1], "source", 2)),
    (12, 1, lambda it: set_field(it.labels[1], "start", 3)),
    (13, 0, lambda it: set_field(it.labels[0], "color", 18)),
    (14, 1, lambda it: set_field(it.labels[1], "message", NO_OPTIONAL)),
    (15, 1, lambda it: it.texts.__setitem__(1, NO_TEXT)),
    (16, 1, lambda it: set_notes(it)),
    (17, 1, lambda it: set_field(it.sources[1], "name", NO_OPTIONAL)),
    (18, 0, lambda it: set_field(it.sources[0], "text", NO_TEXT)),
    (19, 1, lambda it: set_field(it.sources[1], "line_offset", LARGEST)),
]
# Edits of a source that are refused, the exception, and what it names.
EDITS = [
    ("abc", [(0, 1, ""), (2, 1, "")], EditError, 1),
    ("abc", [(0, 1, ""), (-1, 2, "")], EditError, 1),
    ("abc", [(0, LARGEST + 1, "")], EditError, 0),
    ("abc", [(1, 3, ""), (0, 2, "")], EditError, 0),
    ("abc", [(1, 3, ""), (0, 4, "")], EditError, 0),
    ("abc", [(0, 4, "")], EditError, 0),
    ("abc", [(0, 1, LONE)], EditError, 0),
    (b"abc", [(0, 1, b"\xff")], EditError, 0),
    ("d\u00e9".encode(), [(0, 1, ""), (2, 3, "")], EditError, 1),
    (LONE, [], SourceError, None),
    (b"\xff", [], SourceError, None),
    (Source("abc", -1), [], SourceError, None),
    (Source("abc", LARGEST), [], SourceError, None),
]
# The status of a call that suggests, the number of the edit at fault, and what is changed in a call that tells.
SUGGESTIONS = [
    (0, 0, lambda it: None),
    (2, 0, lambda it: set_field(it, "room", 3)),
    (7, 0, lambda it: set_field(it.asked, "flags", ALL_FLAGS + 1)),
    (18, 0, lambda it: set_field(it.asked.source, "text", NO_TEXT)),
    (19, 0, lambda it: set_field(it.asked.source, "line_offset", LARGEST)),
    (20, 1, lambda it: set_field(it.edits[1], "text", NO_TEXT)),
    (21, 1, lambda it: set_field(it.edits[1], "start", 3)),
    (22, 1, lambda it: set_field(it.edits[0], "end", 2)),
    (23, 1, lambda it: set_field(it.edits[1], "end", 4)),
    (24, 0, lambda it: set_field(it.asked, "flags", 8)),
]
NO_TEXT = CText(b"a\xff", 2)
NO_OPTIONAL = COptional(NO_TEXT, 1)
CONFIGS = [
    Config(tab_width=0), Config(tab_width=-1), Config(attach="nowhere"), Config(context_lines=-1),
    Config(context_lines=LARGEST + 1), Config(width=-1), Config(width=LARGEST + 1),
]


class Call:
    """What a call is handed that draws two labels over two sources."""

    def __init__(self):
        self.labels = (CLabel * 2)()
        self.sources = (CSource * 2)()
        self.texts = (CText * 2)()
        self.report = CReport()
        self.room = 4096
        for it in self.labels:
            it.end = 2
        for it in self.sources:
            it.text = CText(b"abc", 3)
        self.report.labels, self.report.labels_len = self.labels, 2
        self.report.helps, self.report.helps_len = self.texts, 2

    def made(self):
        """The status, the length, the number, and whether the buffer is as it was."""
        out = ctypes.create_string_buffer(b"#" * self.room, self.room)
        length, count = ctypes.c_size_t(77), ctypes.c_size_t(77)
        status = library().sewarqo_draw(
            ctypes.byref(self.report), self.sources, 2, out, self.room, ctypes.byref(length), None, 0,
            ctypes.byref(count))
        return status, length.value, count.value, out.raw == b"#" * self.room


class Suggestion:
    """What a call is handed that tells two edits of a source."""

    def __init__(self):
        self.edits = (CEdit * 2)(CEdit(0, 1, CText(b"x", 1)), CEdit(1, 2, CText(b"yz", 2)))
        self.asked = CSuggestion(CSource(COptional(), CText("\u00e9bc".encode(), 4), 0), self.edits, 2, 0, 0)
        self.room = 4096

    def made(self):
        """The status, the length, the number, and whether the buffer is as it was."""
        out = ctypes.create_string_buffer(b"#" * self.room, self.room)
        length, count = ctypes.c_size_t(77), ctypes.c_size_t(77)
        status = library().sewarqo_suggest(
            ctypes.byref(self.asked), out, self.room, ctypes.byref(length), ctypes.byref(count))
        return status, length.value, count.value, out.raw == b"#" * self.room


def set_field(struct, name, value):
    setattr(struct, name, value)


def set_kind_name(report):
    report.kind, report.kind_color, report.kind_name = 3, 1, NO_TEXT


def set_notes(call):
    call.report.helps_len = 0
    call.report.notes, call.report.notes_len = call.texts, 2
    call.texts[1] = NO_TEXT


def statuses():
    """Where the library returns another status or leaves something else."""
    made = [(Call, *it) for it in STATUSES] + [(Suggestion, *it) for it in SUGGESTIONS]
    for kind, status, number, change in made:
        call = kind()
        change(call)
        got, length, count, is_kept = call.made()
        if (got, count, is_kept) != (status, number, status > 1) or (length > 0) != (status < 3):
            yield f"{kind.__name__}, status {status}: {got}, length {length}, number {count}, kept: {is_kept}"


def short_memory():
    """A picture that takes more memory than there is: a tab of a million million columns."""
    with open("/proc/self/statm", encoding="ascii") as pages:
        taken = int(pages.read().split()[0]) * resource.getpagesize()
    before = resource.getrlimit(resource.RLIMIT_AS)
    resource.setrlimit(resource.RLIMIT_AS, (taken + 2**28, before[1]))
    try:
        report = Report("error", labels=[Label(None, 1, 2, "x")])
        yield f"{len(report.render(chr(9) + 'x', Config(tab_width=10**12)))} characters of memory"
    except MemoryError as error:
        if "picture" not in str(error):
            yield f"{error!r}"
    finally:
        resource.setrlimit(resource.RLIMIT_AS, before)


def many_labels():
    """10,000 labels, of which every second is left out."""
    labels = [Label(None, at % 2 * 99, at % 2 * 99 + 1, "m") for at in range(10000)]
    drawn = Report("error", labels=labels).draw("abc")
    if [it.label for it in drawn.left_out] != list(range(1, 10000, 2)) or drawn.text.count("m") < 5000:
        yield f"of 10,000 labels {len(drawn.left_out)} are left out"


def refused_edits(source, edits):
    """The exception, and what it names."""
    edits = [Edit(*it) for it in edits]
    try:
        Report.suggest(source, edits)
    except EditError as error:
        return EditError, error.number if error.edit is edits[error.number] else None
    except SourceError as error:
        return SourceError, error.source
    return None


def refused(report, sources, config=Config()):
    """The exception, and what it names."""
    try:
        report.render(sources, config)
    except LabelError as error:
        return LabelError, error.number if error.label is report.labels[error.number] else None
    except ReportError as error:
        return ReportError, error.part
    except SourceError as error:
        return SourceError, error.source
    return None


def unlike():
    """What comes out otherwise."""
    for report, sources, wanted, named in REFUSALS:
        if refused(report, sources) != (wanted, named):
            yield f"{wanted.__name__} of {named!r}: {refused(report, sources)}"
    for source, edits, wanted, named in EDITS:
        if refused_edits(source, edits) != (wanted, named):
            yield f"{wanted.__name__} of {edits}: {refused_edits(source, edits)}"
    for config in CONFIGS:
        if refused(Report("error"), "x", config) != (ReportError, "config"):
            yield f"{config}: {refused(Report('error'), 'x', config)}"
    for sources in {"a": "x", "b": b"x"}, {"a": 3}:
        try:
            yield Report("error").render(sources)
        except TypeError:
            pass
    greatest = Report("error", labels=[Label("a", 0, 1, "m")]).render({"a": Source("x", LARGEST - 1)})
    if f"{LARGEST} │" not in greatest:
        yield "the greatest line number"
    drawn = Report("error", labels=[Label(None, 0, 9), Label(None, 1, 2), Label(None, 0, 2)]).draw("é".encode())
    if [tuple(it) for it in drawn.left_out] != [(0, "past its source"), (1, "cuts a character")]:
        yield f"labels left out: {drawn.left_out}"
    if len(Report("error", "m" * 10000).render("x")) < 10000:
        yield "a long picture"
    yield from numbers_of_colors()
    yield from statuses()
    yield from many_labels()
    yield from short_memory()


def numbers_of_colors():
    """Each colour of the palette and with a name is one that the library has."""
    colors = [Color(it) for it in range(1, 18)] + [Color.fixed(it) for it in range(256)] + [Color.rgb(1, 2, 3)]
    for color in colors:
        if "\x1b[" not in Report("hint", kind_color=color).render("x"):
            yield f"colour {color}"
    if (ctypes.sizeof(CReport), ctypes.sizeof(CSuggestion)) != (160, 88):
        yield f"a report of {ctypes.sizeof(CReport)} bytes, a suggestion of {ctypes.sizeof(CSuggestion)}"


faults = list(unlike())
print(*faults, sep="\n", end="\n" * bool(faults))
print(f"{len(REFUSALS) + len(EDITS) + len(CONFIGS) + len(STATUSES) + len(SUGGESTIONS)} refusals, {len(faults)} faults")
raise SystemExit(bool(faults))
