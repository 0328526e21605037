"""Uses the package as those who write Python do: texts of its values, copies, what is equal, texts without
names, printing, and the exceptions for what is of another type. What is wanted was written by hand. The last
line is 'N looked at, M faults', and the status 1 where M > 0.
"""

import copy
import enum
import io
import os
import pickle
import sys

from sewarqo import (
    EditError, LabelError, ReportError, SourceError, Color, Config, Edit, Label, Report, Source, __version__, offset)

PLAIN = Config(color=False, ascii=True)
# The same report over a source without a name, and over two.
ONE = """Error: m
   ,-[ <unknown>:1:1 ]
   |
 1 | abc
   | ^|^
   |  `--- one
---'
"""
TWO = """Error: m
   ,-[ <unknown>:1:1 ]
   |
 1 | abc
   | ^|^
   |  `--- one
   |
   |-[ <unknown>:1:2 ]
   |
 1 | xyz
   |  ^|
   |   `-- two
---'
"""
NAMED = ONE.replace("<unknown>", "a.sql")
# One over the b of line 4, behind ends of lines of several kinds.
BEHIND = """Error: m
   ,-[ <unknown>:4:2 ]
   |
 4 | ab
   |  |
   |  `-- here
---'
"""


class Name(str, enum.Enum):
    """A subclass of str, whose `str()` is another text."""

    FILE = "a.sql"
    KIND = "error"
    TEXT = "abc"


class Loud(str):
    """Another, which encodes itself otherwise."""

    def encode(self, *words):
        raise AssertionError("a subclass is asked")


class Bytes(bytes):
    """A subclass of bytes."""


class Number:
    """A number that is no int, as numpy has them."""

    def __init__(self, number):
        self.number = number

    def __index__(self):
        return self.number


class Terminal(io.StringIO):
    """A file that is a terminal."""

    def isatty(self):
        return True


def one(source, kind="error", message="one", start=0, end=3):
    return Report(kind, "m", labels=[Label(source, start, end, message)])


def labelled(**fields):
    """A report whose second label has these fields."""
    return Report("error", labels=[Label(None, 0, 1), Label(None, 0, 1)._replace(**fields)])


# ---- what is seen: what it is, what came out, and what is wanted


def pictures():
    for what, picture, wanted in drawn():
        yield what, list(map(str.rstrip, picture.split("\n"))), wanted.split("\n")


def drawn():
    """Pictures. (Those that are wanted have no blanks at the ends of rows.)"""
    both = Report("error", "m", labels=[Label(0, 0, 3, "one"), Label(1, 1, 3, "two")])
    yield "a text", one(None).render("abc", PLAIN), ONE
    yield "two without a name", both.render(["abc", "xyz"], PLAIN), TWO
    yield "the same, of bytes", both.render((b"abc", Source(b"xyz")), PLAIN), TWO
    yield "a name in a list", one(0).render([Source("abc", name="a.sql")], PLAIN), NAMED
    yield "no sources", Report("error", "m").render([], PLAIN), "Error: m\n"
    yield "by a name", one("a.sql").render({"a.sql": "abc"}, PLAIN), NAMED
    yield "by a name of a subclass", one(Name.FILE).render({Name.FILE: "abc"}, PLAIN), NAMED
    yield "by the text of a name", one("a.sql").render({Name.FILE: "abc"}, PLAIN), NAMED
    yield "a kind of a subclass", one(None, Name.KIND).render("abc", PLAIN), ONE
    yield "a text of a subclass", one(None).render(Name.TEXT, PLAIN), ONE
    yield "a message of a subclass", one(None, message=Loud("one")).render(Loud("abc"), PLAIN), ONE
    yield "bytes of a subclass", one(None).render(Bytes(b"abc"), PLAIN), ONE
    yield "subclasses side by side", one("a.sql").render({"a.sql": Loud("abc"), "b": "x"}, PLAIN), NAMED
    yield "other numbers", one(None, start=Number(0), end=Number(3)).render("abc", PLAIN), ONE
    cut = PLAIN._replace(excerpts=True)
    here = one(None, message="here", start=7, end=8)
    for what, config in ("a whole source", PLAIN), ("an excerpt", cut):
        yield what, here.render("a\n\u00e9\r\n\u2028ab\nc\n", config), BEHIND
    yield "what is in front of an excerpt", one(None, start=2, end=5).render(b"\xff\nabc", cut), ONE.replace(
        ":1:1", ":2:1").replace(" 1 |", " 2 |")
    yield "a width", one(None).render("abc", PLAIN._replace(width=Number(9), tab_width=Number(4))), ONE


def suggestions():
    text, told = "fn f() {\n    g(d\u00e9j);\n}\n", "    g(d\u00e9j);"
    both = [Edit(17, 18, "x"), Edit(15, 15, "&")]
    wanted = f"2 - {told}\n2 +     g(&d\u00e9x);"
    yield "put in", Report.suggest(text, [Edit(15, 15, "&")]), f"2 - {told}\n2 +     g(&d\u00e9j);"
    yield "removed", Report.suggest(text, iter([Edit(16, 18, "")])), f"2 - {told}\n2 +     g(d);"
    yield "two edits", Report.suggest(text, both), wanted
    yield "two in bytes", Report.suggest(text.encode(), [Edit(18, 19, b"x"), both[1]]), wanted
    yield "with an offset", Report.suggest(Source(text, 40, "a.rs"), both), wanted.replace("2 ", "42 ")
    yield "other numbers", Report.suggest(Loud(text), [Edit(Number(15), Number(15), Loud("&"))]).count("&"), 1
    yield "hidden", Report.suggest("a", [Edit(1, 1, "\x1b")], PLAIN._replace(safe=False)), "1 - a\n1 + a\u241b"
    yield "a tab", Report.suggest("a", [Edit(0, 0, "b\t")], PLAIN._replace(tab_width=3)), "1 - a\n1 + b  a"
    yield "nothing", Report.suggest(text, []), ""
    yield "a long text", len(Report.suggest("a", [Edit(0, 1, "x" * 5000)])), 5010
    report = Report("error", "m", helps=["borrow it:\n" + Report.suggest(text, both)])
    yield "as a help", report.render(text, PLAIN), "Error: m\n"


def texts():
    label = Label("a", 0, 1, color=Color.RED)
    told = "Label(source='a', start=0, end=1, message=None, color=Color.RED, order=0, priority=0)"
    yield "a report", repr(Report("error", "m")), "Report('error', 'm')"
    yield "a report of all", repr(Report(
        "hint", "m", code="E1", labels=[label], helps=["h"], notes=["n"], at=("a", 0), kind_color=Color.BLUE,
    )), f"Report('hint', 'm', code='E1', labels=[{told}], helps=['h'], notes=['n'], at=('a', 0), kind_color=Color.BLUE)"
    yield "a colour with a name", repr(Color.BRIGHT_WHITE), "Color.BRIGHT_WHITE"
    yield "the first", repr(Color.PRIMARY), "Color.PRIMARY"
    yield "of the palette", repr([Color.fixed(0), Color.fixed(255)]), "[Color.fixed(0), Color.fixed(255)]"
    yield "of three", repr([Color.rgb(0, 0, 0), Color.rgb(1, 2, 255)]), "[Color.rgb(0, 0, 0), Color.rgb(1, 2, 255)]"
    yield "no colour", repr([Color(0), Color(18), Color(512)]), "[Color(0), Color(18), Color(512)]"
    yield "a number", f"{Color.fixed(81)} {str(Color.RED)} {Color.RED + 1}", "337 3 4"
    yield "an exception", repr(ReportError), "<class 'sewarqo.ReportError'>"
    yield "the version", __version__.count("."), 2


def equal():
    reports = [
        Report("error"), Report("warning"), Report("error", "m"), Report("error", code="E1"),
        Report("error", helps=["m"]), Report("error", notes=["m"]), Report("error", at=(None, 0)),
        Report("error", labels=[Label(None, 0, 1)]), Report("hint"), Report("hint", kind_color=Color.RED),
        Report("Error", kind_color=Color.PRIMARY),
    ]
    for at, report in enumerate(reports):
        yield f"report {at}", [report == it for it in reports], [at == it for it in range(len(reports))]
        for copied in copy.copy(report), copy.deepcopy(report), pickle.loads(pickle.dumps(report)):
            yield f"report {at}, copied", copied == report and copied is not report, True
        words = {"Report": Report, "Label": Label, "Color": Color}
        yield f"report {at}, by its text", eval(repr(report), words), report
    yield "a report and a text", Report("error") == "error", False
    yield "a colour", pickle.loads(pickle.dumps(Color.RED)), Color.RED


def copies():
    label = Label("a", 0, 1)
    for error, told in (
        (LabelError("why", 3, label), "label 3: why"), (ReportError("why", "code"), "why"),
        (EditError("why", 3, Edit(0, 1, "")), "edit 3: why"),
        (SourceError("why", "a"), "source 'a': why"),
    ):
        error.more = "kept"
        for copied in copy.copy(error), copy.deepcopy(error), pickle.loads(pickle.dumps(error)):
            yield told, (type(copied), str(copied), vars(copied)), (type(error), told, vars(error))
    yield "a label at fault", vars(LabelError("why", 3, label)), {"why": "why", "number": 3, "label": label}


# Reports that hold something of another type, and how the exception begins.
WRONG = [
    (labelled(message=5), "abc", "label 1: message: 5 is no str"),
    (labelled(start="0"), "abc", "label 1: start: '0' is no int"),
    (labelled(end=1.0), "abc", "label 1: end: 1.0 is no int"),
    (labelled(color="red"), "abc", "label 1: color: 'red' is no int"),
    (labelled(order=None), "abc", "label 1: order: None is no int"),
    (labelled(priority="high"), "abc", "label 1: priority: 'high' is no int"),
    (labelled(source=[]), "abc", "label 1: source: [] is no key"),
    (Report("error", labels=[("a", 0, 1)]), "abc", "label 0: ('a', 0, 1) is no Label"),
    (Report("error", 5), "abc", "message: 5 is no str"),
    (Report("error", code=5), "abc", "code: 5 is no str"),
    (Report("error", helps=["a", 5]), "abc", "helps: 5 is no str"),
    (Report("error", notes=[None]), "abc", "notes: None is no str"),
    (Report("error", at=5), "abc", "at: 5 is no source with an offset"),
    (Report("error", at=(None, "x")), "abc", "at: 'x' is no int"),
    (Report("hint", kind_color="red"), "abc", "kind_color: 'red' is no int"),
    (Report("error"), 5, "sources: 5 is no text"),
    (Report("error"), {"a": 5}, "source 'a': 5 is no text: neither str nor bytes"),
    (Report("error"), ["x", None], "source 1: None is no text: neither str nor bytes"),
    (Report("error"), {"a": Source("x", "3")}, "source 'a': line_offset: '3' is no int"),
    (Report("error"), {"a": "x", "b": b"x"}, "the texts of sources are all of type str, or all of type bytes"),
]
# What is refused at once.
NOT_MADE = [
    (lambda: Report(5), TypeError, "kind: 5 is no str"),
    (lambda: Report("error", helps="abc"), TypeError, "helps: 'abc' is no list"),
    (lambda: Report("error", notes="abc"), TypeError, "notes: 'abc' is no list"),
    (lambda: Report("error", labels=Label(None, 0, 1)), TypeError, "labels: Label(source=None"),
    (lambda: Report("error", labels=5), TypeError, "labels: 5 is no list"),
    (lambda: Report("Error"), ReportError, "kind: 'Error' is not 'error'"),
    (lambda: Report("WARNING"), ReportError, "kind: 'WARNING' is not 'warning'"),
    (lambda: Report.suggest("abc", [Edit(0, 1, ""), 5]), TypeError, "edit 1: 5 is no Edit"),
    (lambda: Report.suggest("abc", [Edit(0, "1", "")]), TypeError, "edit 0: end: '1' is no int"),
    (lambda: Report.suggest("abc", [Edit(0, 1, None)]), TypeError, "edit 0: text: None is no str"),
    (lambda: Report.suggest("abc", Edit(0, 1, "")), TypeError, "edits: Edit(start=0"),
    (lambda: Report.suggest(5, []), TypeError, "source None: 5 is no text"),
    (lambda: Report.suggest("abc", [], None), TypeError, "config: None is no Config"),
    (lambda: Color.fixed("81"), TypeError, ""),
    (lambda: Color.rgb(1, 2, 256), ValueError, "256 is not from 0 to 255"),
    (lambda: Report("error").render("x", {"color": False}), TypeError, "config: {'color': False} is no Config"),
    (lambda: Report("error").render("x", Config(color="never")), TypeError, "color: 'never' is no bool"),
    (lambda: Report("error").render("x", Config(ascii=None)), TypeError, "ascii: None is no bool"),
    (lambda: Report("error").render("x", Config(tab_width="4")), TypeError, "tab_width: '4' is no int"),
    (lambda: Report("error").render("x", Config(attach=["end"])), ReportError, "attach: ['end'] is not"),
    (lambda: Report("error").render("x", Config(excerpts=2)), TypeError, "excerpts: 2 is no bool"),
]


# Lines of a, b LF | d, two bytes, two bytes, CR LF | LF | x, CR, y LF | (nothing).
LINES = "ab\ndéà\r\n\nx\ry\n"
NO_LINE = 2 * sys.maxsize + 1
# A text, a line and a column of it, and the offset in characters and in bytes.
OFFSETS = [
    (LINES, 1, 1, 0, 0), (LINES, 1, 2, 1, 1), (LINES, 1, 3, 2, 2), (LINES, 1, 4, 2, 2), (LINES, 1, 0, 0, 0),
    (LINES, 2, 1, 3, 3), (LINES, 2, 3, 5, 5), (LINES, 2, 6, 6, 8), (LINES, 2, 7, 6, 8), (LINES, 2, 10**30, 6, 8),
    (LINES, 3, 1, 8, 10), (LINES, 3, 2, 8, 10), (LINES, 4, 3, 11, 13), (LINES, 4, 9, 12, 14), (LINES, 5, 2, 13, 15),
    (LINES, 6, 1, NO_LINE, NO_LINE), (LINES, 0, 1, NO_LINE, NO_LINE), (LINES, -1, 1, NO_LINE, NO_LINE),
    (LINES, 10**30, 1, NO_LINE, NO_LINE), ("", 1, 5, 0, 0), ("", 2, 1, NO_LINE, NO_LINE), ("abc", 1, 9, 3, 3),
    ("abc\r", 1, 9, 4, 4), ("\r\n", 1, 9, 0, 0), ("\n\n", 2, 1, 1, 1),
]


def offsets():
    for text, line, column, in_characters, in_bytes in OFFSETS:
        what = f"{text!r}, line {line}, column {column}"
        yield what, offset(text, line, column), in_characters
        yield what, offset(text.encode(), Number(line), Number(column)), in_bytes
    for words, told in (
        ((5, 1, 1), "text: 5 is no text"), (("a", "1", 1), "line: '1' is no int"), (("a", 1, 1.5), "column: 1.5 is no int"),
    ):
        yield told, raised(lambda: offset(*words), told), (TypeError, told)


def refusals():
    for report, sources, told in WRONG:
        yield told, raised(lambda: report.render(sources), told), (TypeError, told)
    for made, kind, told in NOT_MADE:
        yield told, raised(made, told), (kind, told)
    changed = Report("error")
    changed.helps = "abc"
    told = "helps: 'abc' is no list"
    yield "changed later", raised(lambda: changed.render("x"), told), (TypeError, told)
    yield "a kind of one's own", Report("Error", "m", kind_color=Color.RED).render("x", PLAIN), "Error: m\n"


def raised(made, told):
    """The type of what is raised, and its text, or what that begins with, if it is the one that is told."""
    try:
        return "nothing", made()
    except Exception as error:
        return type(error), told if str(error).startswith(told) else str(error)


def printing():
    report = Report("advice", "m")
    plain, painted = "Advice: m\n", "\x1b[38;5;147mAdvice:\x1b[0m m\n"
    for no_color, out, wanted in (
        (None, io.StringIO(), plain), (None, Terminal(), painted), ("", Terminal(), painted),
        ("1", Terminal(), plain), ("0", Terminal(), plain),
    ):
        set_no_color(no_color)
        report.print("", file=out)
        yield f"printed with NO_COLOR={no_color}", out.getvalue(), wanted
    for color, wanted in (True, painted), (False, plain):
        for out in io.StringIO(), Terminal():
            report.print("", Config(color=color), file=out)
            yield f"printed with {color}", out.getvalue(), wanted
    set_no_color(None)
    before = sys.stderr
    for out, wanted in (io.StringIO(), plain), (Terminal(), painted):
        sys.stderr = out
        drawn = report.render("", Config(color=None)), report.draw("", Config(color=None)).text
        report.print("")
        sys.stderr = before
        yield "printed to standard error", (out.getvalue(), *drawn), (wanted, wanted, wanted)


def set_no_color(value):
    if value is None:
        os.environ.pop("NO_COLOR", None)
    else:
        os.environ["NO_COLOR"] = value


looked = [it for seen in (pictures, suggestions, texts, offsets, equal, copies, refusals, printing) for it in seen()]
faults = [f"{what}: {got!r}, and not {wanted!r}" for what, got, wanted in looked if got != wanted]
print(*faults, sep="\n", end="\n" * bool(faults))
print(f"{len(looked)} looked at, {len(faults)} faults")
raise SystemExit(bool(faults))
