"""Reports, and how they are drawn."""

import os
import sys
from typing import Any, Hashable, Iterable, List, Optional, Protocol, Sequence, Tuple, Union

from ._call import KINDS, Call, listed, wrong
from ._color import Color
from ._errors import ReportError
from ._parts import Edit, Label, Picture, Source, Sources, Text
from ._settings import Config
from ._suggestion import suggested


class Writer(Protocol):
    """What `Report.print` writes to. A file is one."""

    def write(self, text: str, /) -> Any: ...


class Report:
    """What is said of which pieces of sources.

    `kind` is "error", "warning", "advice", or a word of your own, which is shown as it is in
    `kind_color`. "Error" and the like are words of your own only where a `kind_color` is given.
    `at` is the place that the header names: a source and an offset. Without it, that
    is the start of the first label.

    Reports are equal where all of these are.

    >>> print(Report("advice", "use a constant").render(""), end="")
    \x1b[38;5;147mAdvice:\x1b[0m use a constant
    """

    def __init__(
        self,
        kind: str,
        message: str = "",
        *,
        code: Optional[str] = None,
        labels: Sequence[Label] = (),
        helps: Sequence[str] = (),
        notes: Sequence[str] = (),
        at: Optional[Tuple[Hashable, int]] = None,
        kind_color: Optional[int] = None,
    ) -> None:
        if kind_color is None:
            _check_kind(kind)
        self.kind = kind
        self.message = message
        self.code = code
        self.labels: List[Label] = listed(labels, "labels")
        self.helps: List[str] = listed(helps, "helps")
        self.notes: List[str] = listed(notes, "notes")
        self.at = at
        self.kind_color: int = Color.PRIMARY if kind_color is None else kind_color

    def __eq__(self, other: object) -> bool:
        if not isinstance(other, Report):
            return NotImplemented
        return self._fields() == other._fields()

    def __repr__(self) -> str:
        given = [
            ("code", self.code, self.code is not None),
            ("labels", self.labels, self.labels != []),
            ("helps", self.helps, self.helps != []),
            ("notes", self.notes, self.notes != []),
            ("at", self.at, self.at is not None),
            ("kind_color", self.kind_color, self.kind not in KINDS or self.kind_color != Color.PRIMARY),
        ]
        told = "".join(f", {name}={value!r}" for name, value, is_told in given if is_told)
        return f"Report({self.kind!r}, {self.message!r}{told})"

    def _fields(self) -> Tuple[object, ...]:
        return (
            self.kind, self.message, self.code, self.labels, self.helps, self.notes, self.at, self.kind_color)

    def render(self, sources: Sources, config: Config = Config()) -> str:
        """The picture of the report.

        `sources` has texts, or values of type `Source`, by names; or it is one text that has no
        name, or a list of such texts, whose keys are 0, 1 and so on. Labels that point past their source, or
        (in bytes) into a character, are left out: `draw` tells which.

        Raises `LabelError`, `ReportError` or `SourceError` where one is faulty, `TypeError` where one is of another
        type, and `MemoryError`.
        """
        return self.draw(sources, config).text

    def draw(self, sources: Sources, config: Config = Config()) -> Picture:
        """The picture of the report, as `render`, and the labels that are left out of it.

        >>> Report("error", "m", labels=[Label(None, 0, 9)]).draw("abc").left_out
        [LeftOut(label=0, reason='past its source')]
        """
        return Call(self, sources, _for(config, sys.stderr)).drawn()

    def print(
        self, sources: Sources, config: Config = Config(color=None), *, file: Optional[Writer] = None
    ) -> None:
        """Writes the picture to a file, which is standard error where none is given.

        >>> Report("advice", "use a constant").print("", file=sys.stdout)
        Advice: use a constant
        """
        out: Writer = sys.stderr if file is None else file
        out.write(self.render(sources, _for(config, out)))

    @staticmethod
    def suggest(source: Union[Text, Source], edits: Iterable[Edit], config: Config = Config()) -> str:
        """The text of a help for edits of a source: each changed line before (`-`) and after (`+`), with its
        number, and `...` for unchanged lines between.

        Pass the text as a help, alone or after a message and a line feed. Edits without effect have an empty
        text. Hidden characters have symbols. Of the configuration, only `ascii`, `tab_width` and `width` count.

        Raises `EditError` where one ends before it starts, starts before the end of the one in front of it,
        reaches past the source, or (in bytes) cuts a character; in this order. `ReportError`, `SourceError`,
        `TypeError` and `MemoryError` are as for `render`.

        >>> print(Report.suggest("let first = take(names);", [Edit(17, 17, "&")]))
        1 - let first = take(names);
        1 + let first = take(&names);
        """
        return suggested(source, edits, _checked(config))


def _check_kind(kind: str) -> None:
    """Refuses "Error" and the like."""
    if not isinstance(kind, str):
        raise wrong("kind", kind, "str")
    known = kind.lower()
    if kind not in KINDS and known in KINDS:
        raise ReportError(f"kind: {kind!r} is not {known!r}, and one of your own needs a kind_color", "kind")


def _checked(config: Config) -> Config:
    """The configuration, if it is one."""
    if not isinstance(config, Config):
        raise wrong("config", config, "Config")
    return config


def _for(config: Config, file: object) -> Config:
    """The configuration for what is written to a file."""
    if _checked(config).color is not None:
        return config
    isatty = getattr(file, "isatty", lambda: False)
    return config._replace(color=not os.environ.get("NO_COLOR") and bool(isatty()))
