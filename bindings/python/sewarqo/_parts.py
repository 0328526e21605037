"""What a report is made of, what it is drawn over, and what comes of it."""

from typing import Any, Hashable, List, Mapping, NamedTuple, Optional, Sequence, Union

Text = Union[str, bytes]


class Label(NamedTuple):
    """A piece of a source, and what is said of it.

    `source` is a key of the sources that `render` is handed, or the number of one in a list of them, or None
    where it is handed one text alone. A label without a message is only marked. Labels of lower `order` are
    drawn first; where labels overlap, the one of higher `priority` is seen.
    """

    source: Hashable
    start: int
    end: int
    message: Optional[str] = None
    color: Optional[int] = None
    order: int = 0
    priority: int = 0


class Source(NamedTuple):
    """A text, and what is added to its line numbers.

    The text may be an excerpt: all lines from the first to the last that a label or the report's `at` is on,
    and with `context_lines` so many more on both sides.
    Then `line_offset` is the number of lines above it, and offsets count from its beginning.

    `name` is what is shown, where that is not the source's key; "" is the empty name.
    """

    text: Text
    line_offset: int = 0
    name: Optional[str] = None


class Edit(NamedTuple):
    """An edit of a source: what stands in place of a piece of it. The ends are equal where something is put in."""

    start: int
    end: int
    text: Text


# A text alone, or texts by their keys, or a list of texts that have no name.
Sources = Union[Text, Source, Mapping[Any, Union[Text, Source]], Sequence[Union[Text, Source]]]


class LeftOut(NamedTuple):
    """A label that is not in the picture: its number in the report, from 0, and why."""

    label: int
    reason: str


class Picture(NamedTuple):
    """The picture of a report, and the labels that are left out of it."""

    text: str
    left_out: List[LeftOut]
