"""Draws stored cases (docs/dev/CASES.md) that need no cache of their own, and compares pictures and lists. Each
line of standard input is a case, as JSON, with the fields of its `Config` as `config`. With the word `excerpts` the
library is handed excerpts. The last line is 'N cases, M differ', and the status 1 where M > 0.
"""

import json
import sys

from sewarqo import Color, Config, Edit, Label, Report, Source

LARGEST = 2**64 - 1
REASONS = {"past its source": "PastSource", "cuts a character": "CutsCharacter"}


def number(value):
    """A number, which is a text where it is a large one."""
    return int(value)


def color_of(words):
    """A colour by its words in a case, as "Fixed 200" or "BrightBlue"."""
    if words is None:
        return None
    name, *numbers = words.split()
    if name == "Fixed":
        return Color.fixed(*map(int, numbers))
    if name == "Rgb":
        return Color.rgb(*map(int, numbers))
    return getattr(Color, name.upper().replace("BRIGHT", "BRIGHT_"))


def ends_of(piece):
    """The ends of a piece, as "0..5" or "0..=4"."""
    start, _, end = piece.partition("..")
    return int(start), min(int(end[1:]) + 1, LARGEST) if end.startswith("=") else int(end)


class Case:
    """A case, and how it is drawn."""

    def __init__(self, case):
        self.case = case
        self.settings = case.get("settings", {})
        sources = case.get("sources") or [{"id": None, "text": case["source"], **case}]
        self.first = sources[0].get("id")
        self.sources = {it.get("id"): self.source(it) for it in sources}

    def source(self, source):
        text = source["text"]
        counts_bytes = self.settings.get("index_type") == "Byte"
        return Source(text.encode() if counts_bytes else text, number(source.get("line_offset", 0)))

    def label(self, label):
        start, end = ends_of(label["at"])
        return Label(
            label.get("id", self.first), start, end, label.get("message"), color_of(label.get("color")),
            label.get("order", 0), label.get("priority", 0))

    def helps(self):
        """The helps: one that shows the edits, where there are some, stands behind the others."""
        edits = [Edit(*ends_of(it["at"]), it["text"]) for it in self.case.get("edits", [])]
        shown = [Report.suggest(self.sources[self.first], edits, self.config())] if edits else []
        return self.case.get("helps", []) + shown

    def report(self):
        case = self.case
        kind = case.get("kind", "Error")
        return Report(
            kind if "kind_color" in case else kind.lower(),
            case.get("message", ""),
            code=case.get("code"),
            labels=[self.label(it) for it in case.get("labels", [])],
            helps=self.helps(),
            notes=case.get("notes", []),
            at=(case.get("id", self.first), ends_of(case.get("at", "0..0"))[0]),
            kind_color=color_of(case.get("kind_color")) or Color.PRIMARY,
        )

    def config(self):
        return Config(**self.case["config"], safe="safe" in self.case, excerpts=sys.argv[1:] == ["excerpts"])

    def is_drawn(self):
        """Whether the picture and the list are the stored ones."""
        drawn = self.report().draw(self.sources, self.config())
        left_out = [[label, REASONS[reason]] for label, reason in drawn.left_out]
        return drawn.text == self.case["picture"] and left_out == self.case.get("left_out", [])


cases = list(map(json.loads, sys.stdin))
differing = [case["name"] for case in cases if not Case(case).is_drawn()]
print(*differing, sep="\n", end="\n" * bool(differing))
print(f"{len(cases)} cases, {len(differing)} differ")
raise SystemExit(bool(differing) or not cases)
