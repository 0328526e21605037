"""Draws the report of bindings/rust/examples/readme.rs, whose messages have painted words."""

import sys

from sewarqo import Color, Config, Label, Report

TEXT = 'def five = match () in {\n\t() => 5,\n\t() => "5",\n}\n\ndef six =\n    five\n    + 1\n'
NUMBER, STRING, WHOLE = 201, 155, 81  # of the palette: the first two colours that a generator has


def painted(word, color):
    return f"\x1b[38;5;{color}m{word}\x1b[0m"


def label(start, end, message, color):
    return Label("sample.tao", start, end, message, Color.fixed(color))


report = Report(
    "error",
    "Incompatible types",
    code="03",
    at=("sample.tao", 32),
    labels=[
        label(32, 33, f"This is of type {painted('Nat', NUMBER)}", NUMBER),
        label(42, 45, f"This is of type {painted('Str', STRING)}", STRING),
        label(11, 48, f"The values are outputs of this {painted('match', WHOLE)} expression", WHOLE),
    ],
    notes=[f"Outputs of {painted('match', WHOLE)} expressions must coerce to the same type"],
)
sys.stdout.buffer.write(report.render({"sample.tao": TEXT}, Config(safe=False)).encode())
