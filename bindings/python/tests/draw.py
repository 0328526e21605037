"""Draws the stored cases "the report that each language draws" (plain) and "..., in colors" (colors):
draw.py plain|colors
"""

import sys

from sewarqo import Color, Config, Label, Report, Source

TEXT = 'def five = match () in {\n\t() => 5,\n\t() => "5",\n}\n\ndef six =\n    five\n    + 1\n'
is_plain = sys.argv[1:] == ["plain"]
report = Report(
    "error",
    "Incompatible types",
    code="03",
    at=("sample.tao", 32),
    labels=[
        Label("sample.tao", 32, 33, "This is of type Nat", Color.fixed(201)),
        Label("sample.tao", 42, 45, "This is of type Str", Color.fixed(155)),
        Label("sample.tao", 11, 48, "The values are outputs of this match expression", Color.fixed(81)),
        Label("lib.tao", 12, 15, "Nat is asked for here"),
    ],
    notes=["Outputs of match expressions must coerce to the same type"],
)
sources = {"sample.tao": TEXT, "lib.tao": Source("def seven : Nat = five\n", line_offset=40)}
sys.stdout.buffer.write(report.render(sources, Config(color=not is_plain, ascii=is_plain)).encode())
