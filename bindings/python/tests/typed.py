"""What `mypy --strict` accepts of those who use the package, and, where a comment says so, what it refuses: a
comment that nothing needs is an error too, so that types which are lost are told.
"""

import io
import sys
from pathlib import Path
from typing import Dict, List, Mapping, Tuple

import sewarqo
from sewarqo import Color, Config, Edit, EditError, Label, LabelError, LeftOut, Picture, Report, Source, Sources

report = Report("error", "m", code="E1", labels=[Label("a", 0, 1, "x", Color.RED)], helps=("h",), at=("a", 3))
texts: Dict[str, str] = {"a": "text"}
by_path: Dict[Path, bytes] = {Path("a"): b"text"}
sources: Mapping[Tuple[str, int], Source] = {("a", 1): Source("text", name="a")}
unnamed: List[str] = ["one", "two"]
drawn: str = report.render(texts)
drawn = report.render(by_path, Config(color=None))
drawn = report.render(sources)
drawn = report.render({"a": "text", "b": Source("text", 3)})
drawn = report.render(unnamed) + report.render(("one", Source("two")))
drawn = report.render("text") + report.render(b"text") + report.render(Source("text"))
picture: Picture = report.draw(texts)
left_out: List[LeftOut] = picture.left_out
report.print(texts, file=sys.stdout)
report.print(texts, Config(ascii=True), file=io.StringIO())
help_text: str = Report.suggest("text", [Edit(0, 1, "T")])
help_text = Report.suggest(b"text", (Edit(0, 1, it) for it in (b"T",)), Config(tab_width=8))
help_text = report.suggest(Source("text", 3), ())
version: str = sewarqo.__version__
at: int = sewarqo.offset("text", 1, 2) + sewarqo.offset(b"text", 1, 2)
color: Color = Color.fixed(81)


def drawn_over(given: Sources) -> str:
    try:
        return report.render(given)
    except LabelError as error:
        return f"{error.number + 1}, {error.label.start}, {error.why.upper()}"


def number_of(edits: List[Edit]) -> int:
    try:
        return len(Report.suggest("text", edits))
    except EditError as error:
        return error.number + error.edit.start


Report("error", 5)  # type: ignore[arg-type]
Report("error", helps=[5])  # type: ignore[list-item]
Label("a", "0", 1)  # type: ignore[arg-type]
Config(color="never")  # type: ignore[arg-type]
Color.fixed("81")  # type: ignore[arg-type]
Edit(0, 1)  # type: ignore[call-arg]
Report.suggest("text", [5])  # type: ignore[list-item]
Report.suggest(5, [])  # type: ignore[arg-type]
report.render(5)  # type: ignore[arg-type]
report.print(texts, file=5)  # type: ignore[arg-type]
drawn = report.draw(texts)  # type: ignore[assignment]
