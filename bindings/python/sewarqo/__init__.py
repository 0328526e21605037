"""Compiler diagnostics, drawn over their sources.

>>> text = "apple == orange;"
>>> report = Report("error", "can't compare apples with oranges", labels=[
...     Label("main.fruit", 0, 5, "This is an apple"),
...     Label("main.fruit", 9, 15, "This is an orange"),
... ])
>>> print(report.render({"main.fruit": text}, Config(color=False, ascii=True)), end="")
Error: can't compare apples with oranges
   ,-[ main.fruit:1:1 ]
   |
 1 | apple == orange;
   | ^^|^^    ^^^|^^ \x20
   |   `-------------- This is an apple
   |             |   \x20
   |             `---- This is an orange
---'

Offsets count from 0, and the end of a label is exclusive. Over sources of type `str` they count
characters, over sources of type `bytes` (in UTF-8) they count bytes. Whatever the texts hold, a picture
has no escapes but the library's, for a terminal that reads UTF-8: the characters that SAFE.md lists have
replacement symbols. With `Config(safe=False)` texts are drawn as they are.

The package needs the shared library libsewarqo.so: the one that the environment variable
SEWARQO_LIBRARY names, or the one in its folder or beside that, or the one that the system finds. It works
with Python 3.8 and later, needs nothing else, and may be called from any number of threads.
"""

from ._color import Color
from ._errors import EditError, LabelError, ReportError, SewarqoError, SourceError
from ._offset import offset
from ._parts import Edit, Label, LeftOut, Picture, Source, Sources
from ._report import Report
from ._settings import Config

__all__ = [
    "Color", "Config", "Edit", "EditError", "Label", "LabelError", "LeftOut", "Picture", "Report", "ReportError",
    "SewarqoError", "Source", "SourceError", "Sources", "__version__", "offset",
]
__version__ = "0.6.0"

# (Names are those by which they are imported, in tracebacks and in what is pickled.)
for _it in (
    Color, Config, Edit, EditError, Label, LabelError, LeftOut, Picture, Report, ReportError, SewarqoError, Source,
    SourceError, offset,
):
    _it.__module__ = __name__
