"""Suggestions: the text of a help that shows edits of a source."""

import ctypes
from typing import Iterable, List, Union

from ._call import (
    BUFFER_TOO_SMALL, BYTE_OFFSETS, NO_MEMORY, SOURCE_FAULTS, c_text, flags_of, integer, listed, one_source, sizes,
    surrogate,
)
from ._errors import EditError, ReportError, SourceError
from ._library import LARGEST, CEdit, CSuggestion, library, size
from ._parts import Edit, Source, Text
from ._settings import Config

_EDIT_FAULTS = {
    20: "its text is not UTF-8", 21: "it ends before it starts",
    22: "it starts before the end of the edit in front of it", 23: "it reaches past the source",
    24: "one of its ends is inside a character",
}


def suggested(source: Union[Text, Source], edits: Iterable[Edit], config: Config) -> str:
    """The text of the help. The call is made again where the buffer was too short for it."""
    listed_edits: List[Edit] = listed(edits, "edits")
    given = [_edit(number, edit) for number, edit in enumerate(listed_edits)]
    counts_bytes = isinstance(source.text if isinstance(source, Source) else source, bytes)
    tab_width, _, width = sizes(config)
    asked = CSuggestion(
        one_source(source), (CEdit * len(given))(*given), len(given), flags_of(config) | BYTE_OFFSETS * counts_bytes,
        tab_width, width)
    length, count = size(), size()
    room = 1024
    while True:
        out = ctypes.create_string_buffer(room)
        status = library().sewarqo_suggest(
            ctypes.byref(asked), out, room, ctypes.byref(length), ctypes.byref(count))
        if status != BUFFER_TOO_SMALL:
            break
        room = length.value
    if status:
        raise _error(status, count.value, listed_edits)
    return out.raw[:length.value].decode()


def _edit(number: int, edit: Edit) -> CEdit:
    """The edit with this number as the library is handed it."""
    try:
        if not isinstance(edit, Edit):
            raise TypeError(f"{edit!r} is no Edit")
        start, end = integer(edit.start, "start"), integer(edit.end, "end")
        if not (0 <= start <= LARGEST and 0 <= end <= LARGEST):
            raise EditError(f"{start} to {end} is no piece of a text", number, edit)
        return CEdit(start, end, c_text(edit.text, "text"))
    except UnicodeEncodeError as error:
        raise EditError(surrogate(error), number, edit) from None
    except TypeError as error:
        raise TypeError(f"edit {number}: {error}") from None


def _error(status: int, number: int, edits: List[Edit]) -> Exception:
    """The exception for the status of an error."""
    if status == NO_MEMORY:
        return MemoryError("there was no memory for the suggestion")
    if status in SOURCE_FAULTS:
        return SourceError(SOURCE_FAULTS[status], None)
    if status in _EDIT_FAULTS:
        return EditError(_EDIT_FAULTS[status], number, edits[number])
    return ReportError(f"the suggestion is faulty (status {status})", "config")
