"""The shared library, and what it is handed: sewarqo.h tells each field."""

import ctypes
import ctypes.util
import os
from typing import Optional

from ._settings import NUMBERS

size = ctypes.c_size_t
u32 = ctypes.c_uint32
i32 = ctypes.c_int32
LARGEST = ctypes.c_size_t(-1).value


class CText(ctypes.Structure):
    _fields_ = [("bytes", ctypes.c_char_p), ("len", size)]


class COptional(ctypes.Structure):
    _fields_ = [("text", CText), ("is_given", u32)]


class CSource(ctypes.Structure):
    _fields_ = [("name", COptional), ("text", CText), ("line_offset", size)]


class CLabel(ctypes.Structure):
    _fields_ = [
        ("source", size), ("start", size), ("end", size), ("message", COptional), ("color", u32),
        ("order", i32), ("priority", i32),
    ]


class CReport(ctypes.Structure):
    _fields_ = [
        ("kind", u32), ("kind_color", u32), ("kind_name", CText), ("code", COptional),
        ("message", CText), ("source", size), ("start", size),
        ("labels", ctypes.POINTER(CLabel)), ("labels_len", size),
        ("helps", ctypes.POINTER(CText)), ("helps_len", size),
        ("notes", ctypes.POINTER(CText)), ("notes_len", size),
        ("flags", u32), ("attach", u32), *((name, size) for name, _, _ in NUMBERS),
    ]


class CEdit(ctypes.Structure):
    _fields_ = [("start", size), ("end", size), ("text", CText)]


class CSuggestion(ctypes.Structure):
    _fields_ = [
        ("source", CSource), ("edits", ctypes.POINTER(CEdit)), ("edits_len", size), ("flags", u32), ("tab_width", size), ("width", size),
    ]


class CLeftOut(ctypes.Structure):
    _fields_ = [("label", size), ("reason", u32)]


def _found() -> str:
    """The file of the library: the one beside this one, or the one that the system finds."""
    here = os.path.dirname(os.path.abspath(__file__))
    for folder in here, os.path.dirname(here):
        beside = os.path.join(folder, "libsewarqo.so")
        if os.path.exists(beside):
            return beside
    found = ctypes.util.find_library("sewarqo")
    if not found:
        raise OSError("libsewarqo.so was not found: SEWARQO_LIBRARY may name it")
    return found


_loaded: Optional[ctypes.CDLL] = None


def library() -> ctypes.CDLL:
    """The library, which is loaded by the first call."""
    global _loaded
    if _loaded is None:
        loaded = ctypes.CDLL(os.environ.get("SEWARQO_LIBRARY") or _found())
        loaded.sewarqo_draw.restype = u32
        loaded.sewarqo_draw.argtypes = [
            ctypes.POINTER(CReport), ctypes.POINTER(CSource), size, ctypes.c_char_p, size,
            ctypes.POINTER(size), ctypes.POINTER(CLeftOut), size, ctypes.POINTER(size),
        ]
        loaded.sewarqo_suggest.restype = u32
        loaded.sewarqo_suggest.argtypes = [
            ctypes.POINTER(CSuggestion), ctypes.c_char_p, size, ctypes.POINTER(size), ctypes.POINTER(size),
        ]
        _loaded = loaded
    return _loaded
