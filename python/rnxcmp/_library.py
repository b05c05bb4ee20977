"""The shared library, as include/rnxcmp.h declares it."""

from __future__ import annotations

import ctypes
import os

TYPE_CHECKING = False
if TYPE_CHECKING:
    from typing import Any, List, Tuple

GOOD, FAULT, WARNINGS, NO_ROOM, BAD_DATE, BAD_PROCESSOR, MISUSED, OUTPUT_LIMIT = range(8)
INPUT_TOO_LONG, OUT_OF_MEMORY = 2, 22
INTERFACE, READY = 2, 65536

_NAME = f"librnxcmp-{INTERFACE}.dll" if os.name == "nt" else f"librnxcmp.so.{INTERFACE}"


class Options(ctypes.Structure):
    """``rnxcmp_options``; `_options_of` sets its size."""

    _fields_ = [
        ("size", ctypes.c_size_t),
        ("every", ctypes.c_uint32),
        ("skip", ctypes.c_uint32),
        ("date", ctypes.c_char_p),
        ("max_output", ctypes.c_uint64),
    ]


class Answer(ctypes.Structure):
    """``rnxcmp_answer``."""

    _fields_ = [
        ("line", ctypes.c_uint64),
        ("output_length", ctypes.c_size_t),
        ("messages_length", ctypes.c_size_t),
        ("status", ctypes.c_uint32),
        ("code", ctypes.c_uint32),
    ]


class Handle(ctypes.Structure):
    """``rnxcmp_handle``."""

    _fields_ = [("place", ctypes.c_void_p), ("is_open", ctypes.c_ubyte)]


def _opened() -> ctypes.CDLL:
    """Loads the library that the environment variable RNXCMP_LIBRARY names, otherwise the one in this file's folder or the system's."""
    named = os.environ.get("RNXCMP_LIBRARY")
    beside = os.path.join(os.path.dirname(os.path.realpath(__file__)), _NAME)
    library = ctypes.CDLL(named or (beside if os.path.exists(beside) else _NAME))
    room: List[Any] = [ctypes.c_void_p, ctypes.c_size_t]
    content: List[Any] = [ctypes.c_void_p, ctypes.c_size_t]
    options, answer, handle = ctypes.POINTER(Options), ctypes.POINTER(Answer), ctypes.POINTER(Handle)
    calls: List[Tuple[Any, List[Any]]] = [
        (library.rnxcmp_compact, [*content, options, *room, *room, answer]),
        (library.rnxcmp_expand, [*content, options, *room, *room, answer]),
        (library.rnxcmp_check, [*content, *room, *room, answer]),
        (library.rnxcmp_open_compact, [handle, options, answer]),
        (library.rnxcmp_open_expand, [handle, options, answer]),
        (library.rnxcmp_open_check, [handle, answer]),
        (library.rnxcmp_feed, [handle, *content, ctypes.POINTER(ctypes.c_size_t), answer]),
        (library.rnxcmp_end, [handle, answer]),
        (library.rnxcmp_take, [handle, *room, *room, answer]),
    ]
    for call, arguments in calls:
        call.restype, call.argtypes = ctypes.c_int, arguments
    library.rnxcmp_close.restype, library.rnxcmp_close.argtypes = None, [handle]
    for call in (library.rnxcmp_words, library.rnxcmp_status_words):
        call.restype, call.argtypes = ctypes.c_char_p, [ctypes.c_uint32]
    library.rnxcmp_version.restype, library.rnxcmp_version.argtypes = ctypes.c_char_p, []
    return library


LIBRARY = _opened()
