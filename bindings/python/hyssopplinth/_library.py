"""The library's calls, each in room that is made for it."""
from __future__ import annotations

import ctypes
import os
import threading
from array import array
from typing import Any, Callable, Iterable, List, Optional, Tuple

NAME = "libhyssopplinth.so.1"

DONE, NO_MEMORY, TOO_SMALL, EXPORT_CLASH = 0, 1, 16, 19


class Outcome(ctypes.Structure):
    """`struct reencode_outcome`."""
    _fields_ = [("length", ctypes.c_size_t), ("place", ctypes.c_uint64), ("size", ctypes.c_uint64),
                ("status", ctypes.c_uint32), ("space", ctypes.c_uint32), ("index", ctypes.c_uint32), ("by", ctypes.c_uint32),
                ("count", ctypes.c_size_t), ("stated", ctypes.c_uint32), ("rows", ctypes.c_uint32), ("id", ctypes.c_uint32),
                ("spare", ctypes.c_uint32)]


class LibraryNotFound(ImportError):
    """The shared object was not found, or is none of this version. It is looked for at the first call."""


_SIZE, _U32, _AT = ctypes.c_size_t, ctypes.c_uint32, ctypes.c_void_p

_CALLS = {
    "reencode_raw_plain": [_AT, _SIZE, _U32, _AT, _SIZE, _AT],
    "reencode_raw_rename": [_AT, _SIZE, _AT, _SIZE, _U32, _U32, _AT, _SIZE, _AT],
    "reencode_raw_visits": [_AT, _SIZE, _AT, _SIZE, _AT],
    "reencode_raw_answer": [_AT, _SIZE, _AT, _SIZE, _U32, _AT, _SIZE, _AT],
    "reencode_raw_renumber": [_AT, _SIZE, _AT, _SIZE, _U32, _AT, _SIZE, _AT],
    "reencode_raw_prune": [_AT, _SIZE, _U32, _AT, _SIZE, _AT, _SIZE, _AT],
    "reencode_raw_merge": [_AT, _SIZE, _AT, _SIZE, _U32, _AT, _SIZE, _AT],
    "reencode_raw_calls": [_AT, _SIZE, _AT, _SIZE, _AT],
}

_lock = threading.Lock()
_found: Optional[Tuple[str, Any]] = None


def _places() -> List[str]:
    """Where the shared object is looked for, in order: in the package's folder, where the environment says, and where the system's
    loader looks."""
    beside = os.path.join(os.path.dirname(os.path.abspath(__file__)), NAME)
    said = os.environ.get("HYSSOPPLINTH_LIBRARY")
    return [*([beside] if os.path.exists(beside) else []), *([said] if said else []), NAME]


def _open() -> Tuple[str, Any]:
    wrong = []
    for place in _places():
        try:
            library = ctypes.CDLL(place)
            for name, kinds in _CALLS.items():
                call = getattr(library, name)
                call.argtypes, call.restype = kinds, _U32
            return place, library
        except (OSError, AttributeError) as why:
            wrong.append(f"{place}: {why}")
    raise LibraryNotFound(f"{NAME} was not found. `make` in bindings/c makes it; HYSSOPPLINTH_LIBRARY says where it is. "
                          + "; ".join(wrong))


def library() -> Tuple[str, Any]:
    """The shared object, by the name that it was opened by."""
    global _found
    if _found is None:
        with _lock:
            if _found is None:
                _found = _open()
    return _found


def _room(kind: str, count: int) -> array:
    """Room for so many numbers, and for one where that is none: its place is no null."""
    return array(kind, [0]) * max(count, 1)


def in_room(kind: str, first: int, call: Callable[[int, int, Any], int], words: int = 1) -> Tuple[Outcome, array]:
    """Calls with room for so many items, of so many numbers each, and once more where that was too small."""
    outcome = Outcome()
    room = _room(kind, first * words)
    call(room.buffer_info()[0], first, ctypes.byref(outcome))
    if outcome.status == TOO_SMALL:
        count = outcome.length
        del room
        room = _room(kind, count * words)
        call(room.buffer_info()[0], count, ctypes.byref(outcome))
    return outcome, room


class Numbers:
    """Numbers of 32 bits for the library: their place, which is no null also where there is none, and their count. One that is none of 0
    to 2^32 - 1 is an OverflowError, what is no whole number a TypeError."""

    def __init__(self, items: Iterable[int]) -> None:
        self.items = array("I", list(items))
        self.count = len(self.items)
        if not self.count:
            self.items.append(0)
        self.at = self.items.buffer_info()[0]


if array("I").itemsize != 4:
    raise LibraryNotFound("the library for C wants numbers of 32 bits in an array of the kind I")
