#!/usr/bin/env python3
"""Renumbers the indices of a module or component by a table of its own, as renumber.c does, from Python.

renumber.py LIBRARY plain IN OUT | rename IN OUT TABLE | answer IN OUT TABLE

LIBRARY is the path of libhyssopplinth.so.1.
"""
import ctypes
import sys

DONE, TOO_SMALL = 0, 16
INDEX, OUTER = 0, 1
NO_CEILING = 0xFFFFFFFF


class Entry(ctypes.Structure):
    _fields_ = [(name, ctypes.c_uint32) for name in ("space", "from_", "to")]


class Visit(ctypes.Structure):
    _fields_ = [(name, ctypes.c_uint32) for name in ("kind", "space", "count", "index", "section", "row")]


class Outcome(ctypes.Structure):
    _fields_ = [("length", ctypes.c_size_t), ("place", ctypes.c_uint64), ("size", ctypes.c_uint64),
                ("status", ctypes.c_uint32), ("space", ctypes.c_uint32), ("index", ctypes.c_uint32), ("by", ctypes.c_uint32),
                ("count", ctypes.c_size_t), ("stated", ctypes.c_uint32), ("rows", ctypes.c_uint32), ("id", ctypes.c_uint32),
                ("spare", ctypes.c_uint32)]


class Refused(Exception):
    """A call answered another status than 0."""


def words_of(items, kind):
    """An array of C, never empty: the library takes no null."""
    return (kind * max(len(items), 1))(*items)


class Library:
    def __init__(self, path):
        self.library = ctypes.CDLL(path)
        size, u32, at = ctypes.c_size_t, ctypes.c_uint32, ctypes.c_void_p
        self.library.reencode_raw_plain.argtypes = [at, size, u32, at, size, at]
        self.library.reencode_raw_rename.argtypes = [at, size, at, size, u32, u32, at, size, at]
        self.library.reencode_raw_visits.argtypes = [at, size, at, size, at]
        self.library.reencode_raw_answer.argtypes = [at, size, at, size, u32, at, size, at]

    def into(self, kind, first, call):
        """Calls with room for so many items, and once more where it was too small."""
        outcome, count = Outcome(), first
        while True:
            room = (kind * max(count, 1))()
            status = call(room, count, ctypes.byref(outcome))
            if status == DONE:
                return room, outcome.length
            if status != TOO_SMALL:
                raise Refused(outcome)
            count = outcome.length

    def plain(self, data):
        room, length = self.into(ctypes.c_uint8, len(data),
                                 lambda *out: self.library.reencode_raw_plain(data, len(data), NO_CEILING, *out))
        return ctypes.string_at(room, length)

    def rename(self, data, entries):
        table = words_of([Entry(*entry) for entry in entries], Entry)
        room, length = self.into(ctypes.c_uint8, len(data), lambda *out: self.library.reencode_raw_rename(
            data, len(data), table, len(entries), 0, NO_CEILING, *out))
        return ctypes.string_at(room, length)

    def answer(self, data, hook):
        """Asks the hook at each visit of an index, by its space and the index."""
        visits, count = self.into(Visit, len(data) // 8, lambda *out: self.library.reencode_raw_visits(data, len(data), *out))
        answers = words_of([hook(visit.space, visit.index) if visit.kind in (INDEX, OUTER) else 0
                            for visit in visits[:count]], ctypes.c_uint32)
        room, length = self.into(ctypes.c_uint8, len(data), lambda *out: self.library.reencode_raw_answer(
            data, len(data), answers, count, NO_CEILING, *out))
        return ctypes.string_at(room, length)


def main(path, what, source, target, table=None):
    library = Library(path)
    with open(source, "rb") as file:
        data = file.read()
    entries = []
    if table:
        with open(table) as file:
            entries = [tuple(int(word) for word in line.split()) for line in file]
    try:
        if what == "plain":
            made = library.plain(data)
        elif what == "rename":
            made = library.rename(data, entries)
        else:
            by = {(space, old): new for space, old, new in entries}
            made = library.answer(data, lambda space, index: by.get((space, index), index))
    except Refused as refused:
        outcome = refused.args[0]
        print(f"status {outcome.status} place {outcome.place} size {outcome.size}", file=sys.stderr)
        return outcome.status
    with open(target, "wb") as file:
        file.write(made)
    return 0


if __name__ == "__main__":
    sys.exit(main(*sys.argv[1:]))
