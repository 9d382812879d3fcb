"""WebAssembly modules and components re-encoded with other indices, and tools over core modules, by proved code.

This package is Python over the library for C of Hyssopplinth, which it opens at the first call (`library_path` says which). It is tested,
and not proved; docs/BINDINGS.md tells of it, docs/C.md what is proved of the library's calls.

- `plain` gives the normal spelling, `rename` goes by a renaming, `answer` asks a function for each index, `visits` lists the indices.
- `renumber`, `prune`, `merge` and `calls` are tools over core modules.

Bytes are `bytes`, `bytearray`, `memoryview` or another buffer of bytes; what is no `bytes` is copied first. A `ceiling` is the most bytes
that a frame of the output may have: a section's body, a function's, a subsection's of names. Nothing is validated, and an index that
changes moves nothing.

>>> import hyssopplinth
>>> module = b"\\0asm\\1\\0\\0\\0" + bytes.fromhex("01040160000003020100070501016600000a040102000b")
>>> hyssopplinth.plain(module) == module
True
>>> hyssopplinth.rename(module, {"function": {0: 3}})[18:25].hex()
'07050101660003'
>>> hyssopplinth.answer(module, lambda space, index: index + 7)[18:25].hex()
'07050101660007'
>>> hyssopplinth.plain(b"")
Traceback (most recent call last):
...
hyssopplinth.errors.ParseError: parse error at 0
"""
from __future__ import annotations

from array import array
from typing import Any, Callable, Iterable, List, Mapping, NamedTuple, Sequence, Tuple, Union

from . import _library
from ._library import LibraryNotFound
from .errors import (ArgumentError, CodeSectionSizeError, DanglingError, Error, ExportClashError, InputError, LibraryError, MergeError,
                     MiscountedError, NonComponentError, NonCoreModuleError, OrderError, OutOfMemory, ParseError, RefusedError,
                     RenamingError, RepeatedSectionError, TooLargeError, TwoStartsError, UnevenError, error_of)
from .spaces import Kind, Section, Space, Visit, space_number
from .texts import ReadRenaming, read_order, read_renaming

__version__ = "0.3.0"
__all__ = ["NO_CEILING", "ArgumentError", "Calls", "CodeSectionSizeError", "DanglingError", "Error", "ExportClashError", "InputError",
           "Kind", "LibraryError", "LibraryNotFound", "MergeError", "MiscountedError", "NonComponentError", "NonCoreModuleError",
           "OrderError", "OutOfMemory", "ParseError", "Pruned", "ReadRenaming", "RefusedError", "RenamingError", "RepeatedSectionError",
           "Section", "Space", "TooLargeError", "TwoStartsError", "UnevenError", "Visit", "answer", "answer_all", "calls", "library_path", "merge",
           "plain", "prune", "read_order", "read_renaming", "rename", "renumber", "visits"]

NO_CEILING = 0xFFFFFFFF

_NO_ROW = 0xFFFFFFFF

Data = Union[bytes, bytearray, memoryview]
SpaceLike = Union[Space, str, int]
#: entries by their space, or one behind another, of which for one index the last counts; or what `read_renaming` gives
Renaming = Union[Mapping[Space, Mapping[int, int]], Mapping[str, Mapping[int, int]], Mapping[int, Mapping[int, int]], ReadRenaming,
                 Iterable[Tuple[SpaceLike, int, int]]]


def library_path() -> str:
    """What the shared object was opened by: a path, or a name that the system's loader found."""
    return _library.library()[0]


def _bytes(data: Data) -> bytes:
    return data if isinstance(data, bytes) else memoryview(data).tobytes()


def _ceiling(ceiling: int) -> int:
    if not 0 <= ceiling <= NO_CEILING:
        raise OverflowError(f"a ceiling is 0 to {NO_CEILING}")
    return ceiling


def _made(first: int, ceiling: int, call: Callable[[int, int, Any], int]) -> bytes:
    """The bytes that a call makes."""
    outcome, room = _library.in_room("B", first, call)
    if outcome.status:
        name = bytes(memoryview(room)[:outcome.length]) if outcome.status == _library.EXPORT_CLASH else b""
        raise error_of(outcome, ceiling, name)
    return bytes(memoryview(room)[:outcome.length])


def _some_more(length: int) -> int:
    """The first room of a call that may make the bytes longer."""
    return length + length // 8 + 64


def plain(data: Data, *, ceiling: int = NO_CEILING) -> bytes:
    """The binary in normal spelling: shortest numbers and sizes, nothing else changed. It is no longer than the input."""
    data, ceiling = _bytes(data), _ceiling(ceiling)
    raw = _library.library()[1].reencode_raw_plain
    return _made(len(data), ceiling, lambda *out: raw(data, len(data), ceiling, *out))


def rename(data: Data, renaming: Renaming, *, strict: bool = False, ceiling: int = NO_CEILING) -> bytes:
    """The binary in normal spelling, with its indices renamed: by a mapping of a space to a mapping of old to new indices, or by entries of
    a space, an index, and what becomes of it. A space is a `Space`, its name or its number.

    An index without an entry stays as it is. Where it is `strict`, one of a core module's eight spaces raises a RefusedError.
    """
    data, ceiling = _bytes(data), _ceiling(ceiling)
    if isinstance(renaming, ReadRenaming):
        renaming, strict = renaming.entries, strict or renaming.strict
    table: List[int] = []
    if isinstance(renaming, Mapping):
        for space, olds in renaming.items():
            number = space_number(space)
            for old, new in olds.items():
                table += (number, old, new)
    else:
        for space, old, new in renaming:
            table += (space_number(space), old, new)
    entries = _library.Numbers(table)
    raw = _library.library()[1].reencode_raw_rename
    return _made(_some_more(len(data)), ceiling, lambda *out: raw(data, len(data), entries.at, entries.count // 3, int(bool(strict)),
                                                                  ceiling, *out))


def _visits(data: bytes) -> array:
    """The visits, each in six numbers."""
    raw = _library.library()[1].reencode_raw_visits
    outcome, room = _library.in_room("I", len(data) // 8 + 64, lambda *out: raw(data, len(data), *out), words=6)
    if outcome.status:
        raise error_of(outcome, NO_CEILING)
    del room[6 * outcome.length:]
    return room


def visits(data: Data) -> List[Visit]:
    """The visits of the binary, in order: each occurrence of an index, and the begin and the end of each scope; each with its place.

    >>> module = b"\\0asm\\1\\0\\0\\0" + bytes.fromhex("01040160000003020100070501016600000a0601040010000b")
    >>> [(visit.section, visit.row) for visit in visits(module) if visit.space == Space.FUNCTION]
    [(<Section.EXPORT: 7>, 0), (<Section.CODE: 10>, 0)]
    """
    rows = _visits(_bytes(data))
    kinds, spaces, sections = list(Kind), list(Space), list(Section)
    return [Visit(kinds[kind], spaces[space] if kind <= 1 else None, count, index, sections[section], None if row == _NO_ROW else row)
            for kind, space, count, index, section, row in zip(*(rows[place::6] for place in range(6)))]


def answer(data: Data, ask: Callable[[Space, int], int], *, ceiling: int = NO_CEILING) -> bytes:
    """The binary in normal spelling, with each index replaced by `ask(space, index)`, which is called once for each occurrence, in order.

    The whole binary is read before the first call. What `ask` raises ends the re-encoding. An outer index, as of an alias, is asked as
    one of its space. Who wants to know the scopes answers the `visits` by `answer_all`.
    """
    data = _bytes(data)
    rows = _visits(data)
    spaces = list(Space)
    answers = array("I", [0]) * (len(rows) // 6)
    for place, (kind, space, index) in enumerate(zip(rows[0::6], rows[1::6], rows[3::6])):
        if kind <= 1:
            answers[place] = ask(spaces[space], index)
    del rows
    return answer_all(data, answers, ceiling=ceiling)


def answer_all(data: Data, answers: Iterable[int], *, ceiling: int = NO_CEILING) -> bytes:
    """The binary in normal spelling with these answers in the places of the `visits`: one for each, in order. That of a begin or an end
    of a scope is not looked at."""
    data, ceiling = _bytes(data), _ceiling(ceiling)
    numbers = _library.Numbers(answers)
    raw = _library.library()[1].reencode_raw_answer
    return _made(_some_more(len(data)), ceiling, lambda *out: raw(data, len(data), numbers.at, numbers.count, ceiling, *out))


def renumber(data: Data, order: Iterable[int], *, ceiling: int = NO_CEILING) -> bytes:
    """The core module with the functions that it defines in another order, and each use of one renamed: the j-th goes to the place
    `order[j]`, both counted from 0 behind the imported ones."""
    data, ceiling = _bytes(data), _ceiling(ceiling)
    numbers = _library.Numbers(order)
    raw = _library.library()[1].reencode_raw_renumber
    return _made(_some_more(len(data)), ceiling, lambda *out: raw(data, len(data), numbers.at, numbers.count, ceiling, *out))


class Pruned(NamedTuple):
    """A module without the functions that nothing reaches, and the defined functions that stay, by their old indices, rising."""
    data: bytes
    kept: List[int]


def prune(data: Data, *, ceiling: int = NO_CEILING) -> Pruned:
    """The core module without the defined functions that nothing reaches, from its exports, its start, its element segments and its
    initial values."""
    data, ceiling = _bytes(data), _ceiling(ceiling)
    # a function takes four bytes of a module at least
    kept = array("I", [0]) * (len(data) // 4 + 1)
    raw = _library.library()[1].reencode_raw_prune
    outcome, room = _library.in_room("B", len(data) + 64, lambda room, count, out: raw(data, len(data), ceiling, room, count,
                                                                                       kept.buffer_info()[0], len(kept), out))
    if outcome.status:
        raise error_of(outcome, ceiling)
    return Pruned(bytes(memoryview(room)[:outcome.length]), kept[:outcome.count].tolist())


def merge(first: Data, second: Data, *, ceiling: int = NO_CEILING) -> bytes:
    """One core module of two: the imports of both, then the definitions of the first and of the second. No import is resolved by an
    export."""
    first, second, ceiling = _bytes(first), _bytes(second), _ceiling(ceiling)
    raw = _library.library()[1].reencode_raw_merge
    # the first room takes each name of the second module
    return _made(_some_more(len(first) + len(second)), ceiling,
                 lambda *out: raw(first, len(first), second, len(second), ceiling, *out))


class Calls(NamedTuple):
    """Which functions a core module asks for, of each as often as it does, in order."""
    #: how many functions are imported: those of the indices below it
    imported: int
    #: the functions that an export, the start, an element segment or an initial value asks for
    roots: Sequence[int]
    #: what the body of each defined function asks for
    bodies: Sequence[Sequence[int]]


def calls(data: Data) -> Calls:
    """Which functions the core module asks for: its roots, and the body of each defined function."""
    data = _bytes(data)
    raw = _library.library()[1].reencode_raw_calls
    outcome, room = _library.in_room("I", len(data) // 4 + 64, lambda *out: raw(data, len(data), *out))
    if outcome.status:
        raise error_of(outcome, NO_CEILING)
    starts = room[1:room[1]]
    parts = [room[start:end].tolist() for start, end in zip(starts, starts[1:])]
    return Calls(room[0], parts[0], parts[1:])
