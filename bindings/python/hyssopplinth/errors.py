"""What a call raises: a class for each status, below one for each family."""
from __future__ import annotations

from typing import Dict, Optional, Type, Union

from ._library import Outcome
from .spaces import Space


class Error(Exception):
    """A call gave no output. The text is what the program says.

    `status` is that of the library for C, `exit_status` the program's, which differs in 115 and 116: these are its 15 and 16. What an
    error has no number for is None.
    """
    status: int = 0
    place: Optional[int] = None
    size: Optional[int] = None
    ceiling: Optional[int] = None
    space: Optional[Union[Space, int]] = None
    index: Optional[int] = None
    wanted: Optional[int] = None
    name: Optional[str] = None
    stated: Optional[int] = None
    rows: Optional[int] = None
    id: Optional[int] = None
    #: with `merge`, which of the two modules is refused: 1 or 2
    by: Optional[int] = None

    def __init__(self, text: str, **numbers: object) -> None:
        super().__init__(text)
        for key, number in numbers.items():
            setattr(self, key, number)

    def __reduce__(self):  # type: ignore[no-untyped-def]
        return _again, (type(self), str(self), dict(self.__dict__))

    @property
    def exit_status(self) -> int:
        return {115: 15, 116: 16}.get(self.status, self.status)


def _again(kind: Type[Error], text: str, numbers: Dict[str, object]) -> Error:
    return kind(text, **numbers)


# ---- The families.

class InputError(Error, ValueError):
    """The bytes are none that are taken: 5, 7, 8, 9, 18, 115, 116."""


class ArgumentError(Error, ValueError):
    """What is handed in beside the bytes is none that is taken: 11, 15, 17."""


class RefusedError(Error, LookupError):
    """A strict renaming has no entry for an index: `space`, `index` (6)."""
    status = 6


class TooLargeError(Error):
    """The first frame of the output above the ceiling has `size` bytes: `size`, `ceiling` (10)."""
    status = 10


class MergeError(Error):
    """Two modules are none that make one: 19, 20."""


class OutOfMemory(Error, MemoryError):
    """Out of memory (1)."""
    status = 1


class LibraryError(Error):
    """The library answers what it never does: it is of another version."""


# ---- The statuses.

class ParseError(InputError):
    """The bytes have no reading: `place` is that of the first section without one, at its id, or 0 (5)."""
    status = 5


class CodeSectionSizeError(InputError):
    """A code section states a size that passes the end (7)."""
    status = 7


class NonCoreModuleError(InputError):
    """The header of a component stands where a core module is taken (8)."""
    status = 8


class NonComponentError(InputError):
    """The header of a core module stands where a component is taken (9)."""
    status = 9


class DanglingError(InputError):
    """A module names an index that is not there: `space`, `index` (18)."""
    status = 18


class UnevenError(InputError):
    """A module states so many functions, or data segments, and has others: `stated`, `rows` (115)."""
    status = 115


class RepeatedSectionError(InputError):
    """A module has two sections with an id: `id` (116)."""
    status = 116


class RenamingError(ArgumentError):
    """An entry's space is none: `place`, `space`, `index`; or a text says no renaming, or no order (11)."""
    status = 11


class MiscountedError(ArgumentError):
    """There are more or fewer answers than visits: `wanted` (15)."""
    status = 15


class OrderError(ArgumentError):
    """The order is no permutation: `place` of the first number that is too great or stood before, is missing or too many (17)."""
    status = 17


class ExportClashError(MergeError):
    """Both modules export a name: `name` (19)."""
    status = 19


class TwoStartsError(MergeError):
    """Both modules have a start (20)."""
    status = 20


def error_of(outcome: Outcome, ceiling: int, name: bytes = b"") -> Error:
    """What an outcome says whose status is not 0."""
    status, index = outcome.status, outcome.index
    by: Dict[str, object] = {"by": outcome.by} if outcome.by else {}
    text_by = f" by {outcome.by}" if outcome.by else ""
    space = Space(outcome.space) if outcome.space < len(Space) else outcome.space
    key = space.key if isinstance(space, Space) else "no space"
    if status == 1:
        return OutOfMemory("no memory")
    if status == 5:
        return ParseError(f"parse error at {outcome.place}{text_by}", place=outcome.place, **by)
    if status == 6:
        return RefusedError(f"refused {key} {index}", space=space, index=index)
    if status == 7:
        return CodeSectionSizeError(f"invalid code section size{text_by}", **by)
    if status == 8:
        return NonCoreModuleError(f"There was a section that does not belong in a core wasm module{text_by}", **by)
    if status == 9:
        return NonComponentError("There was a section that does not belong in a component")
    if status == 10:
        return TooLargeError(f"too large: {outcome.size} over {ceiling}", size=outcome.size, ceiling=ceiling)
    if status == 11:
        return RenamingError("bad renaming", place=outcome.place, space=space, index=index)
    if status == 15:
        return MiscountedError(f"wrong number of answers: {outcome.length} are wanted", wanted=outcome.length)
    if status == 17:
        return OrderError(f"not an order at {outcome.place}", place=outcome.place)
    if status == 18:
        return DanglingError(f"dangling {key} {index}{text_by}", space=space, index=index, **by)
    if status == 19:
        said = name.decode("utf-8", "replace")
        return ExportClashError(f"export clash {said}", name=said)
    if status == 20:
        return TwoStartsError("two starts")
    if status == 115:
        return UnevenError(f"uneven: {outcome.stated} and {outcome.rows}{text_by}", stated=outcome.stated, rows=outcome.rows, **by)
    if status == 116:
        return RepeatedSectionError(f"repeated section {outcome.id}{text_by}", id=outcome.id, **by)
    return LibraryError(f"unknown status {status}", status=status)
