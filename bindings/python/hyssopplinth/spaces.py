"""The index spaces, and the visits."""
from __future__ import annotations

import enum
from typing import NamedTuple, Optional, Union


class Space(enum.IntEnum):
    """An index space, with the number that it has in the library for C. DATA_COUNT is the number in a data count section."""
    DATA = 0
    ELEMENT = 1
    FUNCTION = 2
    GLOBAL = 3
    MEMORY = 4
    TABLE = 5
    TAG = 6
    TYPE = 7
    DATA_COUNT = 8
    COMPONENT_TYPE = 9
    COMPONENT_INSTANCE = 10
    COMPONENT_FUNC = 11
    COMPONENT = 12
    MODULE = 13
    INSTANCE = 14
    COMPONENT_VALUE = 15

    @property
    def key(self) -> str:
        """The name of the space in a renaming and in what the program says."""
        return self.name.lower()


def space_number(space: Union[Space, str, int]) -> int:
    """The number of a space that is told by itself, by its name, or by its number."""
    if isinstance(space, str):
        try:
            return int(Space[space.upper()]) if space == space.lower() else _no_space(space)
        except KeyError:
            return _no_space(space)
    return int(space)


def _no_space(space: str) -> int:
    raise ValueError(f"no space: {space!r}")


class Kind(enum.IntEnum):
    """What is asked at a visit."""
    INDEX = 0
    #: an index of a scope further out
    OUTER = 1
    #: a scope begins: a nested module, component, or type of one or of an instance
    PUSH = 2
    #: the innermost scope ends
    POP = 3


class Section(enum.IntEnum):
    """A section of a core module, by its id."""
    CUSTOM = 0
    TYPE = 1
    IMPORT = 2
    FUNCTION = 3
    TABLE = 4
    MEMORY = 5
    GLOBAL = 6
    EXPORT = 7
    START = 8
    ELEMENT = 9
    CODE = 10
    DATA = 11
    DATA_COUNT = 12
    TAG = 13


class Visit(NamedTuple):
    """One occurrence of an index, or the begin or the end of a scope, which has no space, and 0 for its count and index; and where it
    stands.

    CUSTOM are custom sections; of a component also its own sections, and what begins and ends scopes. In a component no row is told.
    """
    kind: Kind
    space: Optional[Space]
    #: how many scopes further out
    count: int
    index: int
    section: Section
    #: the number of the row in the section, of code that of the body, from 0: None where it stands in none
    row: Optional[int]
