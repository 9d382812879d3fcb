"""A renaming and an order as JSON texts, by the rules of the program."""
from __future__ import annotations

import json
import math
import re
from typing import Any, Dict, List, NamedTuple, Optional, Union

from .errors import RenamingError
from .spaces import Space

_PLAIN = re.compile(r"0|[1-9][0-9]{0,9}\Z")
_KEYS = {space.key: space for space in Space}


class ReadRenaming(NamedTuple):
    """What a text of a renaming says."""
    entries: Dict[Space, Dict[int, int]]
    strict: bool


class _Other:
    """A number that is no whole number in plain decimals."""


def _whole(text: str) -> Union[int, _Other]:
    number = _index(text)
    return _Other() if number is None else number


def _index(text: str) -> Optional[int]:
    """The number of 32 bits that a text in plain decimals says."""
    if not _PLAIN.fullmatch(text) or int(text) >= 1 << 32:
        return None
    return int(text)


def _fraction(text: str) -> _Other:
    if not math.isfinite(float(text)):
        raise ValueError("a number out of range")
    return _Other()


def _no_constant(text: str) -> Any:
    raise ValueError(f"no JSON: {text}")


def _read(text: Union[str, bytes]) -> Any:
    try:
        said = text if isinstance(text, str) else bytes(text).decode("utf-8")
        return json.loads(said, parse_int=_whole, parse_float=_fraction, parse_constant=_no_constant)
    except (ValueError, RecursionError):
        raise RenamingError("bad renaming") from None


def _is_index(value: Any) -> bool:
    return isinstance(value, int) and not isinstance(value, bool)


def read_renaming(text: Union[str, bytes]) -> ReadRenaming:
    """The renaming of a JSON text, as docs/PROGRAM.md has it: `{"strict": false, "function": {"0": 1, "1": 0}}`. Of two equal keys the last counts.
    Any other text raises a RenamingError."""
    said = _read(text)
    if not isinstance(said, dict):
        raise RenamingError("bad renaming")
    entries: Dict[Space, Dict[int, int]] = {}
    strict = False
    for key, value in said.items():
        if key == "strict" and isinstance(value, bool):
            strict = value
        elif key in _KEYS and isinstance(value, dict):
            olds = {old: _index(old) for old in value}
            if None in olds.values() or not all(map(_is_index, value.values())):
                raise RenamingError("bad renaming")
            entries[_KEYS[key]] = {int(old): new for old, new in value.items()}
        else:
            raise RenamingError("bad renaming")
    return ReadRenaming(entries, strict)


def read_order(text: Union[str, bytes]) -> List[int]:
    """The order of a JSON text: an array of whole numbers from 0 to 2^32 - 1. Any other text raises a RenamingError."""
    said = _read(text)
    if not isinstance(said, list) or not all(map(_is_index, said)):
        raise RenamingError("bad renaming")
    return said
