"""The command: from file to file. `python -m hyssopplinth --help` tells of it."""
from __future__ import annotations

import argparse
import os
import stat
import sys
import tempfile
from typing import List, Optional, Tuple

from . import NO_CEILING, LibraryNotFound, library_path, merge, plain, prune, rename, renumber
from .errors import Error
from .texts import read_order, read_renaming

USAGE = """\
python -m hyssopplinth [plain] IN -o OUT                           no index is renamed: the binary's normal spelling
python -m hyssopplinth [rename] IN -o OUT --map FILE [--strict]    the indices are renamed as the JSON file says
python -m hyssopplinth renumber IN -o OUT --order FILE             the defined functions of a core module are moved as the JSON array says
python -m hyssopplinth prune IN -o OUT                             those that nothing reaches are removed; the kept ones are printed
python -m hyssopplinth merge IN SECOND -o OUT                      one core module of two"""

HELP = f"""\
Re-encodes a WebAssembly core module or component, from file to file.

{USAGE}

  -o OUT, --out OUT     where the binary goes; with a status other than 0 it stays as it was
  -m N, --ceiling N     the most bytes that a section or a function of the output may have
  --strict              an index of a core module without an entry is refused, whatever the file says

`-` is a standard stream: for OUT the output, for one of the others the input. With OUT `-` the kept functions go to standard error.
A renaming, an order, and the statuses are those of the program; 125 says that the library was not found."""

COMMANDS = ("plain", "rename", "renumber", "prune", "merge")
READ_FAULT, WRITE_FAULT, SHELF_FAULT = (3, "read fault"), (4, "write fault"), (12, "shelf fault")


class Fault(Exception):
    """A status of the command's own, and what it says."""


def _words(given: List[str]) -> Tuple[str, argparse.Namespace]:
    command = given[0] if given and given[0] in COMMANDS else ""
    parser = argparse.ArgumentParser(prog="python -m hyssopplinth", usage=USAGE.replace("\npython", "\n       python"), add_help=False,
                                     allow_abbrev=False)
    parser.add_argument("input")
    if command == "merge":
        parser.add_argument("second")
    parser.add_argument("-o", "--out", required=True)
    parser.add_argument("-m", "--ceiling", default=str(NO_CEILING))
    if command in ("", "rename"):
        parser.add_argument("--map", required=command == "rename")
        parser.add_argument("--strict", action="store_true")
    if command == "renumber":
        parser.add_argument("--order", required=True)
    words = parser.parse_args(given[1:] if command else given)
    if not (words.ceiling.isascii() and words.ceiling.isdigit() and str(int(words.ceiling)) == words.ceiling
            and int(words.ceiling) <= NO_CEILING):
        parser.error(f"a ceiling is 0 to {NO_CEILING}")
    if not command:
        if words.strict and words.map is None:
            parser.error("--strict goes with --map")
        command = "plain" if words.map is None else "rename"
    read = [words.input, *(getattr(words, name, None) for name in ("second", "map", "order"))]
    if read.count("-") > 1:
        parser.error("standard input can be read once")
    return command, words


def _read(path: str, fault: Tuple[int, str]) -> bytes:
    try:
        with open(0 if path == "-" else path, "rb", closefd=path != "-") as file:
            return file.read()
    except OSError:
        raise Fault(*fault) from None


def _write_all(number: int, data: bytes) -> None:
    rest = memoryview(data)
    while rest:
        rest = rest[os.write(number, rest):]


def _mode(path: str) -> int:
    """The mode that a file is to have that takes the place of another, or stands there first."""
    try:
        return stat.S_IMODE(os.stat(path).st_mode)
    except FileNotFoundError:
        mask = os.umask(0)
        os.umask(mask)
        return 0o666 & ~mask


def _put(path: str, data: bytes) -> None:
    """Writes a file whole or not at all: beside it, and then in its place. What is no plain file is written into."""
    path = os.path.realpath(path)
    if os.path.exists(path) and not os.path.isfile(path):
        number = os.open(path, os.O_WRONLY)
        try:
            _write_all(number, data)
        finally:
            os.close(number)
        return
    folder, name = os.path.split(path)
    number, beside = tempfile.mkstemp(prefix=f".{name[:100]}.", dir=folder)
    try:
        try:
            _write_all(number, data)
            os.fchmod(number, _mode(path))
        finally:
            os.close(number)
        os.replace(beside, path)
    except BaseException:
        os.unlink(beside)
        raise


def _run(command: str, words: argparse.Namespace) -> Tuple[bytes, str]:
    """The output, and the line that is printed beside it. What is found first is a FILE, then the input, then the rest."""
    ceiling = int(words.ceiling)
    if command == "plain":
        return plain(_read(words.input, READ_FAULT), ceiling=ceiling), ""
    if command == "rename":
        renaming = read_renaming(_read(words.map, SHELF_FAULT))
        return rename(_read(words.input, READ_FAULT), renaming, strict=words.strict, ceiling=ceiling), ""
    if command == "renumber":
        order = read_order(_read(words.order, SHELF_FAULT))
        return renumber(_read(words.input, READ_FAULT), order, ceiling=ceiling), ""
    if command == "prune":
        made, kept = prune(_read(words.input, READ_FAULT), ceiling=ceiling)
        return made, " ".join(["kept", *map(str, kept)]) + "\n"
    second = _read(words.second, SHELF_FAULT)
    return merge(_read(words.input, READ_FAULT), second, ceiling=ceiling), ""


def main(given: Optional[List[str]] = None) -> int:
    given = sys.argv[1:] if given is None else given
    if {"-h", "--help"} & set(given):
        print(HELP)
        return 0
    command, words = _words(given)
    try:
        library_path()
        made, line = _run(command, words)
        try:
            _write_all(2 if words.out == "-" else 1, line.encode())
            if words.out == "-":
                _write_all(1, made)
            else:
                _put(words.out, made)
        except OSError:
            raise Fault(*WRITE_FAULT) from None
        return 0
    except LibraryNotFound as why:
        return _say(125, str(why))
    except Fault as fault:
        return _say(*fault.args)
    except Error as error:
        return _say(error.exit_status, str(error))
    except MemoryError:
        return _say(1, "no memory")


def _say(status: int, text: str) -> int:
    try:
        _write_all(2, (text + "\n").encode())
    except OSError:
        pass
    return status


if __name__ == "__main__":
    sys.exit(main())
