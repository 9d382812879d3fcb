#!/usr/bin/env python3
"""Prints where a core module names its functions: by a body, an export, an element segment, and so on, a line each.

uses.py IN

code 3: 0 5 0        the body of the fourth function that the module defines calls, or refers to, function 0, then 5, and 0 again
export 1: 5          the second export is function 5
start: 2             the start stands in no row
"""
import itertools
import sys

import hyssopplinth
from hyssopplinth import Kind, Space


def uses(data):
    """The lines."""
    asks = [visit for visit in hyssopplinth.visits(data) if visit.kind == Kind.INDEX and visit.space == Space.FUNCTION]
    for (section, row), group in itertools.groupby(asks, lambda visit: (visit.section, visit.row)):
        where = section.name.lower().replace("_", " ") + ("" if row is None else f" {row}")
        yield f"{where}: " + " ".join(str(visit.index) for visit in group)


if __name__ == "__main__":
    try:
        with open(sys.argv[1], "rb") as file:
            for line in uses(file.read()):
                print(line)
    except hyssopplinth.Error as error:
        print(error, file=sys.stderr)
        sys.exit(error.status)
