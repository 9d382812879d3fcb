"""Runs cases through the package, as bindings/c/test/test.c does through the library for C: tools/check_bindings reads what it prints.

python cases.py cases < LINES

A line is CALL CEILING STRICT ENTRIES HEX, and what comes of it a line of the status, the length, the place, the size, the space, the
index, the module, the count, the stated number, the rows, the id, and the output, as the head of test.c says.
"""
import sys

import hyssopplinth as h


def bytes_of(word):
    if word.startswith("@"):
        with open(word[1:], "rb") as file:
            return file.read()
    return bytes.fromhex("" if word == "-" else word)


def numbers(text, mark=","):
    return [] if text == "-" else [int(word) for word in text.split(mark)]


def listed(items):
    return ",".join(map(str, items))


def shown(visit):
    row = 0xFFFFFFFF if visit.row is None else visit.row
    return f"{visit.kind:d}:{visit.space or 0:d}:{visit.count}:{visit.index}:{visit.section:d}:{row}"


def by_table(data, entries, ceiling):
    """By a table at each index: by a function, and by answers to the visits that are listed, of which one more is refused."""
    table = {entry[:2]: entry[2] for entry in entries}

    def ask(space, index):
        return table.get((space, index), index)
    try:
        made = h.answer(data, ask, ceiling=ceiling)
    finally:
        try:
            rows = h.visits(data)
        except h.Error:
            rows = None
    answers = [ask(row.space, row.index) if row.space is not None else 0 for row in rows]
    assert h.answer_all(data, answers, ceiling=ceiling) == made
    try:
        h.answer_all(data, [*answers, 0], ceiling=ceiling)
        raise AssertionError("one answer more")
    except h.MiscountedError as error:
        assert error.wanted == len(answers)
    return made


def run(call, ceiling, strict, entries, word):
    """The length, the count, and the output."""
    first, _, second = word.partition("+")
    data = bytes_of(first)
    table = [tuple(numbers(row, ":")) for row in entries.split(",")] if entries != "-" and call in ("rename", "answer") else []
    if call == "calls":
        it = h.calls(data)
        rows = [it.roots, *it.bodies]
        starts = [len(rows) + 2]
        for row in rows:
            starts.append(starts[-1] + len(row))
        made = [it.imported, *starts, *(index for row in rows for index in row)]
        return len(made), 0, listed(made)
    if call == "visits":
        rows = h.visits(data)
        return len(rows), 0, ",".join(shown(row) for row in rows)
    if call == "plain":
        made = h.plain(data, ceiling=ceiling)
    elif call == "rename":
        made = h.rename(data, table, strict=strict, ceiling=ceiling)
    elif call == "answer":
        made = by_table(data, table, ceiling)
    elif call == "renumber":
        made = h.renumber(data, numbers(entries), ceiling=ceiling)
    elif call == "prune":
        made, functions = h.prune(data, ceiling=ceiling)
        return len(made), len(functions), f"{made.hex()}:{listed(functions)}"
    else:
        made = h.merge(data, bytes_of(second), ceiling=ceiling)
    return len(made), 0, made.hex()


def main():
    for line in sys.stdin:
        call, ceiling, strict, entries, word = line.split()
        try:
            length, count, made = run(call, int(ceiling), strict == "1", entries, word)
            print(0, length, 0, 0, 0, 0, 0, count, 0, 0, 0, made or "-")
        except h.Error as e:
            name = (e.name or "").encode()
            told = [e.place, e.size, e.space, e.index, e.by, 0, e.stated, e.rows, e.id]
            print(e.status, len(name), *(int(number or 0) for number in told), name.hex() or "-")


if __name__ == "__main__":
    main()
