"""Lines of cases, of components that are told as fields: for tools/component_cases."""
from fields import *


def renames_of(asks):
    """Another index for each, of another length or not."""
    return {(space, index): index + 57 + 70 * (SPACES.index(space) % 3) if index < 128 else index - 128 + SPACES.index(space)
            for space, index in indices_of(asks)}


def words_of(renames):
    return [f"{space}.{index}={to}" for (space, index), to in sorted(renames.items())]


def case(words, given, wanted):
    words = " ".join(["component"] + words)
    return f"{words} : {given.hex()} -> {wanted}"


def spelled(whole):
    """Another spelling becomes the one that is written."""
    return case(["counted"], whole.spell(Spelling(other=True)), f"{whole.spell(Spelling()).hex()} {counts_of(whole.asks)}")


def renamed(whole):
    renames = renames_of(whole.asks)
    return case(words_of(renames) + ["counted"], whole.spell(Spelling()),
                f"{whole.spell(Spelling(renames=renames)).hex()} {counts_of(whole.asks)}")


def both(whole):
    """Another spelling, renamed."""
    renames = renames_of(whole.asks)
    return case(words_of(renames) + ["counted"], whole.spell(Spelling(other=True)),
                f"{whole.spell(Spelling(renames=renames)).hex()} {counts_of(whole.asks)}")


def refused(whole):
    """Each index of a core space is refused where a strict renaming has those that are asked before it alone."""
    lines, known = [], []
    for i, (space, index) in enumerate(whole.asks):
        if space in CORE and (space, index) not in known:
            same = {ask: ask[1] for ask in known}
            lines.append(case(["strict"] + words_of(same) + ["counted"], whole.spell(Spelling()),
                              f"refused {space} {index} {counts_of(whole.asks[:i + 1])}"))
            known.append((space, index))
    if known:
        same = {ask: ask[1] for ask in known}
        lines.append(case(["strict"] + words_of(same) + ["counted"], whole.spell(Spelling(other=True)),
                          f"{whole.spell(Spelling()).hex()} {counts_of(whole.asks)}"))
    return lines


def ceilings(whole):
    """The largest frame is as large as the ceiling; and, by a ceiling below each frame, the first that closes above it is refused,
    where all before it is asked. The sizes are those of what is written."""
    spelling = Spelling(renames=renames_of(whole.asks))
    out, given = whole.spell(spelling), whole.spell(Spelling(other=True))
    sizes = sorted({size for size, _ in spelling.frames}, reverse=True)
    lines = [case([f"under={sizes[0]}"] + words_of(spelling.renames) + ["counted"], given, f"{out.hex()} {counts_of(whole.asks)}")]
    for ceiling in (size - 1 for size in sizes if size):
        size, asked = next(frame for frame in spelling.frames if frame[0] > ceiling)
        lines.append(case([f"under={ceiling}"] + words_of(spelling.renames) + ["counted"], given,
                          f"size {size} is too large {counts_of(whole.asks[:asked])}"))
    return lines


def nothing(place, asks, given):
    return case(["strict", "counted"], given, f"nothing at {place} {counts_of(asks)}")


def framed(number, body):
    return COMPONENT + bytes([number]) + leb(len(body), False, 0) + body


def cut(number, row):
    """A row without its last byte is none: nothing is asked."""
    body = row.spell(Spelling())
    return [nothing(8, [], framed(number, b"\1" + body[:-1]))]


def vectors(number, what, groups):
    """The cases of a section of rows."""
    lines = []
    for text, rows in groups:
        lines.append(f"# {what}: {text}")
        for row in rows:
            whole = component(section(number, vec(row)))
            lines += [spelled(whole), renamed(whole)] if row.asks else [spelled(whole)]
            lines += refused(whole) + cut(number, row)
    every = [row for _, rows in groups for row in rows]
    whole = component(section(number, vec(*every)))
    lines.append(f"# {what}: all of these rows in one section, and under a ceiling; no row; a row less and a row more than counted")
    lines += [spelled(whole), renamed(whole)] + ceilings(whole)
    lines.append(spelled(component(section(number, vec()))))
    row = every[0]
    bytes_of_row = row.spell(Spelling())
    known = words_of({ask: ask[1] for ask in indices_of(row.asks)})
    for body, asks in ((b"\2" + bytes_of_row, row.asks), (b"\1" + bytes_of_row * 2, row.asks), (b"\0" + bytes_of_row, []),
                       (b"", []), (b"\x80", [])):
        lines.append(case(known + ["counted"], framed(number, body), f"nothing at 8 {counts_of(asks)}"))
    return lines


def bad(number, what, bodies):
    """Bodies that have no reading: nothing is asked."""
    return [f"# {what}"] + [nothing(8, [], framed(number, bytes.fromhex(body))) for body in bodies]


def worked(text):
    """Cases that are written by hand: HEADER is that of a component, MODULE that of a core module."""
    return text.replace("HEADER", COMPONENT.hex()).replace("MODULE", MODULE.hex()).split("\n")
