"""What comes of the tools over core modules by the independent reading (reader.py): functions in another order, without those that
nothing reaches, two modules in one. It is written from what docs/PROGRAM.md says of the commands, and shares nothing with the crates.

`renumber(data, order, ceiling)`, `prune(data, ceiling)` and `merge(first, second, ceiling)` give an Outcome: the status and what is
said with it, and with 0 the new module, and of `prune` the kept functions. `Parts` is a module with its rows apart.

    expected.py < crates/library_cases/stdin    holds each case of these three against it; the last line is 'N cases, M differ'
"""
import os
import sys

HERE = os.path.dirname(os.path.abspath(__file__))
sys.path.insert(0, os.path.join(os.path.dirname(HERE), "components"))
sys.dont_write_bytecode = True
from component_reader import COMPONENT, MODULE, SAID, Ordered, is_code_past_its_end  # noqa: E402
from reader import Fault, Reader, leb  # noqa: E402

MOST = 2**32 - 1
CORE = ("data", "element", "function", "global", "memory", "table", "tag", "type")
F = "function"
# The space of an import by its first byte, and the space that the rows of a section define.
IMPORTED = {0: F, 0x20: F, 1: "table", 2: "memory", 3: "global", 4: "tag"}
DEFINED = {3: F, 4: "table", 5: "memory", 6: "global", 9: "element", 11: "data", 13: "tag"}
# The order of the sections of two modules in one.
STANDARD = (1, 2, 3, 4, 5, 13, 6, 7, 8, 9, 12, 10, 11)
OF_FUNCTIONS = (1, 2, 3)


class Outcome:
    """A status, what is said with it, and with 0 the module, and of `prune` the old indices of what is kept."""

    def __init__(self, status, said="", made=None, kept=None):
        self.status, self.said, self.made, self.kept = status, said, made, kept

    def by(self, number):
        return Outcome(self.status, f"{self.said} by {number}")


class Import:
    """The two names, the kind and the type of an import, as bytes."""

    def __init__(self, module, name, entity):
        self.module, self.name, self.entity = module, name, entity

    def space(self):
        return IMPORTED[self.entity[0]]


class Parts(Reader):
    """A module, read with its rows apart, in normal spelling under answers: of each space a function from an index to a new one.
    Names of functions that `named` refuses are left out. It notes what is asked for."""

    def __init__(self, data, answers=None, named=None):
        super().__init__(data, None)
        self.answers, self.named = answers or {}, named
        # Each section with its rows; one of no rows, or of no known form, with its contents.
        self.sections, self.rows = [], {}
        self.imports_of, self.imports_listed, self.types, self.exports = dict.fromkeys(CORE, 0), [], [], []
        # The functions that are asked for, as often as they are: outside code and names, by each body, and by names.
        self.roots, self.calls, self.names_ask = [], [], []
        self.uses, self.greatest = self.roots, {}
        self.normal = self.module()

    def ask(self, space, index):
        if index > self.greatest.get(space, -1):
            self.greatest[space] = index
        if space == F:
            self.uses.append(index)
        answer = self.answers.get(space)
        return answer(index) if answer else index

    def content(self, kind):
        if kind == 0 or kind > 13 or kind in (8, 12):
            out = super().content(kind)
            self.sections.append((kind, out))
            self.rows.setdefault(kind, []).append(out)
            return out
        read, count = self.row(kind), self.number()
        rows = [read() for _ in range(count)]
        self.sections.append((kind, rows))
        self.rows.setdefault(kind, []).extend(rows)
        return leb(count) + b"".join(rows)

    def body(self):
        self.uses = []
        self.calls.append(self.uses)
        out = super().body()
        self.uses = self.roots
        return out

    def names(self):
        self.uses = self.names_ask
        out = super().names()
        self.uses = self.roots
        return out

    def subsection(self, kind):
        if kind not in OF_FUNCTIONS or not self.named:
            return super().subsection(kind)
        kept = []
        for _ in range(self.number()):
            old = self.number()
            row = leb(self.ask(F, old)) + (self.name() if kind == 1 else self.vec(lambda: self.one_name(None)))
            if self.named(old):
                kept.append(row)
        return leb(len(kept)) + b"".join(kept)

    def imported(self, module, name, entity):
        one = Import(module, name, entity)
        self.imports_listed.append(one)
        self.imports_of[one.space()] += 1

    def imports(self):
        module, name = self.name(), self.name()
        form = self.peek()
        if name != b"\0" or form not in (0x7F, 0x7E):
            entity = self.entity()
            self.imported(module, name, entity)
            return module + name + entity
        self.byte()
        entity = self.entity() if form == 0x7E else b""

        def one():
            inner = self.name()
            own = entity or self.entity()
            self.imported(module, inner, own)
            return inner if entity else inner + own
        return module + name + bytes([form]) + entity + self.vec(one)

    def sub(self):
        out = super().sub()
        self.types.append(out)
        return out

    def export(self):
        out = super().export()
        self.exports.append(Reader(out, None).text())
        return out

    def sections_of(self, kind):
        return sum(1 for one, _ in self.sections if one == kind)

    def defined(self, space):
        """How many entries of a space the module itself has."""
        return len(self.types) if space == "type" else sum(len(self.rows.get(kind, [])) for kind, one in DEFINED.items() if one == space)

    def number_of(self, space):
        return self.imports_of[space] + self.defined(space)

    def entries(self, space):
        """What stands at each index of a space: the import, or the row, of a function with its body."""
        found = [(one.module, one.name, one.entity) for one in self.imports_listed if one.space() == space]
        if space == "type":
            return found + self.types
        for kind, of in DEFINED.items():
            if of == space:
                found += zip(self.rows.get(kind, []), self.rows.get(10, [])) if space == F else self.rows.get(kind, [])
        return found


def section(kind, contents):
    return bytes([kind]) + leb(len(contents)) + contents


def vector(rows):
    return leb(len(rows)) + b"".join(rows)


def spelled(sections):
    """A module of these sections: each its id, with its rows or its contents."""
    return MODULE + b"".join(section(kind, vector(rows) if isinstance(rows, list) else rows) for kind, rows in sections)


def loosened(one, two):
    """The second of two modules without what the first forbids: a front before the names of its exports where one clashes, and no start
    where both have one. None where there is nothing to do."""
    clashes, starts = set(one.exports) & set(two.exports), one.rows.get(8) and two.rows.get(8)
    if not clashes and not starts:
        return None
    front = b"second."
    while any(front + name in one.exports for name in two.exports):
        front = b"-" + front

    def renamed(row):
        name = Reader(row, None).text()
        return leb(len(front + name)) + front + name + row[len(leb(len(name))) + len(name):]
    return spelled((kind, [renamed(row) for row in rows] if kind == 7 and clashes else rows) for kind, rows in two.sections if kind != 8 or not starts)


def no_reading(data):
    """The outcome of bytes that have no reading as a core module, or none."""
    if data[:8] == COMPONENT:
        return Outcome(8, SAID["core"])
    try:
        Reader(data, None).module()
    except Fault as fault:
        if is_code_past_its_end(data, fault.place):
            return Outcome(7, SAID["code"])
        return Outcome(5, f"parse error at {fault.place}")
    except RecursionError:
        raise Fault("too deep") from None
    return None


def read(data):
    """The parts of a module, or the outcome of bytes without a reading."""
    try:
        return Parts(data), None
    except Fault:
        return None, no_reading(data)


def first_missing(data, limits):
    """The first index in the order of visits that is not below the limit of its space."""
    log = Ordered(data, None)
    log.module()
    return next((space, index) for space, index in log.log if space in limits and index >= limits[space])


def is_past(parts, limits):
    return any(parts.greatest.get(space, -1) >= limit for space, limit in limits.items())


def too_large(made, ceiling):
    """The outcome of a module with a frame above the ceiling, or none."""
    if ceiling >= MOST:
        return None
    frames = Ordered(made, None)
    frames.module()
    for size, _ in frames.frames:
        if size > ceiling:
            return Outcome(10, f"too large: {size} over {ceiling}")
    return None


def is_uneven_or_repeated(parts):
    for kind in (3, 10):
        if parts.sections_of(kind) > 1:
            return Outcome(16, f"repeated section {kind}")
    functions, bodies = len(parts.rows.get(3, [])), len(parts.rows.get(10, []))
    return Outcome(15, f"uneven: {functions} and {bodies}") if functions != bodies else None


def order_fault(order, count):
    """The first place by which an order is none of so many functions, or none."""
    seen = set()
    for place, number in enumerate(order):
        if number >= count or number in seen:
            return place
        seen.add(number)
    return len(order) if len(order) < count else None


def arranged(parts, functions):
    """The module with these of its functions, in this order."""
    return spelled((kind, [rows[one] for one in functions] if kind in (3, 10) else rows) for kind, rows in parts.sections)


def renumber(data, order, ceiling=MOST, parts=None):
    """The module whose defined function j is at order[j]."""
    parts, fault = (parts, None) if parts else read(data)
    fault = fault or is_uneven_or_repeated(parts)
    if fault:
        return fault
    count, first = len(parts.rows.get(3, [])), parts.imports_of[F]
    place = order_fault(order, count)
    if place is not None:
        return Outcome(17, f"not an order at {place}")
    moved = Parts(data, {F: lambda index: first + order[index - first] if first <= index < first + count else index})
    sources = [0] * count
    for old, new in enumerate(order):
        sources[new] = old
    made = arranged(moved, sources)
    return too_large(made, ceiling) or Outcome(0, made=made)


def reached(parts):
    """The functions that are reached from the roots, through bodies."""
    first, found, left = parts.imports_of[F], set(parts.roots), list(parts.roots)
    while left:
        one = left.pop() - first
        for other in parts.calls[one] if one >= 0 else ():
            if other not in found:
                found.add(other)
                left.append(other)
    return found


def prune(data, ceiling=MOST, parts=None):
    """The module without the defined functions that nothing reaches, and the old indices of the others."""
    parts, fault = (parts, None) if parts else read(data)
    fault = fault or is_uneven_or_repeated(parts)
    if fault:
        return fault
    count, first = len(parts.rows.get(3, [])), parts.imports_of[F]
    if is_past(parts, {F: first + count}):
        return Outcome(18, "dangling {} {}".format(*first_missing(data, {F: first + count})))
    found = reached(parts)
    kept = [one for one in range(count) if first + one in found]
    place = {old: new for new, old in enumerate(kept)}

    def new(index):
        return index if index < first else first + place.get(index - first, 0)
    left = Parts(data, {F: new}, lambda index: index < first or index - first in place)
    made = arranged(left, kept)
    return too_large(made, ceiling) or Outcome(0, made=made, kept=[first + one for one in kept])


def of_one(data, parts):
    """What is refused of one of two modules, and its parts."""
    parts, fault = (parts, None) if parts else read(data)
    if fault:
        return None, fault
    for kind in range(1, 14):
        if parts.sections_of(kind) > 1:
            return None, Outcome(16, f"repeated section {kind}")
    functions, bodies = len(parts.rows.get(3, [])), len(parts.rows.get(10, []))
    if functions != bodies:
        return None, Outcome(15, f"uneven: {functions} and {bodies}")
    segments, told = len(parts.rows.get(11, [])), parts.rows.get(12)
    if told and Reader(told[0], None).number() != segments:
        return None, Outcome(15, f"uneven: {Reader(told[0], None).number()} and {segments}")
    limits = {space: parts.number_of(space) for space in CORE}
    if is_past(parts, limits):
        return None, Outcome(18, "dangling {} {}".format(*first_missing(data, limits)))
    return parts, None


def answers(one, two):
    """The new indices of the first's entries and of the second's, by space."""
    def of_space(space):
        m, n, k = one.imports_of[space], two.imports_of[space], one.defined(space)
        return (lambda index: index if index < m else index + n), (lambda index: index + m if index < n else index + m + k)
    pairs = {space: of_space(space) for space in CORE}
    return {space: pair[0] for space, pair in pairs.items()}, {space: pair[1] for space, pair in pairs.items()}


def merge(first, second, ceiling=MOST, parts=(None, None)):
    """The two modules in one."""
    one, fault = of_one(first, parts[0])
    if fault:
        return fault.by(1)
    two, fault = of_one(second, parts[1])
    if fault:
        return fault.by(2)
    if one.rows.get(8) and two.rows.get(8):
        return Outcome(20, "two starts")
    taken = set(one.exports)
    clash = next((name for name in two.exports if name in taken), None)
    if clash is not None:
        return Outcome(19, "export clash " + clash.decode())
    ways = answers(one, two)
    both = [Parts(data, way) for data, way in zip((first, second), ways)]
    sections = []
    for kind in STANDARD:
        if any(each.sections_of(kind) for each in both):
            rows = [row for each in both for row in each.rows.get(kind, [])]
            segments = leb(sum(len(each.rows.get(11, [])) for each in both))
            sections.append((kind, rows[0] if kind == 8 else segments if kind == 12 else rows))
    made = spelled(sections + [(kind, contents) for each in both for kind, contents in each.sections if kind == 0 or kind > 13])
    return too_large(made, ceiling) or Outcome(0, made=made)


# The cases.

def told(outcome, ceiling):
    """An outcome as the cases say it."""
    said = outcome.said
    if said.startswith("parse error"):
        return "nothing" + said[len("parse error"):]
    if outcome.status == 10:
        return f"size {said.split()[2]} is too large"
    return said if outcome.status else " ".join([outcome.made.hex(), *(["kept", *map(str, outcome.kept)] if outcome.kept is not None else [])])


def of_case(words, given):
    ceiling = next((int(word[6:]) for word in words if word.startswith("under=")), MOST)
    numbers = [int(word) for word in words[1:] if "=" not in word]
    data = [bytes.fromhex("".join(part.split())) for part in given.split("+")]
    outcome = {"renumber": lambda: renumber(data[0], numbers, ceiling), "prune": lambda: prune(data[0], ceiling), "merge": lambda: merge(*data, ceiling)}[words[0]]()
    return told(outcome, ceiling).strip()


def main():
    cases = differ = 0
    for line in sys.stdin:
        front, _, wanted = line.rstrip("\n").partition(" -> ")
        words, _, given = front.partition(" : ")
        words = words.split()
        if words[:1] not in (["renumber"], ["prune"], ["merge"]):
            continue
        cases += 1
        came = of_case(words, given)
        if came != wanted.strip():
            differ += 1
            print(f"{line.strip()[:300]}\n  {came[:300]}")
    print(f"{cases} cases, {differ} differ")
    return differ > 0


if __name__ == "__main__":
    sys.exit(main())
