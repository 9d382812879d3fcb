"""Core modules with some of each section, for the tools over core modules: functions that call each other, exports, a start, elements,
names. By a random number generator they differ from each other; nearly all of their indices are there."""
from made import Mixed, constant, function_type, load, segment
from fields import *

VALUES = [fixed("7f"), fixed("7e"), fixed("7d"), fixed("7c"), fixed("70", "6370")]
NAMES = ["", "f", "g", "main", "memory", "run", "a.b", "_start", "table", "naïve", "x" * 130, "tag", *(f"e{i}" for i in range(60))]
IMPORT_KINDS = [("function", 0), ("table", 1), ("memory", 2), ("global", 3), ("tag", 4)]


class Made:
    """A module in the making: how many entries each space has, and what is chosen."""

    def __init__(self, chance):
        self.chance = chance
        self.numbers = dict.fromkeys(CORE, 0)

    def some(self, most):
        return self.chance.randrange(most + 1)

    def maybe(self, often=0.5):
        return self.chance.random() < often

    def index(self, space):
        """An index that is there, but for some; nothing where there is none."""
        if not self.numbers[space] and not self.maybe(0.005):
            return None
        past = self.maybe(0.003)
        return ix(space, self.numbers[space] + self.some(2) if past else self.chance.randrange(max(1, self.numbers[space])))

    def among(self, space, front, *behind):
        """A part with an index of this space, where there is one."""
        index = self.index(space)
        return [seq(fixed(front), index, *behind)] if index else []

    def entity(self, kind):
        if kind in (0, 4):
            return self.among("type", "00" if kind == 0 else "0400")
        return [{1: seq(fixed("01"), fixed("70", "6370"), fixed("00"), num(self.some(9))), 2: seq(fixed("02"), fixed("00"), num(self.some(3))),
                 3: seq(fixed("03"), self.chance.choice(VALUES[:4]), fixed(self.chance.choice(["00", "01"])))}[kind]]

    def types(self):
        rows = []
        for _ in range(self.some(4)):
            plain = [function_type([self.chance.choice(VALUES) for _ in range(self.some(3))], [self.chance.choice(VALUES) for _ in range(self.some(2))]) for _ in range(1 + self.some(2))]
            in_group = self.maybe(0.2)
            rows += [seq(fixed("4e"), vec(*map(sub_final, plain)))] if in_group else map(sub_final, plain)
            self.numbers["type"] += len(plain)
        return vec(*rows)

    def imports(self):
        rows = []
        for _ in range(self.some(4)):
            space, kind = self.chance.choice(IMPORT_KINDS)
            entity, compact = self.entity(kind), self.some(6)
            if not entity:
                continue
            names = [name(self.chance.choice(NAMES)) for _ in range(self.some(3))]
            if compact == 0:
                rows.append(seq(name("m"), name(""), fixed("7e"), entity[0], vec(*names)))
            elif compact == 1:
                rows.append(seq(name("m"), name(""), fixed("7f"), vec(*[seq(one, entity[0]) for one in names])))
            else:
                names = [name("n")]
                rows.append(seq(name("m"), names[0], entity[0]))
            self.numbers[space] += len(names)
        return vec(*rows)

    def value(self):
        """The value of a constant expression."""
        return self.chance.choice([[constant(self.some(300))], self.among("function", "d2"), self.among("global", "23")] + [[constant(7)]] * 3) or [constant(0)]

    def globals(self, count):
        rows = [seq(self.chance.choice(VALUES), fixed("00"), *self.value(), fixed("0b")) for _ in range(count)]
        return vec(*rows)

    def exports(self):
        rows = []
        for text in self.chance.sample(NAMES, self.some(5)):
            space, kind = self.chance.choice(IMPORT_KINDS)
            index = self.index(space)
            if index:
                rows.append(seq(name(text), fixed("00", "20") if kind == 0 else fixed(f"{kind:02x}"), index))
        return vec(*rows)

    def functions(self):
        return vec(*[one for one in (self.index("function") for _ in range(self.some(3))) if one])

    def expressions(self):
        return vec(*[seq(*one, fixed("0b")) for one in (self.among("function", "d2") for _ in range(self.some(3))) if one])

    def element(self):
        place, table = seq(constant(self.some(9)), fixed("0b")), self.index("table")
        passive = [seq(num(1), fixed("00"), self.functions()), seq(num(3), fixed("00"), self.functions()), seq(num(5), fixed("70"), self.expressions()),
                   seq(num(7), fixed("70"), self.expressions())]
        # The order in which indices are asked for doesn't matter here.
        active = [seq(num(0), place, self.functions()), seq(num(4), place, self.expressions()), seq(num(2), table, place, fixed("00"), self.functions()),
                  seq(num(6), table, place, fixed("70"), self.expressions())] if table else []
        return self.chance.choice(passive + active)

    def data(self):
        contents = bytes(self.some(255) for _ in range(self.some(6)))
        if self.numbers["memory"] and self.maybe():
            return segment(self.chance.randrange(self.numbers["memory"]), self.some(99), contents)
        return seq(num(1), num(len(contents)), fixed(contents.hex()))

    def operators(self):
        found = []
        for _ in range(self.some(5)):
            memory = self.chance.randrange(self.numbers["memory"]) if self.numbers["memory"] else None
            found += self.chance.choice([
                *[self.among("function", "10")] * 4, self.among("function", "12"), self.among("function", "d2", fixed("1a")), [constant(self.some(99)), fixed("1a")],
                self.among("global", "23", fixed("1a")), self.among("type", "11", ix("table", 0)) if self.numbers["table"] else [], self.among("tag", "08"),
                [seq(fixed("02"), sx("type", 0), fixed("0b"))] if self.numbers["type"] else [], [constant(0), load(0x28, memory, 2, self.some(200)), fixed("1a")] if memory is not None else [],
                self.among("data", "fc09"), self.among("element", "fc0d"), self.among("table", "25", fixed("1a"))])
        return found

    def body(self):
        locals_ = [seq(num(1 + self.some(3)), self.chance.choice(VALUES)) for _ in range(self.some(2))]
        return sized(seq(vec(*locals_), *self.operators(), fixed("0b")))

    def names(self):
        parts = []

        def naming(space):
            return [seq(ix(space, index), name(self.chance.choice(NAMES))) for index in range(self.numbers[space]) if self.maybe()]
        if self.maybe(0.3):
            parts.append(seq(fixed("00"), sized(name("module"))))
        for number, space in ((1, "function"), (4, "type"), (7, "global"), (9, "data")):
            if self.maybe():
                parts.append(seq(fixed(f"{number:02x}"), sized(vec(*naming(space)))))
        for number in (2, 3):
            if self.maybe():
                inside = [seq(ix("function", index), vec(*[seq(num(i), name("l")) for i in range(self.some(2))])) for index in range(self.numbers["function"]) if self.maybe()]
                parts.append(seq(fixed(f"{number:02x}"), sized(vec(*inside))))
        return custom("name", seq(*parts))


def composed(chance):
    """A module."""
    one = Made(chance)
    functions, tables, memories, globals_, tags, elements, data = (one.some(most) for most in (7, 2, 2, 3, 2, 3, 3))
    sections = {1: one.types(), 2: one.imports()}
    if not one.numbers["type"]:
        functions = tags = 0
    sections[3] = vec(*[one.index("type") for _ in range(functions)])
    for space, count in (("function", functions), ("table", tables), ("memory", memories), ("tag", tags), ("element", elements), ("data", data)):
        one.numbers[space] += count
    sections[13] = vec(*[seq(fixed("00"), one.index("type")) for _ in range(tags)])
    sections[4] = vec(*[seq(fixed("70", "6370"), fixed("00"), num(one.some(20))) for _ in range(tables)])
    sections[5] = vec(*[seq(fixed("00"), num(one.some(3))) for _ in range(memories)])
    sections[6] = one.globals(globals_)
    one.numbers["global"] += globals_
    sections[7] = one.exports()
    start = one.index("function") if one.maybe(0.2) else None
    if start:
        sections[8] = start
    sections[9] = vec(*[one.element() for _ in range(elements)])
    if one.maybe(0.4):
        sections[12] = ix("data_count", data if one.maybe(0.97) else data + 1)
    sections[10] = vec(*[one.body() for _ in range(functions if one.maybe(0.98) else functions + 1)])
    sections[11] = vec(*[one.data() for _ in range(data)])
    order = [1, 2, 3, 4, 5, 13, 6, 7, 8, 9, 12, 10, 11]
    if one.maybe(0.1):
        chance.shuffle(order)
    empty = vec().spell(Spelling())
    told = [core_section(number, sections[number]) for number in order if number in sections and (sections[number].spell(Spelling()) != empty or one.maybe(0.2))]
    for extra in (one.names(), custom("note", fixed("00ff")), raw(77, "0102")):
        if one.maybe(0.4):
            told.insert(one.some(len(told)) if one.maybe(0.3) else len(told), extra)
    return core_module(*told)


def spelled(chance):
    """A module's bytes, of which some numbers are longer than they need to be."""
    whole = composed(chance)
    return whole.spell(Mixed(chance) if chance.random() < 0.3 else Spelling())
