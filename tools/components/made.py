"""Components as tools that work from interface definitions lay them out: core modules with shims between them, their instances,
aliases of their exports, functions lowered and lifted with a memory and a function for memory, types with instances in them, a
component for the exports, and names; and one round two of these that gives the one what the other exports. By a random number
generator they differ from each other. What each part is, is told as fields (fields.py)."""
import json
import os
import random
import sys

from case_lines import case, words_of
from fields import *

HERE = os.path.dirname(os.path.abspath(__file__))
sys.path.insert(0, os.path.join(os.path.dirname(HERE), "real_modules"))
import reader  # noqa: E402

I32, I64, F64 = fixed("7f"), fixed("7e"), fixed("7c")
WORDS = "get set open close read-all write-line to-string next poll drop-it create describe total x y-axis kind".split()
PACKAGES = "wasi:io/streams@0.2.0 wasi:clocks/wall-clock@0.2.3 example:store/keys local:demo/types my-host:log/sink@1.0.0-rc.1".split()


# Core modules.

def left_out(space, index, spell):
    """An index that is asked for and not written where it is 0: `spell` gives the bytes by the answer."""
    return Field(lambda s: spell(s, s.index(space, index)), [(space, index)])


def load(opcode, memory, align, offset):
    """A memory is written in a memory argument where it is not 0; one that is 0 may be."""
    def spell(s, index):
        written = index or s.other
        return bytes([opcode]) + s.number(align | 64 if written else align) + (s.number(index) if written else b"") + s.number(offset)
    return left_out("memory", memory, spell)


def segment(memory, place, contents):
    """A data segment at a place: its memory is written where it is not 0; one that is 0 may be."""
    def spell(s, index):
        written = index or s.other
        return s.number(2 if written else 0) + (s.number(index) if written else b"")
    return seq(left_out("memory", memory, spell), fixed("41"), Field(lambda s: s.number(place, signed=True)), fixed("0b"), num(len(contents)),
               fixed(contents.hex()))


def elements(functions):
    """Functions for a table that is left out: it is asked behind them, and written where it is not 0."""
    rows = vec(*[ix("function", f) for f in functions])
    offset = fixed("41000b")

    def spell(s):
        # The table is spelled first and asked last; only how often what is asked is kept here.
        table = s.index("table", 0)
        front = s.number(2) + s.number(table) if table else s.number(0)
        return front + offset.spell(s) + (b"\0" if table else b"") + rows.spell(s)
    return Field(spell, rows.asks + [("table", 0)])


def constant(value):
    return seq(fixed("41"), Field(lambda s: s.number(value, signed=True)))


def core_call(index):
    return seq(fixed("10"), ix("function", index))


def body(locals_, *operators):
    return sized(seq(vec(*locals_), *operators, fixed("0b")))


def core_names(module, functions):
    return custom("name", seq(fixed("00"), sized(name(module)), fixed("01"), sized(vec(*[seq(ix("function", i), name(text)) for i, text in functions]))))


def producers(*tools):
    told = seq(vec(seq(name("processed-by"), vec(*[seq(name(tool), name("1.0")) for tool in tools]))))
    contents = told.spell(Spelling())
    return custom("producers", fixed(contents.hex()))


def main_module(chance, imported, exported):
    """A module that calls each of the functions that it imports, with a memory, and gives functions by these names."""
    pairs = [chance.choice([([I32] * n, [I32] * m) for n in range(4) for m in range(2)]) for _ in range(chance.randrange(2, 6))]
    types = [([I32] * 4, [I32]), ([I32], [])] + pairs
    def kind():
        return chance.randrange(len(types))
    functions = [kind() for _ in exported] + [0, 1]
    first = len(imported)
    realloc, post = first + len(exported), first + len(exported) + 1
    bodies = []
    for _ in exported:
        operators = [core_call(chance.randrange(first + len(functions))) for _ in range(chance.randrange(1, 4))] if first else []
        operators += [constant(chance.randrange(-70, 9000)), load(0x28, 0, 2, chance.randrange(300)), fixed("1a")]
        bodies.append(body([seq(num(chance.randrange(1, 200)), chance.choice([I32, I64, F64]))] * chance.randrange(3), *operators, fixed("00")))
    bodies += [body([], seq(fixed("23"), ix("global", 0)), fixed("00")), body([])]
    exports = [seq(name("memory"), fixed("02"), ix("memory", 0)), seq(name("cabi_realloc"), fixed("00", "20"), ix("function", realloc))]
    exports += [seq(name(text), fixed("00"), ix("function", first + i)) for i, text in enumerate(exported)]
    exports += [seq(name("cabi_post_" + text), fixed("00"), ix("function", post)) for text in exported]
    every = list(range(first, first + len(functions)))
    return core_module(
        core_section(1, vec(*[sub_final(function_type(p, r)) for p, r in types])),
        *([core_section(2, vec(*[seq(name(module), name(text), fixed("00"), ix("type", kind())) for module, text in imported]))] if imported else []),
        core_section(3, vec(*[ix("type", f) for f in functions])),
        core_section(4, vec(seq(fixed("70", "6370"), fixed("00"), num(len(every))))),
        core_section(5, vec(seq(fixed("00"), num(17)))),
        core_section(6, vec(seq(fixed("7f01"), constant(1 << 20), fixed("0b")))),
        core_section(7, vec(*exports)),
        core_section(9, vec(elements(every))),
        core_section(10, vec(*bodies)),
        core_section(11, vec(segment(0, 1 << 20, bytes(chance.randrange(256) for _ in range(chance.randrange(40)))))),
        core_names("main", [(i, text) for i, text in enumerate([text for _, text in imported] + exported)]),
        producers("a-compiler", "a-linker"))


def shim_module(count):
    """A module whose functions call through its table, which the fixing module fills."""
    return core_module(core_section(1, vec(sub_final(function_type([I32, I32], [])))), core_section(3, vec(*[ix("type", 0)] * count)),
                       core_section(4, vec(seq(fixed("70", "6370"), fixed("01"), num(count), num(count)))),
                       core_section(7, vec(*[seq(name(str(i)), fixed("00"), ix("function", i)) for i in range(count)],
                                           seq(name("$imports"), fixed("01"), ix("table", 0)))),
                       core_section(10, vec(*[body([], fixed("2000"), fixed("2001"), constant(i), fixed("11"), ix("type", 0), ix("table", 0))
                                              for i in range(count)])), producers("a-composer"))


def fixing_module(count):
    """A module that fills the shim's table with the functions that it imports."""
    return core_module(core_section(1, vec(sub_final(function_type([I32, I32], [])))),
                       core_section(2, vec(*[seq(name(""), name(str(i)), fixed("00"), ix("type", 0)) for i in range(count)],
                                           seq(name(""), name("$imports"), fixed("01"), fixed("70", "6370"), fixed("01"), num(count), num(count)))),
                       core_section(9, vec(elements(range(count)))))


def real_module(data):
    """A module that is read by the independent reading of core modules."""
    asked = []

    class Asked(reader.Reader):
        def ask(self, space, index):
            asked.append((space, index))
            return super().ask(space, index)
    made = Asked(data, None)
    made.module()

    def spell(s):
        spaces = {}
        for (space, index), to in s.renames.items():
            spaces.setdefault(space, {})[index] = to
        return data if s.other else reader.normal(data, spaces)[0]
    return Field(spell, asked + [("section_hook", None)] * made.asked["section_hook"])


# Components.

class Builder:
    """A component that is put together: each call gives the index that what it adds has in its space."""

    def __init__(self):
        self.sections, self.next = [], dict.fromkeys(SPACES, 0)
        self.names = {}

    def new(self, space, text=None):
        index = self.next[space]
        self.next[space] += 1
        if text:
            self.names.setdefault(space, []).append((index, text))
        return index

    def row(self, number, row):
        """A row more: in the last section, where that is of this id."""
        if self.sections and self.sections[-1][0] == number and number not in (1, 4):
            self.sections[-1][1].append(row)
        else:
            self.sections.append((number, [row]))

    def module(self, module, text):
        self.row(1, module)
        return self.new("module", text)

    def inner(self, inner, text):
        self.row(4, inner)
        return self.new("component", text)

    def core_instance(self, module, arguments, text):
        self.row(2, seq(fixed("00"), ix("module", module), vec(*[seq(name(n), fixed("12"), ix("instance", i)) for n, i in arguments])))
        return self.new("instance", text)

    def core_exports(self, exports):
        self.row(2, seq(fixed("01"), vec(*[seq(name(n), item(kind, index)) for n, kind, index in exports])))
        return self.new("instance")

    def type(self, row, text=None):
        self.row(7, row)
        return self.new("component_type", text)

    def instance(self, inner, arguments, text):
        self.row(5, seq(fixed("00"), ix("component", inner), vec(*[seq(name(n), sort(kind, index)) for n, kind, index in arguments])))
        return self.new("component_instance", text)

    def export_of_instance(self, kind, instance, text):
        self.row(6, seq(fixed(SORTED[kind][0]), fixed("00"), ix("component_instance", instance), name(text)))
        return self.new(SORTED[kind][1])

    def core_export(self, kind, instance, text):
        self.row(6, seq(fixed("00"), fixed(ITEMS[kind][0]), fixed("01"), ix("instance", instance), name(text)))
        return self.new(ITEMS[kind][2])

    def outer_type(self, count, index):
        self.row(6, seq(fixed("0302"), num(count), ix("component_type", index)))
        return self.new("component_type")

    def lower(self, function, opts):
        self.row(8, seq(fixed("0100"), ix("component_func", function), opts))
        return self.new("function")

    def lift(self, function, opts, ty):
        """The options are asked behind the type."""
        self.row(8, seq(fixed("0000"), ix("function", function), opts, ix("component_type", ty), order=[0, 1, 3, 2]))
        return self.new("component_func")

    def import_(self, text, space, ty):
        self.row(10, seq(extern(text), ty))
        return self.new(space)

    def export(self, text, kind, index, ty=None):
        """What is exported has a new index in its space, too."""
        self.row(11, seq(extern(text), sort(kind, index), seq(fixed("01"), ty) if ty else fixed("00")))
        return self.new(SORTED[kind][1])

    def custom(self, section_):
        self.sections.append((None, section_))

    def finish(self, text):
        """The component, with its name and the names of what it has."""
        digits = {space: front for front, space in SORTED}
        digits.update({"function": "0000", "table": "0001", "memory": "0002", "type": "0010", "instance": "0012"})
        parts = [seq(fixed("00"), sized(name(text)))]
        parts += [seq(fixed("01"), sized(seq(fixed(digits[space]), vec(*[seq(ix(space, i), name(n)) for i, n in self.names[space]]))))
                  for space in SPACES if space in self.names]
        made = []
        for number, rows in self.sections:
            if number is None:
                made.append(rows)
            elif number == 1:
                made.append(nested_module(rows[0]))
            elif number == 4:
                made.append(nested_component(rows[0]))
            else:
                made.append(section(number, vec(*rows)))
        return component(*made, custom("component-name", seq(*parts)), producers("a-composer"))


def options(memory, realloc, more):
    return vec(fixed("00"), seq(fixed("03"), ix("memory", memory)), *([seq(fixed("04"), ix("function", realloc))] if realloc is not None else []), *more)


def values(chance, defined):
    """A value type: a primitive one, or one of those defined."""
    return of_type(chance.choice(defined)) if defined and chance.random() < 0.5 else fixed(chance.choice(PRIMITIVES))


def defined_type(chance, defined):
    def some():
        return values(chance, defined)
    def maybe():
        return seq(fixed("01"), some()) if chance.random() < 0.6 else fixed("00")
    def texts():
        return chance.sample(WORDS, chance.randrange(1, 6))
    return chance.choice([
        lambda: seq(fixed("72"), vec(*[seq(name(text), some()) for text in texts()])),
        lambda: seq(fixed("71"), vec(*[seq(name(text), maybe(), fixed("00")) for text in texts()])),
        lambda: seq(fixed("70"), some()),
        lambda: seq(fixed("6f"), vec(*[some() for _ in texts()])),
        lambda: seq(fixed("6e"), vec(*[name(text) for text in texts()])),
        lambda: seq(fixed("6d"), vec(*[name(text) for text in texts()])),
        lambda: seq(fixed("6b"), some()),
        lambda: seq(fixed("6a"), maybe(), maybe()),
        lambda: seq(fixed("66"), maybe())])()


def signature(chance, defined):
    result = seq(fixed("00"), values(chance, defined)) if chance.random() < 0.7 else fixed("0100")
    return seq(fixed(chance.choice(["40", "40", "40", "43"])), vec(*[seq(name(text), values(chance, defined)) for text in chance.sample(WORDS, chance.randrange(4))]), result)


def interface(chance, functions):
    """The type of an instance: types, each exported by a name as equal to what was defined, a resource, and functions over these."""
    rows, defined, count = [], [], 0
    for text in chance.sample(WORDS, chance.randrange(1, 5)):
        rows += [seq(fixed("01"), defined_type(chance, defined)), seq(fixed("04"), extern(text), fixed("0300"), ix("component_type", count))]
        defined.append(count + 1)
        count += 2
    resource = count
    rows += [seq(fixed("04"), extern("handle"), fixed("0301")), seq(fixed("01"), fixed("69"), ix("component_type", resource)),
             seq(fixed("01"), fixed("68"), ix("component_type", resource))]
    count += 3
    if chance.random() < 0.5:
        rows += [seq(fixed("02"), fixed("0302"), num(1), ix("component_type", 0)), seq(fixed("04"), extern("outside"), fixed("0300"), ix("component_type", count))]
        count += 2
    for text in functions:
        rows += [seq(fixed("01"), signature(chance, defined + [count - 1])), seq(fixed("04"), extern(text), fixed("01"), ix("component_type", count))]
        count += 1
    return seq(fixed("42"), scope(vec(*rows)))


def for_exports(chance, functions):
    """A component that takes functions and exports them by their names, with types."""
    made = Builder()
    defined = [made.outer_type(1, 0)] if chance.random() < 0.5 else []
    defined += [made.type(defined_type(chance, defined)) for _ in range(chance.randrange(1, 3))]
    kinds = [made.type(signature(chance, defined)) for _ in functions]
    taken = [made.import_("import-func-" + text, "component_func", seq(fixed("01"), ix("component_type", kind))) for text, kind in zip(functions, kinds)]
    for text, kind, function in zip(functions, kinds, taken):
        made.export(text, 1, function, seq(fixed("01"), ix("component_type", kind)))
    for i in defined:
        made.export(f"type-{i}", 3, i, seq(fixed("0300"), ix("component_type", i)))
    return made.finish("exports")


def single(chance, taken, given, text, module=None):
    """A component that takes an interface of this name and gives one of that name."""
    made = Builder()
    lowered = chance.sample(WORDS, chance.randrange(1, 5))
    exported = chance.sample(WORDS, chance.randrange(1, 5))
    plain = made.type(defined_type(chance, []))
    instance = made.import_(taken, "component_instance", seq(fixed("05"), ix("component_type", made.type(interface(chance, lowered), "taken"))))
    imported = [(taken, text) for text in lowered] + [("wasi_snapshot", "fd_write")]
    main = made.module(module or main_module(chance, imported, exported), "main")
    shim, fixing = made.module(shim_module(len(lowered)), "shim"), made.module(fixing_module(len(lowered)), "fixups")
    of_shim = made.core_instance(shim, [], "shim-instance")
    through = [made.core_export(0, of_shim, str(i)) for i in range(len(lowered))]
    of_functions = made.core_exports([(text, 0, f) for text, f in zip(lowered, through)] + [("[resource-drop]handle", 0, through[0])])
    of_main = made.core_instance(main, [(taken, of_functions), ("wasi_snapshot", of_shim)], "main-instance")
    memory, realloc = made.core_export(2, of_main, "memory"), made.core_export(0, of_main, "cabi_realloc")
    table = made.core_export(1, of_shim, "$imports")
    functions = [made.export_of_instance(1, instance, text) for text in lowered]
    opts = [options(memory, realloc if chance.random() < 0.7 else None, [fixed("06")] if chance.random() < 0.2 else []) for _ in functions]
    direct = [made.lower(f, o) for f, o in zip(functions, opts)]
    handle = made.export_of_instance(3, instance, "handle")
    made.row(8, seq(fixed("03"), ix("component_type", handle)))
    made.new("function")
    of_fixing = made.core_exports([(str(i), 0, f) for i, f in enumerate(direct)] + [("$imports", 1, table)])
    made.core_instance(fixing, [("", of_fixing)], "fixups-instance")
    lifted = []
    for word in exported:
        core = made.core_export(0, of_main, word)
        after = made.core_export(0, of_main, "cabi_post_" + word)
        ty = made.type(signature(chance, [plain]))
        lifted.append((word, made.lift(core, options(memory, realloc, [seq(fixed("05"), ix("function", after))]), ty)))
    inner = made.inner(for_exports(chance, exported), "exports")
    of_inner = made.instance(inner, [("import-func-" + word, 1, f) for word, f in lifted] + [("import-type", 3, plain)], text + "-exports")
    made.export(given, 5, of_inner)
    return made.finish(text)


def composed(chance, modules=()):
    """A component round two others: what the first gives the second takes, and what the first takes is imported."""
    modules = [chance.choice(modules) if modules else None for _ in range(2)]
    first, second, third = chance.sample(PACKAGES, 3)
    made = Builder()
    base = made.type(defined_type(chance, []))
    host = made.import_(first, "component_instance", seq(fixed("05"), ix("component_type", made.type(interface(chance, WORDS[:3])))))
    made.import_("log", "component_func", seq(fixed("01"), ix("component_type", made.type(signature(chance, [base])))))
    wasm = [made.inner(single(chance, taken, given, text, module), text)
            for taken, given, text, module in ((first, second, "provider", modules[0]), (second, third, "consumer", modules[1]))]
    provider = made.instance(wasm[0], [(first, 5, host)], "provider-instance")
    between = made.export_of_instance(5, provider, second)
    consumer = made.instance(wasm[1], [(second, 5, between), (first, 5, host)], "consumer-instance")
    out = made.export_of_instance(5, consumer, third)
    made.export(third, 5, out, seq(fixed("05"), ix("component_type", base)) if chance.random() < 0.3 else None)
    made.custom(custom("linking-notes", fixed("00ff01")))
    return made.finish("composed")


class Mixed(Spelling):
    """Some numbers are longer than they need to be, and some bytes are others that are read as the same."""

    def __init__(self, chance):
        super().__init__(other=True)
        self.chance = chance

    def number(self, value, signed=False):
        return leb(value, signed, self.chance.randrange(5) if self.chance.random() < 0.3 else 0)

    def fixed(self, written, read):
        return read if self.chance.random() < 0.5 else written


def renaming_of(chance, asks):
    """Other indices, shorter and longer ones, for most of what is asked for."""
    return {ask: chance.randrange(1 << chance.choice([3, 7, 14, 32])) for ask in indices_of(asks) if chance.random() < 0.8}


def spaces_of(renames):
    spaces = {}
    for (space, index), to in renames.items():
        spaces.setdefault(space, {})[index] = to
    return spaces


class Component:
    """A made component with what should come of it."""

    def __init__(self, seed, modules):
        chance = random.Random(seed)
        whole = composed(chance, modules)
        self.name, self.renames, self.asks = f"made-{seed}", renaming_of(chance, whole.asks), whole.asks
        spelling, renamed = Spelling(), Spelling(renames=self.renames)
        self.given, self.normal, self.renamed = whole.spell(Mixed(chance)), whole.spell(spelling), whole.spell(renamed)
        self.asked = counts_of(whole.asks)
        # The order of what is asked, and the frames, are not known of a module that is read.
        self.is_known, self.frames = not modules, spelling.frames
        # What a second renaming makes of what the first answers.
        self.again = renaming_of(chance, [(space, self.renames.get((space, index), index)) for space, index in indices_of(whole.asks)])
        both = {ask: self.again.get((ask[0], self.renames.get(ask, ask[1])), self.renames.get(ask, ask[1])) for ask in indices_of(whole.asks)}
        self.both = whole.spell(Spelling(renames=both))
        core = [ask for ask in indices_of(whole.asks) if ask[0] in CORE]
        self.known = core[:chance.randrange(len(core))]
        self.refused = core[len(self.known)]
        self.ceiling = chance.choice([size for size, _ in self.frames if size]) - 1
        self.large, self.before = next(frame for frame in self.frames if frame[0] > self.ceiling)

    def write(self, folder):
        texts = {"": spaces_of(self.renames), ".strict": {**spaces_of({ask: ask[1] for ask in self.known}), "strict": True}, ".again": spaces_of(self.again)}
        for ending, data in ((".wasm", self.given), (".normal.wasm", self.normal), (".renamed.wasm", self.renamed),
                             (".asked", self.asked.encode() + b"\n"), *[(what + ".json", json.dumps(text).encode()) for what, text in texts.items()]):
            with open(os.path.join(folder, self.name + ending), "wb") as sink:
                sink.write(data)

    def runs(self, twice):
        """Words of runs, what is given, and the status, the bytes, the other lines and the message that should come."""
        file = self.name + ".json"
        for words, given, wanted in ((["plain"], self.given, self.normal), (["plain"], self.normal, self.normal), (["rename", file], self.given, self.renamed),
                                     (["plain"], self.renamed, self.renamed)):
            yield words, given, (0, wanted, [self.asked], "")
        if self.is_known:
            yield ["rename", self.name + ".strict.json"], self.given, (6, b"", [], "refused {} {}".format(*self.refused))
            yield ["-m", str(self.ceiling), "plain"], self.given, (10, b"", [], f"too large: {self.large} over {self.ceiling}")
        if twice:
            yield ["twice", file, self.name + ".again.json"], self.given, (0, self.both, [self.asked] * 2, "")

    def cases(self):
        """Lines of cases."""
        for renames, wanted in (({}, self.normal), (self.renames, self.renamed)):
            yield case(words_of(renames) + ["counted"], self.given, f"{wanted.hex()} {self.asked}")
        if self.is_known:
            words = ["strict"] + words_of({ask: ask[1] for ask in self.known}) + ["counted"]
            yield case(words, self.given, "refused {} {} ".format(*self.refused) + counts_of(self.asks[:self.asks.index(self.refused) + 1]))
            yield case([f"under={self.ceiling}", "counted"], self.given, f"size {self.large} is too large {counts_of(self.asks[:self.before])}")


def cases():
    """The lines."""
    lines = ["# Components as tools lay them out, by tools/component_cases: a component round two others, with core modules, their instances, lowered "
             "and lifted functions, types and names."]
    return lines + [line for seed in range(2) for line in Component(seed, []).cases()]
