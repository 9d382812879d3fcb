#!/usr/bin/env python3
"""An independent reading of components, written from the Component Model's binary format and from nothing of this repository but the
reading of core modules beside it (tools/real_modules/reader.py), which is as independent. It shares nothing with the encoder
(fields.py): one holds the other.

    component_reader.py COMPONENT...    says of each component whether it can be read, and how it is spelled normally
    component_reader.py --cases         reads each case on standard input, a line of crates/library_cases/stdin that begins with
                                        `component`, and says where what it wants is not what is read; the last line is
                                        'N cases, M differ'

`normal(data, renaming)` gives the component, or core module, in normal spelling, with each index replaced by the renaming, and how
often what is asked. It raises Fault where there is no reading, with the place of the section and the kind of the fault.
`outcome(data, renaming, strict, ceiling)` says what comes of it where a renaming is strict or a frame may be too large.
"""
import os
import sys

HERE = os.path.dirname(os.path.abspath(__file__))
sys.path.insert(0, os.path.join(os.path.dirname(HERE), "real_modules"))
sys.dont_write_bytecode = True
from reader import Fault, Reader, signed_leb  # noqa: E402

sys.setrecursionlimit(20_000)
MODULE, COMPONENT = b"\0asm\1\0\0\0", b"\0asm\x0d\0\1\0"
MOST_SCOPES = 200
# What is said of a fault, by its kind.
SAID = {"code": "invalid code section size", "core": "There was a section that does not belong in a core wasm module",
        "component": "There was a section that does not belong in a component"}
CT, CI, CF, CC, CV = "component_type", "component_instance", "component_func", "component", "component_value"
PRIMITIVE = {0x64, *range(0x73, 0x80)}
# The space of a sort by its byte, and of a core sort by the byte behind 00.
SORTS = {1: CF, 2: CV, 3: CT, 4: CC, 5: CI}
CORE_SORTS = {0: "function", 1: "table", 2: "memory", 3: "global", 4: "tag", 0x10: "type", 0x11: "module", 0x12: "instance"}
OPTIONS = {0: None, 1: None, 2: None, 3: "memory", 4: "function", 5: "function", 6: None, 7: "function", 8: "type", 9: None}
# What stands behind the first byte of a canonical function: t a type, f a flag, o options, k a value type of core modules and a
# number, r a result; words are spaces.
CANON = {0x02: [CT], 0x03: [CT], 0x04: [CT], 0x05: [], 0x06: "f", 0x09: "ro", 0x0A: "k", 0x0B: "k", 0x0D: [], 0x0E: [CT], 0x0F: [CT, "o"],
         0x10: [CT, "o"], 0x11: [CT, "f"], 0x12: [CT, "f"], 0x13: [CT], 0x14: [CT], 0x15: [CT], 0x16: [CT, "o"], 0x17: [CT, "o"], 0x18: [CT, "f"],
         0x19: [CT, "f"], 0x1A: [CT], 0x1B: [CT], 0x1C: "o", 0x1D: "o", 0x1E: [], 0x1F: [], 0x22: [], 0x23: [], 0x24: [], 0x25: [],
         0x40: ["type"], 0x41: ["type", "table"], 0x42: []}


def is_code_past_its_end(data, place):
    """Whether a code section stands there whose size goes past the end, with a number behind the size."""
    reader = Reader(data, None)
    reader.at = place
    try:
        if reader.byte() != 10 or reader.number() <= len(data) - reader.at:
            return False
        reader.number()
        return True
    except Fault:
        return False


class Ordered(Reader):
    """A reader of core modules that keeps what is asked in its order, and the sizes of frames as they close, each with how much
    was asked before."""

    def __init__(self, data, renaming):
        super().__init__(data, renaming)
        self.log, self.frames = [], []
        self.level, self.marks = 0, []

    def ask(self, space, index):
        self.log.append((space, index))
        return super().ask(space, index)

    def call(self, what):
        self.log.append((what, None))
        super().call(what)

    def frame(self, read, what):
        sizes = []

        def kept():
            out = read()
            sizes.append(len(out))
            return out
        out = super().frame(kept, what)
        self.frames.append((sizes[0], len(self.log)))
        return out

    def comp(self):
        """The type itself is asked first, then the descriptor, then what it describes."""
        start = len(self.log)
        out = super().comp()
        at = 1 if out[0] == 0x65 else 0
        describes = out[at] == 0x4C
        if describes:
            at += 2
            while out[at - 1] > 127:
                at += 1
        inner = start + describes + (out[at] == 0x4D)
        self.log[start:] = self.log[inner:] + self.log[start + describes:inner] + self.log[start:start + describes]
        return out

    # The parts of an element segment are noted as they end.

    def noted(self, read):
        self.level += 1
        out = read()
        self.level -= 1
        if self.level == 0:
            self.marks.append(len(self.log))
        return out

    def expr(self):
        return self.noted(super().expr)

    def ref(self):
        return self.noted(super().ref)

    def vec(self, read):
        return self.noted(lambda: super(Ordered, self).vec(read))

    def element(self):
        """The items are asked first, expressions before their type; then the table, then the place in it."""
        outer, self.level, self.marks = (self.level, self.marks), 0, []
        start, flag = len(self.log), self.peek() & 127
        out = super().element()
        marks, (self.level, self.marks) = self.marks, outer
        table = start + (not flag & 1)
        place = marks.pop(0) if not flag & 1 else table
        kind = marks.pop(0) if flag in (5, 6, 7) else place
        self.log[start:] = self.log[kind:] + self.log[place:kind] + self.log[start:table] + self.log[table:place]
        return out


class ComponentReader(Ordered):
    """A reader of a component with so many scopes round it."""

    def __init__(self, data, renaming, scopes=0):
        super().__init__(data, renaming)
        # How much was asked of the sections before the one that is read.
        self.scopes, self.front = scopes, 0

    # Pieces.

    def take(self, found):
        """The next byte, which is one of these."""
        byte = self.byte()
        if byte not in found:
            raise Fault(f"the byte {byte:02x} is none of the row")
        return bytes([byte])

    def optional(self, read):
        return self.take((0,)) if self.peek() == 0 else self.take((1,)) + read()

    def signed_index(self, space):
        value, _ = self.signed(33, space)
        if value < 0:
            raise Fault("a number below 0")
        return signed_leb(self.ask(space, value))

    def extern(self):
        self.take((0, 1))
        return b"\0" + self.name()

    def scope(self, read):
        if self.scopes >= MOST_SCOPES:
            raise Fault("a scope too many")
        self.scopes += 1
        self.call("push")
        out = read()
        self.call("pop")
        self.scopes -= 1
        return out

    def core_item(self):
        kind = self.take((0, 0x20, 1, 2, 3, 4))[0] & 31
        return bytes([kind]) + self.index(CORE_SORTS[kind])

    def sorted_index(self):
        kind = self.take((0, 1, 2, 3, 4, 5))
        return kind + self.take((0x11,)) + self.index("module") if kind == b"\0" else kind + self.index(SORTS[kind[0]])

    # Types.

    def value(self):
        return self.take(PRIMITIVE) if self.peek() in PRIMITIVE else self.signed_index(CT)

    def labelled(self):
        return self.name() + self.value()

    def case_(self):
        return self.name() + self.optional(self.value) + self.take((0,))

    def defined(self):
        kind = self.take(PRIMITIVE | {0x63, *range(0x65, 0x6C), *range(0x6D, 0x73)})
        rest = {0x72: lambda: self.vec(self.labelled), 0x71: lambda: self.vec(self.case_), 0x70: self.value, 0x6F: lambda: self.vec(self.value),
                0x6E: lambda: self.vec(self.name), 0x6D: lambda: self.vec(self.name), 0x6B: self.value,
                0x6A: lambda: self.optional(self.value) + self.optional(self.value), 0x69: lambda: self.index(CT), 0x68: lambda: self.index(CT),
                0x67: lambda: self.value() + self.u(), 0x66: lambda: self.optional(self.value), 0x65: lambda: self.optional(self.value),
                0x63: lambda: self.value() + self.value()}
        return kind + rest.get(kind[0], lambda: b"")()

    def result(self):
        return self.take((0,)) + self.value() if self.peek() == 0 else self.take((1,)) + self.take((0,))

    def type_(self):
        first = self.peek()
        if first in (0x40, 0x43):
            return self.take((first,)) + self.vec(self.labelled) + self.result()
        if first in (0x41, 0x42):
            return self.take((first,)) + self.scope(lambda: self.vec(lambda: self.declaration(first == 0x41)))
        if first == 0x3F:
            return self.take((first,)) + self.val() + self.optional(lambda: self.index("function"))
        return self.defined()

    def declaration(self, imports):
        kind = self.take((0, 1, 2, 3, 4) if imports else (0, 1, 2, 4))
        if kind[0] > 2:
            return kind + self.extern() + self.type_ref()
        return kind + (self.core_type, self.type_, self.alias)[kind[0]]()

    def core_type(self):
        if self.peek() == 0x50:
            return self.take((0x50,)) + self.scope(lambda: self.vec(self.module_declaration))
        if self.peek() == 0:
            self.byte()
            if self.peek() != 0x50:
                raise Fault("no open type")
            return b"\0" + self.sub()
        return self.group()

    def module_declaration(self):
        kind = self.take((0, 1, 2, 3))
        if kind == b"\0":
            return kind + self.import_()
        if kind == b"\1":
            return kind + self.group()
        if kind == b"\2":
            return kind + self.take((0x10,)) + self.take((1,)) + self.u() + self.index("type")
        return kind + self.name() + self.entity()

    def type_ref(self):
        kind = self.take((0, 1, 2, 3, 4, 5))
        if kind == b"\0":
            return kind + self.take((0x11,)) + self.index("type")
        if kind == b"\2":
            return kind + self.value()
        if kind == b"\3":
            bound = self.take((0, 1))
            return kind + bound + (self.index(CT) if bound == b"\0" else b"")
        return kind + self.index(CT)

    def alias(self):
        kind = self.take((0, 1, 2, 3, 4, 5))
        if kind == b"\0":
            kind += self.take((0, 1, 2, 3, 4, 0x10, 0x11))
        target = self.take((0, 1, 2))
        if target == b"\0" and (len(kind) == 1 or kind[1] == 0x11):
            return kind + target + self.index(CI) + self.name()
        if target == b"\1" and len(kind) == 2 and kind[1] < 5:
            return kind + target + self.index("instance") + self.name()
        space = {b"\0\x10": "type", b"\0\x11": "module", b"\3": CT, b"\4": CC}.get(kind)
        if target == b"\2" and space:
            return kind + target + self.u() + self.index(space)
        raise Fault("no alias")

    # Functions.

    def behind(self, start, read):
        """What is read is asked before what was asked since the start."""
        end = len(self.log)
        out = read()
        self.log[start:] = self.log[end:] + self.log[start:end]
        return out

    def option(self):
        kind = self.take(OPTIONS)
        return kind + (self.index(OPTIONS[kind[0]]) if OPTIONS[kind[0]] else b"")

    def function(self):
        kind = self.take((0, 1, *CANON))
        if kind == b"\0":
            kind += self.take((0,)) + self.index("function")
            start = len(self.log)
            kind += self.vec(self.option)
            return kind + self.behind(start, lambda: self.index(CT))
        if kind == b"\1":
            return kind + self.take((0,)) + self.index(CF) + self.vec(self.option)
        start = len(self.log)
        for part in CANON[kind[0]]:
            if part == "f":
                kind += self.take((0, 1))
            elif part == "o":
                # The options are asked before what stands before them.
                kind += self.behind(start, lambda: self.vec(self.option))
            elif part == "k":
                kind += self.val() + self.u()
            elif part == "r":
                kind += self.result()
            else:
                kind += self.index(part)
        return kind

    # Sections.

    def core_instance(self):
        if self.take((0, 1)) == b"\0":
            return b"\0" + self.index("module") + self.vec(lambda: self.name() + self.take((0x12,)) + self.index("instance"))
        return b"\1" + self.vec(lambda: self.name() + self.core_item())

    def instance(self):
        if self.take((0, 1)) == b"\0":
            return b"\0" + self.index(CC) + self.vec(lambda: self.name() + self.sorted_index())
        return b"\1" + self.vec(lambda: self.extern() + self.sorted_index())

    def sort_of_names(self):
        """The sort that a body begins with, and its space, where it begins with one."""
        front = self.data[self.at:min(self.end, self.at + 2)]
        if front[:1] in (b"\1", b"\2", b"\3", b"\4", b"\5"):
            return front[:1], SORTS[front[0]]
        if len(front) == 2 and front[0] == 0 and front[1] in CORE_SORTS:
            return front, CORE_SORTS[front[1]]
        return None, None

    def subsection(self, kind):
        if kind == 0:
            return self.name()
        sort, space = self.sort_of_names() if kind == 1 else (None, None)
        if sort:
            return self.raw(len(sort)) + self.vec(lambda: self.index(space) + self.name())
        return self.raw(self.end - self.at)

    def component_names(self):
        out = bytearray()
        while self.at < self.end:
            kind = self.byte()
            out += bytes([kind]) + self.frame(lambda: self.subsection(kind), "names")
        return bytes(out)

    def custom(self):
        name = self.name()
        return name + (self.component_names() if name == b"\x0ecomponent-name" else self.raw(self.end - self.at))

    def nested(self, kind):
        """A core module or a component that fills the frame."""
        body = self.raw(self.end - self.at)
        inner = Ordered(body, self.maps) if kind == 1 else ComponentReader(body, self.maps, self.scopes + 1)
        inner.asked, inner.log, inner.frames = self.asked, self.log, self.frames

        def read():
            try:
                return inner.module() if kind == 1 else inner.component()
            except Fault as fault:
                fault.kind = kind_of(fault, body, kind == 1)
                raise
        return self.scope(read)

    def content(self, kind):
        if kind == 0:
            return self.custom()
        if kind in (1, 4):
            return self.nested(kind)
        if kind > 11:
            return self.raw(self.end - self.at)
        if kind == 9:
            return self.index(CF) + self.vec(lambda: self.index(CV)) + self.u()
        rows = {2: self.core_instance, 3: self.core_type, 5: self.instance, 6: self.alias, 7: self.type_, 8: self.function,
                10: lambda: self.extern() + self.type_ref(), 11: lambda: self.extern() + self.sorted_index() + self.optional(self.type_ref)}
        return self.vec(rows[kind])

    def component(self):
        if self.data[:8] != COMPONENT:
            raise Fault("no header of a component")
        self.at = 8
        out = bytearray(COMPONENT)
        while self.at < len(self.data):
            place, self.end, self.front = self.at, len(self.data), len(self.log)
            try:
                kind = self.byte()
                if kind > 127:
                    raise Fault("no section id")
                out += bytes([kind]) + self.frame(lambda: self.content(kind), f"section {kind}")
            except Fault as fault:
                fault.place = place
                raise
        return bytes(out)


def kind_of(fault, data, is_module):
    """The kind of the fault of a core module or component; none where it is of a place. Of what is nested it is told already."""
    if is_module:
        return "core" if data[:8] == COMPONENT else "code" if data[:8] == MODULE and is_code_past_its_end(data, fault.place) else None
    return "component" if data[:8] == MODULE else getattr(fault, "kind", None)


def normal(data, renaming=None):
    """What begins with a component's header as a component, all else as a core module: in normal spelling under a renaming,
    {space: {index: index}}, and how often what is asked."""
    is_component = data[:8] == COMPONENT
    reader = ComponentReader(data, renaming) if is_component else Reader(data, renaming)
    try:
        return (reader.component if is_component else reader.module)(), dict(reader.asked)
    except Fault as fault:
        if not is_component:
            fault.kind = kind_of(fault, data, True)
        raise


ORDER = """data element function global memory table tag type data_count component_type component_instance component_func component
module instance component_value section_hook push pop""".split()
CORE = ORDER[:8]


def counts_of(log):
    asked = [what for what, _ in log]
    return " ".join(["asked"] + [f"{what} {asked.count(what)}" for what in ORDER if what in asked])


def refusal(reader, renaming, strict, ceiling):
    """The first index that is refused, or frame that is too large: how much was asked until then, and what is said."""
    found = [(at, f"refused {space} {index}", at + 1) for at, (space, index) in enumerate(reader.log)
             if strict and space in CORE and index not in renaming.get(space, {})][:1]
    found += [(asked - 0.5, f"size {size} is too large", asked) for size, asked in reader.frames if ceiling is not None and size > ceiling][:1]
    return min(found) if found else None


def outcome(data, renaming, strict=False, ceiling=None):
    """What comes of a component: what is said and what was asked until then, each such pair that may come. Where a section has no
    reading it is left open what is asked of it."""
    reader = ComponentReader(data, renaming)
    try:
        said, fault = reader.component().hex(), None
    except Fault as found:
        fault = found
        said = SAID.get(kind_of(fault, data, False), f"nothing at {fault.place}")
    first = refusal(reader, renaming, strict, ceiling)
    if first and (fault is None or first[0] < reader.front):
        return [(first[1], reader.log[:first[2]])]
    if fault is None:
        return [(said, reader.log)]
    return [(said, None)] + ([(first[1], reader.log[:first[2]])] if first else [])


def wanted_of(line):
    """The words of a case, its bytes, and what it wants."""
    front, _, wanted = line.partition(" -> ")
    words, _, given = front.partition(" : ")
    return words.split()[1:], bytes.fromhex(given), wanted


def holds(line):
    """Whether a case wants what is read, or what would be."""
    words, data, wanted = wanted_of(line)
    renaming, ceiling = {}, None
    for word in words:
        key, _, to = word.partition("=")
        space, _, index = key.partition(".")
        if index:
            renaming.setdefault(space, {})[int(index)] = int(to)
        elif key == "under":
            ceiling = int(to)
    found = outcome(data, renaming, "strict" in words, ceiling)
    for said, log in found:
        if log is None and (wanted == said or wanted.startswith(said + " asked")) or log is not None and wanted == (f"{said} {counts_of(log)}" if "counted" in words else said):
            return None
    said, log = found[0]
    return said if log is None else f"{said} {counts_of(log)}"


def main():
    if sys.argv[1:] == ["--cases"]:
        lines = [line for line in sys.stdin.read().split("\n") if line.startswith("component ")]
        differing = 0
        for line in lines:
            said = holds(line)
            if said is not None:
                differing += 1
                print(f"{line}\n  read: {said}")
        print(f"{len(lines)} cases, {differing} differ")
        return 1 if differing else 0
    if not sys.argv[1:] or sys.argv[1] in ("-h", "--help"):
        print(__doc__.strip())
        return 0
    for path in sys.argv[1:]:
        with open(path, "rb") as source:
            data = source.read()
        try:
            made, asked = normal(data)
            print(path, len(data), "normal" if made == data else f"normally {len(made)}", asked)
        except Fault as fault:
            print(path, len(data), f"no reading at {fault.place}: {fault}", getattr(fault, "kind", None) or "")
    return 0


if __name__ == "__main__":
    sys.exit(main())
