#!/usr/bin/env python3
"""An independent reading of core modules, written from the WebAssembly Core Specification 3.0 and the proposals beside it, and
from nothing of this repository: what a module is in normal spelling, under a renaming too.

    reader.py MODULE...     says of each module whether it can be read, whether it is in normal spelling, and what is not

`normal(data, renaming)` gives the module in normal spelling, with each index replaced by the renaming, the number of visits of
each space, and what was spelled otherwise, by kind. It raises Fault, with the place of the section, where there is no reading.
"""
import collections
import sys


class Fault(Exception):
    def __init__(self, why):
        super().__init__(why)
        self.why, self.place = why, 0


def leb(number):
    out = bytearray()
    while number > 127:
        out.append(number & 127 | 128)
        number >>= 7
    out.append(number)
    return bytes(out)


def signed_leb(number):
    out = bytearray()
    while not -64 <= number < 64:
        out.append(number & 127 | 128)
        number >>= 7
    out.append(number & 127)
    return bytes(out)


# The kinds of immediates, one letter each:
#   n none, u number, s S33-or-signed 32, S signed 64, 4 8 Q raw bytes, l lane, b block type, t list of labels, v list of types,
#   m memory argument, h heap type, c catches, k cast, r handlers, 0 a zero; capital words stand for a space.
F, T, B, M, G, X, E, D = "function", "table", "type", "memory", "global", "tag", "element", "data"


def _one_byte():
    kinds = {}

    def set_(codes, *kind):
        for code in codes:
            kinds[code] = kind
    set_([0x00, 0x01, 0x05, 0x0A, 0x0B, 0x0F, 0x19, 0x1A, 0x1B, 0xD1, 0xD3, 0xD4, *range(0x45, 0xC5)])
    set_([0x02, 0x03, 0x04, 0x06], "b")
    set_([0x07, 0x08], X)
    set_([0x09, 0x0C, 0x0D, 0x18, 0xD5, 0xD6, 0x20, 0x21, 0x22], "u")
    set_([0x0E], "t")
    set_([0x10, 0x12, 0xD2], F)
    set_([0x11, 0x13], B, T)
    set_([0x14, 0x15], B)
    set_([0x1C], "v")
    set_([0x1F], "b", "c")
    set_([0x23, 0x24], G)
    set_([0x25, 0x26], T)
    set_(range(0x28, 0x3F), "m")
    set_([0x3F, 0x40], M)
    set_([0x41], "s")
    set_([0x42], "S")
    set_([0x43], "4")
    set_([0x44], "8")
    set_([0xD0], "h")
    set_([0xE0], B)
    set_([0xE1], B, B)
    set_([0xE2], X)
    set_([0xE3], B, "r")
    set_([0xE4], B, X, "r")
    return kinds


def _prefixed():
    kinds = {0xFB: {}, 0xFC: {}, 0xFD: {}, 0xFE: {}}

    def set_(prefix, codes, *kind):
        for code in codes:
            kinds[prefix][code] = kind
    set_(0xFB, [0, 1, 6, 7, 11, 12, 13, 14, 16], B)
    set_(0xFB, [2, 3, 4, 5, 8], B, "u")
    set_(0xFB, [9, 18], B, D)
    set_(0xFB, [10, 19], B, E)
    set_(0xFB, [17], B, B)
    set_(0xFB, [15, *range(26, 31)])
    set_(0xFB, range(20, 24), "h")
    set_(0xFB, [24, 25], "k")
    set_(0xFC, [*range(8), 19, 20, 21, 22])
    set_(0xFC, [8], D, M)
    set_(0xFC, [9], D)
    set_(0xFC, [10], M, M)
    set_(0xFC, [11], M)
    set_(0xFC, [12], E, T)
    set_(0xFC, [13], E)
    set_(0xFC, [14], T, T)
    set_(0xFC, [15, 16, 17], T)
    none = {0x9A, 0xA2, 0xA5, 0xA6, 0xAF, 0xB0, 0xB2, 0xB3, 0xB4, 0xBB, 0xC2, 0xC5, 0xC6, 0xCF, 0xD0, 0xD2, 0xD3, 0xD4, 0xE2}
    set_(0xFD, [code for code in range(0x0E, 0x114) if code not in none])
    set_(0xFD, [*range(12), 0x5C, 0x5D], "m")
    set_(0xFD, [12], "Q")
    set_(0xFD, [13], "Q")
    set_(0xFD, range(21, 35), "l")
    set_(0xFD, range(0x54, 0x5C), "m", "l")
    set_(0xFE, [0, 1, 2, *range(0x10, 0x4F)], "m")
    set_(0xFE, [3], "0")
    return kinds


ONE_BYTE, PREFIXED = _one_byte(), _prefixed()
NUMBER_TYPES = {0x7F, 0x7E, 0x7D, 0x7C, 0x7B}
ABSTRACT = set(range(0x68, 0x76))
# What a byte stands for in the fast loop: 0 nothing follows, 1 a number that is no index, 2 all else, 3 no operator.
CLASS = bytes(3 if code not in ONE_BYTE and code not in PREFIXED else 0 if ONE_BYTE.get(code, ("x",)) == () else
              1 if ONE_BYTE.get(code) == ("u",) else 2 for code in range(256))
SPACE_OF_NAMES = {1: F, 4: B, 5: T, 6: M, 7: G, 8: E, 9: D, 11: X}


class Reader:
    def __init__(self, data, renaming):
        self.data, self.at, self.end = data, 0, len(data)
        self.maps = renaming or {}
        self.asked = collections.Counter()
        self.other = collections.Counter()

    # Pieces. Each takes what it reads from the front, and gives it in normal spelling.

    def byte(self):
        if self.at >= self.end:
            raise Fault("bytes are wanting")
        self.at += 1
        return self.data[self.at - 1]

    def peek(self):
        if self.at >= self.end:
            raise Fault("bytes are wanting")
        return self.data[self.at]

    def raw(self, count):
        if count > self.end - self.at:
            raise Fault("bytes are wanting")
        self.at += count
        return self.data[self.at - count:self.at]

    def leb(self, bits):
        """The bits of a number of at most so many, how many they are, and its last byte."""
        value, shift = 0, 0
        while True:
            byte = self.byte()
            value |= (byte & 127) << shift
            shift += 7
            if byte < 128:
                return value, shift, byte
            if shift >= bits:
                raise Fault("a number of too many bytes")

    def number(self, bits=32, what="number"):
        start = self.at
        value, shift, byte = self.leb(bits)
        if value >> bits:
            raise Fault("a number that is too great")
        if self.at - start > 1 and self.data[self.at - 1] == 0:
            self.other["padded " + what] += 1
        return value

    def signed(self, bits, what="constant"):
        start = self.at
        value, shift, byte = self.leb(bits)
        if byte & 64:
            value -= 1 << shift
        if not -(1 << bits - 1) <= value < 1 << bits - 1:
            raise Fault("a number that is too great")
        out = signed_leb(value)
        if len(out) != self.at - start:
            self.other["padded " + what] += 1
        return value, out

    def u(self):
        return leb(self.number())

    def ask(self, space, index):
        self.asked[space] += 1
        return self.maps.get(space, {}).get(index, index)

    def call(self, what):
        """What is called without an index."""
        self.asked[what] += 1

    def index(self, space):
        return leb(self.ask(space, self.number(what=space + " index")))

    def text(self):
        """The bytes of a name."""
        text = self.raw(self.number(what="length of a name"))
        try:
            text.decode("utf-8")
        except UnicodeDecodeError:
            raise Fault("a name that is no UTF-8") from None
        return text

    def name(self):
        text = self.text()
        return leb(len(text)) + text

    def vec(self, read):
        count = self.number(what="count")
        out = bytearray(leb(count))
        for _ in range(count):
            out += read()
        return bytes(out)

    def frame(self, read, what):
        """What `read` gives in a frame, and it fills the frame."""
        size = self.number(what="size of " + what)
        if size > self.end - self.at:
            raise Fault(f"{what} goes past the end")
        outer, self.end = self.end, self.at + size
        out = read()
        if self.at != self.end:
            raise Fault(f"bytes are left in {what}")
        self.end = outer
        return leb(len(out)) + out

    # Types.

    def heap(self):
        first = self.peek()
        if first in ABSTRACT:
            return bytes([self.byte()])
        if first == 0x65:
            self.byte()
            if self.peek() not in ABSTRACT:
                raise Fault("no heap type")
            return bytes([0x65, self.byte()])
        if first == 0x62:
            self.byte()
            return b"\x62" + self.index(B)
        return self.type_index()

    def type_index(self):
        """An index as a number with sign of 33 bits."""
        value, _ = self.signed(33, "type index")
        if value < 0:
            raise Fault("no heap type")
        return signed_leb(self.ask(B, value))

    def ref(self):
        first = self.peek()
        if first in (0x63, 0x64):
            self.byte()
            heap = self.heap()
            if first == 0x63 and (heap[0] == 0x65 or len(heap) == 1 and heap[0] in ABSTRACT):
                self.other["long reference type"] += 1
                return heap
            return bytes([first]) + heap
        if first in ABSTRACT or first == 0x65:
            return self.heap()
        raise Fault("no reference type")

    def val(self):
        if self.peek() in NUMBER_TYPES:
            return bytes([self.byte()])
        return self.ref()

    def field(self):
        storage = bytes([self.byte()]) if self.peek() in (0x78, 0x77) else self.val()
        if self.peek() > 1:
            raise Fault("no mutability")
        return storage + bytes([self.byte()])

    def comp(self):
        out = b""
        if self.peek() == 0x65:
            out += bytes([self.byte()])
        if self.peek() == 0x4C:
            self.byte()
            out += b"\x4c" + self.index(B)
        if self.peek() == 0x4D:
            self.byte()
            out += b"\x4d" + self.index(B)
        form = self.byte()
        if form == 0x60:
            return out + b"\x60" + self.vec(self.val) + self.vec(self.val)
        if form == 0x5E:
            return out + b"\x5e" + self.field()
        if form == 0x5F:
            return out + b"\x5f" + self.vec(self.field)
        if form == 0x5D:
            return out + b"\x5d" + self.type_index()
        raise Fault("no composite type")

    def sub(self):
        if self.peek() in (0x50, 0x4F):
            form = self.byte()
            supers = self.vec(lambda: self.index(B))
            if form == 0x4F and supers == b"\0":
                self.other["long final type"] += 1
                return self.comp()
            return bytes([form]) + supers + self.comp()
        return self.comp()

    def group(self):
        if self.peek() == 0x4E:
            self.byte()
            return b"\x4e" + self.vec(self.sub)
        return self.sub()

    def limits(self, most):
        flags = self.byte()
        if flags > most:
            raise Fault("no limits")
        out = bytes([flags]) + leb(self.number(64, "limit"))
        if flags & 1:
            out += leb(self.number(64, "limit"))
        if flags & 8:
            out += self.u()
        return out

    def table(self):
        return self.ref() + self.limits(7)

    def memory(self):
        return self.limits(15)

    def global_(self):
        kind = self.val()
        if self.peek() > 3:
            raise Fault("no mutability")
        return kind + bytes([self.byte()])

    def tag(self):
        if self.byte() != 0:
            raise Fault("no tag")
        return b"\0" + self.index(B)

    def entity(self):
        kind = self.byte()
        if kind in (0, 0x20):
            return bytes([kind]) + self.index(B)
        read = {1: self.table, 2: self.memory, 3: self.global_, 4: self.tag}.get(kind)
        if not read:
            raise Fault("no kind of import")
        return bytes([kind]) + read()

    # Operators.

    def mem(self):
        flags = self.number(what="alignment")
        if flags > 127:
            raise Fault("no memory argument")
        memory = self.ask(M, self.number(what="memory index") if flags & 64 else 0)
        if flags & 64 and not memory:
            self.other["memory 0 written"] += 1
        offset = leb(self.number(64, "offset"))
        return bytes([flags & 63 | 64]) + leb(memory) + offset if memory else bytes([flags & 63]) + offset

    def block(self):
        first = self.peek()
        if first == 0x40:
            return bytes([self.byte()])
        if first in NUMBER_TYPES or first in ABSTRACT or first in (0x63, 0x64, 0x65):
            return self.val()
        return self.type_index()

    def catch(self):
        kind = self.byte()
        if kind > 3:
            raise Fault("no catch")
        return bytes([kind]) + (self.index(X) if kind < 2 else b"") + self.u()

    def handler(self):
        kind = self.byte()
        if kind > 1:
            raise Fault("no handler")
        return bytes([kind]) + self.index(X) + (self.u() if kind == 0 else b"")

    def immediate(self, kind):
        if kind == "u":
            return self.u()
        if kind == "m":
            return self.mem()
        if kind == "s":
            return self.signed(32)[1]
        if kind == "S":
            return self.signed(64)[1]
        if kind == "b":
            return self.block()
        if kind == "t":
            return self.vec(self.u) + self.u()
        if kind == "v":
            return self.vec(self.val)
        if kind == "h":
            return self.heap()
        if kind == "c":
            return self.vec(self.catch)
        if kind == "r":
            return self.vec(self.handler)
        if kind == "k":
            flags = self.byte()
            if flags > 3:
                raise Fault("no cast")
            return bytes([flags]) + self.u() + self.heap() + self.heap()
        if kind == "0":
            if self.byte():
                raise Fault("no zero")
            return b"\0"
        if kind in ("4", "8", "Q", "l"):
            return self.raw({"4": 4, "8": 8, "Q": 16, "l": 1}[kind])
        return self.index(kind)

    def operator(self):
        code = self.byte()
        kinds, out = ONE_BYTE.get(code), bytes([code])
        if kinds is None:
            if code not in PREFIXED:
                raise Fault(f"no operator: {code:02x}")
            number = self.number(what="operator")
            kinds = PREFIXED[code].get(number)
            if kinds is None:
                raise Fault(f"no operator: {code:02x} {number}")
            out += leb(number)
        for kind in kinds:
            out += self.immediate(kind)
        return out

    def operators(self):
        """Operators until the frame is filled. What is spelled alike is taken in one piece."""
        data, end, out, kept = self.data, self.end, bytearray(), self.at
        while self.at < end:
            at = self.at
            # One that asks nothing, with numbers of one byte, is its own spelling.
            kind = CLASS[data[at]]
            while kind < 2:
                if kind == 1:
                    at += 1
                    if at >= end or data[at] > 127:
                        at -= 1
                        break
                at += 1
                if at >= end:
                    break
                kind = CLASS[data[at]]
            self.at = at
            if at >= end:
                break
            made = self.operator()
            if data[at:self.at] != made:
                out += data[kept:at]
                out += made
                kept = self.at
        out += data[kept:end]
        self.at = end
        return bytes(out)

    def expr(self):
        out = bytearray()
        while True:
            made = self.operator()
            out += made
            if made == b"\x0b":
                return bytes(out)

    # Sections.

    def import_(self):
        return self.name() + self.item()

    def item(self):
        return self.name() + self.entity()

    def imports(self):
        """A row of an import section. Behind an empty name it may be a compact one, told by its first byte: 7f, and names with a type
        each, or 7e, one type and names."""
        module, name = self.name(), self.name()
        kind = self.peek()
        if name != b"\0" or kind not in (0x7F, 0x7E):
            return module + name + self.entity()
        self.byte()
        return module + name + bytes([kind]) + (self.vec(self.item) if kind == 0x7F else self.entity() + self.vec(self.name))

    def table_row(self):
        if self.peek() == 0x40:
            self.byte()
            if self.byte() != 0:
                raise Fault("no table")
            return b"\x40\0" + self.table() + self.expr()
        return self.table()

    def export(self):
        name, kind = self.name(), self.byte()
        space = {0: F, 0x20: F, 1: T, 2: M, 3: G, 4: X}.get(kind)
        if not space:
            raise Fault("no kind of export")
        if kind == 0x20:
            self.other["exact export"] += 1
        return name + bytes([kind & 31]) + self.index(space)

    def element(self):
        flag = self.number(what="flag")
        if flag > 7:
            raise Fault("no element segment")
        active, table, offset, kind = not flag & 1, b"", b"", b""
        written = active and flag & 2
        if active:
            # A table that is left out is asked as table 0, and stays left out where the answer is 0.
            index = self.ask(T, self.number(what="table index") if written else 0)
            if index or written:
                flag, table = flag | 2, leb(index)
            offset = self.expr()
        if written or not active:
            kind = self.ref() if flag & 4 else bytes([self.byte()])
            if not flag & 4 and kind != b"\0":
                raise Fault("no element kind")
        elif table:
            kind = b"\x70" if flag & 4 else b"\0"
        return leb(flag) + table + offset + kind + self.vec(self.expr if flag & 4 else lambda: self.index(F))

    def segment(self):
        flag = self.number(what="flag")
        if flag > 2:
            raise Fault("no data segment")
        place = b""
        if flag != 1:
            memory = self.ask(M, self.number(what="memory index") if flag else 0)
            if flag and not memory:
                self.other["memory 0 written"] += 1
            flag = 2 if memory else 0
            place = (leb(memory) if memory else b"") + self.expr()
        length = self.number(what="length of data")
        return leb(flag) + place + leb(length) + self.raw(length)

    def local(self):
        return self.u() + self.val()

    def body(self):
        return self.frame(lambda: self.vec(self.local) + self.operators(), "a function")

    def one_name(self, space):
        return (self.index(space) if space else self.u()) + self.name()

    def subsection(self, kind):
        """The contents of a name subsection."""
        if kind == 0:
            return self.name()
        if kind in SPACE_OF_NAMES:
            return self.vec(lambda: self.one_name(SPACE_OF_NAMES[kind]))
        if kind in (2, 3, 10):
            return self.vec(lambda: self.index(B if kind == 10 else F) + self.vec(lambda: self.one_name(None)))
        return self.raw(self.end - self.at)

    def names(self):
        out = bytearray()
        while self.at < self.end:
            kind = self.byte()
            out += bytes([kind]) + self.frame(lambda: self.subsection(kind), f"names of subsection {kind}")
        return bytes(out)

    def custom(self):
        name = self.name()
        return name + (self.names() if name == b"\x04name" else self.raw(self.end - self.at))

    def row(self, kind):
        """What reads a row of a section of this kind."""
        return {1: self.group, 2: self.imports, 3: lambda: self.index(B), 4: self.table_row, 5: self.memory,
                6: lambda: self.global_() + self.expr(), 7: self.export, 9: self.element, 10: self.body, 11: self.segment,
                13: self.tag}[kind]

    def content(self, kind):
        if kind == 0:
            return self.custom()
        if kind > 13:
            return self.raw(self.end - self.at)
        if kind == 8:
            return self.index(F)
        if kind == 12:
            return self.index("data_count")
        return self.vec(self.row(kind))

    def module(self):
        if self.raw(8) != b"\0asm\1\0\0\0":
            raise Fault("no header of a core module")
        out = bytearray(self.data[:8])
        while self.at < len(self.data):
            place, self.end = self.at, len(self.data)
            try:
                kind = self.byte()
                if kind > 127:
                    raise Fault("no section id")
                if 0 < kind < 14:
                    self.call("section_hook")
                out += bytes([kind]) + self.frame(lambda: self.content(kind), f"section {kind}")
            except Fault as fault:
                fault.place = place
                raise
        self.call("section_hook")
        return bytes(out)


def normal(data, renaming=None):
    """The module in normal spelling under a renaming, {space: {index: index}}; the visits of each space; what was spelled
    otherwise, by kind."""
    reader = Reader(data, renaming)
    try:
        return reader.module(), dict(reader.asked), dict(reader.other)
    except RecursionError:
        raise Fault("too deep") from None


def sections(data):
    """The sections of a module: id, name of a custom section, length of the body, bytes of its size."""
    reader = Reader(data, None)
    reader.at = 8
    found = []
    while reader.at < len(data):
        kind, start = reader.byte(), reader.at
        size = reader.number()
        wide = reader.at - start
        body = reader.raw(size)
        name = ""
        if kind == 0:
            inner = Reader(body, None)
            name = inner.raw(inner.number()).decode("utf-8", "replace")
        found.append((kind, name, size, wide))
    return found


if __name__ == "__main__":
    for path in sys.argv[1:]:
        data = open(path, "rb").read()
        try:
            made, _, other = normal(data)
            print(path, len(data), "normal" if made == data else f"normally {len(made)}: " + ", ".join(f"{count} {what}" for what, count in sorted(other.items())))
        except Fault as fault:
            print(path, len(data), f"no reading at {fault.place}: {fault.why}")
