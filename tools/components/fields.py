"""Components and core modules told as fields, and from these their spellings: for tools/component_cases, tools/made_components and
the tools that take what this makes.

It is written from the binary formats (Component Model, Binary Format; WebAssembly Core Specification 3.0, chapter 5) and shares
nothing with the crates. A part is told as its fields, in the order of their bytes: fixed bytes with the other bytes that are read
as the same, numbers, names, indices with their spaces, and frames; and as what is asked for it, in order: an index of a space, or
a call that asks none, `section_hook`, `push` or `pop`. From these come its bytes, by the one spelling that is written and by
longer numbers and other bytes, with indices renamed too; the sizes of its frames as they close; and how often what is asked.
"""
import sys

# Scopes stand 200 deep in each other, and each is a few calls.
sys.setrecursionlimit(20_000)
MODULE, COMPONENT = bytes.fromhex("0061736d01000000"), bytes.fromhex("0061736d0d000100")
# The spaces in the order in which their counts are told; a strict renaming refuses indices of the first eight alone.
SPACES = """data element function global memory table tag type data_count component_type component_instance component_func
component module instance component_value""".split()
CORE = SPACES[:8]
CALLS = ["section_hook", "push", "pop"]


def leb(value, signed, more):
    """A number by its shortest spelling and so many bytes more, of five at most."""
    out, filler = [], 0x7F if value < 0 else 0
    while True:
        byte, value = value & 0x7F, value >> 7
        out.append(byte)
        if value == 0 and not (signed and byte & 0x40) or signed and value == -1 and byte & 0x40:
            break
    out += [filler] * min(more, 5 - len(out))
    return bytes([b | 0x80 for b in out[:-1]] + out[-1:])


class Spelling:
    """How bytes are spelled: with longer numbers and other bytes, or not, and with indices renamed. While bytes are spelled by it
    it counts what was asked so far, and keeps each frame's size with that count, in the order in which they close."""

    def __init__(self, other=False, renames=None):
        self.other, self.renames, self.numbers = other, renames or {}, 0
        self.asked, self.frames = 0, []

    def number(self, value, signed=False):
        self.numbers += 1
        return leb(value, signed, 1 + self.numbers % 4 if self.other else 0)

    def fixed(self, written, read):
        return read if self.other else written

    def index(self, space, index):
        self.asked += 1
        return self.renames.get((space, index), index)

    def call(self):
        self.asked += 1
        return b""

    def counted(self, count, inside):
        """A count or a length, and what it counts, which is spelled behind it."""
        return self.number(count) + inside()

    def frame(self, inside):
        self.frames.append((len(inside), self.asked))
        return self.counted(len(inside), lambda: inside)


class Field:
    """A part: a function from a spelling to its bytes, and what is asked for it, in order: spaces with indices, and calls."""

    def __init__(self, spell, asks=()):
        self.spell, self.asks = spell, list(asks)


def fixed(digits, read=None):
    """Fixed bytes, and what is read as the same."""
    written = bytes.fromhex(digits)
    return Field(lambda s: s.fixed(written, bytes.fromhex(read) if read else written))


def num(value):
    return Field(lambda s: s.number(value))


def ix(space, index):
    assert space in SPACES
    return Field(lambda s: s.number(s.index(space, index)), [(space, index)])


def sx(space, index):
    assert space in SPACES
    return Field(lambda s: s.number(s.index(space, index), signed=True), [(space, index)])


def content(data):
    """Bytes behind their length."""
    return Field(lambda s: s.counted(len(data), lambda: data))


def name(text):
    return content(text.encode())


def call(what):
    """A call that asks no index, and has no bytes."""
    assert what in CALLS
    return Field(lambda s: s.call(), [(what, None)])


def seq(*fields, order=None):
    """Fields one behind another; `order` lists them as they are asked, where that is another order."""
    return Field(lambda s: b"".join([f.spell(s) for f in fields]),
                 [ask for i in order or range(len(fields)) for ask in fields[i].asks])


def vec(*items):
    whole = seq(*items)
    return Field(lambda s: s.counted(len(items), lambda: whole.spell(s)), whole.asks)


def sized(body):
    """What stands behind its size."""
    return Field(lambda s: s.frame(body.spell(s)), body.asks)


def section(number, body):
    """A section in its frame."""
    framed = sized(body)
    return Field(lambda s: bytes([number]) + framed.spell(s), framed.asks)


def raw(number, digits):
    return section(number, fixed(digits))


def custom(text, contents):
    """A section with a name: in a core module or in a component."""
    return section(0, seq(name(text), contents))


def scope(*fields):
    """What is asked with one scope more open."""
    return seq(call("push"), *fields, call("pop"))


def component(*sections):
    whole = seq(*sections)
    return Field(lambda s: COMPONENT + whole.spell(s), whole.asks)


def core_section(number, body):
    """A section of a core module, of the ids 1 to 13: it is asked for itself first."""
    return seq(call("section_hook"), section(number, body))


def core_module(*sections):
    whole = seq(*sections, call("section_hook"))
    return Field(lambda s: MODULE + whole.spell(s), whole.asks)


def nested_module(module):
    return section(1, scope(module))


def nested_component(inner):
    return section(4, scope(inner))


def extern(text):
    """A name of an import or an export: behind 00, and 01 is read as the same."""
    return seq(fixed("00", "01"), name(text))


# Sorts with an index of their space.
SORTED = [("0011", "module"), ("01", "component_func"), ("02", "component_value"), ("03", "component_type"),
          ("04", "component"), ("05", "component_instance")]
# Core items: a function also behind 20.
ITEMS = [("00", "20", "function"), ("01", None, "table"), ("02", None, "memory"), ("03", None, "global"), ("04", None, "tag")]
PRIMITIVES = "7f 7e 7d 7c 7b 7a 79 78 77 76 75 74 73 64".split()


def sort(i, index):
    return seq(fixed(SORTED[i][0]), ix(SORTED[i][1], index))


def item(i, index):
    return seq(fixed(ITEMS[i][0], ITEMS[i][1]), ix(ITEMS[i][2], index))


def of_type(index):
    return sx("component_type", index)


def function_type(params, results):
    """A type of core functions, of value types."""
    return seq(fixed("60"), vec(*params), vec(*results))


def sub_final(inner):
    """A type without supertypes that has no subtypes: alone, and behind 4f 00 it is read as the same."""
    return seq(fixed("", "4f00"), inner)


def counts_of(asks):
    asked = [what for what, _ in asks]
    return " ".join(["asked"] + [f"{what} {asked.count(what)}" for what in SPACES + CALLS if what in asked])


def indices_of(asks):
    """Each index that is asked for, once, in the order of its first time."""
    return list(dict.fromkeys(ask for ask in asks if ask[0] in SPACES))
