"""The cases of counts, lengths and sizes that the bytes do not hold: at each vector, name, frame and run of bytes of both formats."""
from case_lines import *
from component_reader import SAID, kind_of, Fault, normal
from flat_rows import ALIASES, CANON, COMPONENT_INSTANCES, EXPORTS, IMPORTS, INSTANCES
from made import constant
from name_cases import COPIED, EACH, MINE, named
from nested_cases import TABLES, TAGS, GLOBALS, EXPORTS as CORE_EXPORTS, RAW
from type_rows import (COMPONENT_DECLARATIONS, CORE_TYPES, DEFINED, ENTITIES, FUNCTIONS, FUNC_TYPE, INSTANCE_DECLARATIONS, MODULE_DECLARATIONS, STRUCT,
                       component_type, final_type, group, instance_type, module_type, open_type)

# The number of which no vector, name or frame here has as many.
MOST = 2**32 - 1


class Lying(Spelling):
    """The count, length or size of this place, in the order in which they are spelled, is another number; and behind what it counts
    stand these bytes."""

    def __init__(self, place, told, behind=b""):
        super().__init__()
        self.place, self.told, self.behind, self.counts = place, told, behind, 0

    def counted(self, count, inside):
        self.counts += 1
        if self.counts - 1 != self.place:
            return super().counted(count, inside)
        return self.number(self.told) + inside() + self.behind


def some(groups):
    """A row of each group, the first."""
    return [rows[0] for _, rows in groups]


def functions(*indices):
    return vec(*[ix("function", index) for index in indices])


def expressions(*indices):
    return vec(*[seq(fixed("d2"), ix("function", index), fixed("0b")) for index in indices])


OFFSET = seq(constant(0), fixed("0b"))
TABLE = ix("table", 1)
ELEMENTS = [seq(num(0), OFFSET, functions(1, 2)), seq(num(1), fixed("00"), functions(1)), seq(num(2), TABLE, OFFSET, fixed("00"), functions(1)),
            seq(num(3), fixed("00"), functions(1)), seq(num(4), OFFSET, expressions(1, 2)), seq(num(5), fixed("70"), expressions(1)),
            seq(num(6), TABLE, OFFSET, fixed("70"), expressions(1)), seq(num(7), fixed("70"), expressions(1))]
DATA = [seq(num(0), OFFSET, content(b"ab")), seq(num(1), content(b"")), seq(num(2), ix("memory", 1), OFFSET, content(b"c"))]
# Operators with lists: of labels, of types, of catches, of handlers.
OPERATORS = [seq(fixed("0e"), vec(num(0), num(1)), num(0)), seq(fixed("1c"), vec(fixed("7f"))),
             seq(fixed("1f40"), vec(seq(fixed("00"), ix("tag", 0), num(0)), seq(fixed("02"), num(0))), fixed("0b")),
             seq(fixed("e3"), ix("type", 0), vec(seq(fixed("00"), ix("tag", 0), num(0)))),
             seq(fixed("e4"), ix("type", 0), ix("tag", 0), vec(seq(fixed("01"), ix("tag", 0))))]


def subsection(number, body):
    return seq(fixed(number), sized(body))


def namings(space):
    return vec(seq(ix(space, 1), name("f")), seq(ix(space, 2), name("")))


def within(space):
    """Names inside what an index is."""
    return vec(seq(ix(space, 1), vec(seq(num(0), name("x")), seq(num(1), name("y")))))


CORE_NAMES = [subsection("00", name("m"))]
CORE_NAMES += [subsection(number, namings(space)) for number, space in
               (("01", "function"), ("04", "type"), ("05", "table"), ("06", "memory"), ("07", "global"), ("08", "element"), ("09", "data"), ("0b", "tag"))]
CORE_NAMES += [subsection(number, within(space)) for number, space in (("02", "function"), ("03", "function"), ("0a", "type"))]
MODULES = [
    ("groups, supertypes, parameters, results, fields", [core_section(1, vec(group(open_type([7], FUNC_TYPE), final_type([1, 2], STRUCT)), FUNC_TYPE))]),
    ("imports", [core_section(2, vec(seq(name("env"), name("n"), ENTITIES[2])))]),
    ("functions", [core_section(3, vec(ix("type", 0), ix("type", 1)))]),
    ("tables", [TABLES]), ("memories", [core_section(5, vec(fixed("0001")))]), ("tags", [TAGS]), ("globals", [GLOBALS]), ("exports", [CORE_EXPORTS]),
    ("the start, the number of data segments", [core_section(8, ix("function", 1)), core_section(12, ix("data_count", 1))]),
    ("element segments of each flag", [core_section(9, vec(row)) for row in ELEMENTS]),
    ("bodies, locals, lists of operators", [core_section(10, vec(sized(seq(vec(seq(num(2), fixed("7e"))), row, fixed("0b"))))) for row in OPERATORS]),
    ("data segments", [core_section(11, vec(row)) for row in DATA]),
    ("names", [custom("name", row) for row in CORE_NAMES]),
    ("other sections", [custom("other", fixed("00ff")), section(14, fixed("00ff"))])]
TYPES = some(DEFINED[1:] + FUNCTIONS)
COMPONENTS = [
    ("core instances", [section(2, vec(*some(INSTANCES)))]),
    ("core types", [section(3, vec(row)) for row in some(CORE_TYPES)]),
    ("declarations of module types", [section(3, vec(module_type(row))) for row in some(MODULE_DECLARATIONS[:-1])]),
    ("instances", [section(5, vec(*some(COMPONENT_INSTANCES)))]), ("aliases", [section(6, vec(*some(ALIASES)))]),
    ("types", [section(7, vec(row)) for row in TYPES]),
    ("declarations of instance types", [section(7, vec(instance_type(row))) for row in some(INSTANCE_DECLARATIONS[:-1])]),
    ("declarations of component types", [section(7, vec(component_type(row))) for row in some(COMPONENT_DECLARATIONS[:-1])]),
    ("canonical functions", [section(8, vec(row)) for row in some(CANON)]),
    ("the start", [section(9, seq(ix("component_func", 1), vec(ix("component_value", 1), ix("component_value", 2)), num(1)))]),
    ("imports", [section(10, vec(*some(IMPORTS)))]), ("exports", [section(11, vec(*some(EXPORTS)))]),
    ("names", [named(row) for row in [MINE, EACH[0], EACH[8], COPIED[0]]]), ("other sections", [custom("other", fixed("00ff")), RAW]),
    ("core modules and components", [nested_module(core_module()), nested_component(component()), nested_component(component(RAW))])]


def wholes():
    """What each count stands in: a name, and a module or component with one section that has it."""
    found = [(f"core: {text}", core_module(row)) for text, rows in MODULES for row in rows]
    return found + [(f"component: {text}", component(row)) for text, rows in COMPONENTS for row in rows]


def places(whole):
    """How many counts, lengths and sizes stand in it."""
    spelling = Lying(None, 0)
    whole.spell(spelling)
    return spelling.counts


def said_of(data):
    """What is said of bytes that have no reading."""
    try:
        normal(data)
    except Fault as fault:
        return SAID.get(kind_of(fault, data, False), f"nothing at {fault.place}")
    return None


def cases():
    """The lines."""
    lines = ["# Counts, lengths and sizes that the bytes do not hold, by tools/component_cases: at each vector, name and frame, of a core module in a "
             "component, and of a component."]
    for kind, found in (("core", MODULES), ("component", COMPONENTS)):
        for text, rows in found:
            lines.append(f"# {kind}: {text}")
            for row in rows:
                whole = component(nested_module(core_module(row)) if kind == "core" else row)
                for place in range(places(whole)):
                    data = whole.spell(Lying(place, MOST))
                    said = said_of(data)
                    if said:
                        lines.append(case([], data, said))
    return lines
