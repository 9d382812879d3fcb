"""The rows of core types and of types, and of the declarations in them, as fields."""
from fields import *
from flat_rows import ALIASES, CORE_VALUES, NAMES, TYPE_REFS

# Value types: primitive ones, and types by their index.
VALUES = [fixed(byte) for byte in PRIMITIVES] + [of_type(i) for i in (0, 63, 64, 200)]
BOOL, STRING, SMALL, LARGE = VALUES[0], VALUES[12], of_type(2), of_type(8191)


def present(field):
    """What may be left out, and stands there."""
    return seq(fixed("01"), field)


ABSENT = fixed("00")


def labelled(text, *fields):
    return seq(name(text), *fields)


def variant_case(text, value):
    return labelled(text, value, fixed("00"))


def named(*texts):
    return vec(*[name(text) for text in texts])


def result(ok, err):
    return seq(fixed("6a"), ok, err)


DEFINED = [
    ("primitive types", [fixed(byte) for byte in PRIMITIVES]),
    ("record: the fields in order", [
        seq(fixed("72"), vec(labelled("a", STRING), labelled("b-c", LARGE), labelled("", SMALL), labelled("\u00e9", BOOL))),
        seq(fixed("72"), vec())]),
    ("variant: cases with a type and without", [
        seq(fixed("71"), vec(variant_case("a", present(SMALL)), variant_case("b", ABSENT), variant_case("c", present(BOOL)))),
        seq(fixed("71"), vec())]),
    ("list: of each value type", [seq(fixed("70"), value) for value in VALUES]),
    ("tuple", [seq(fixed("6f"), vec(LARGE, STRING, SMALL, of_type(64))), seq(fixed("6f"), vec())]),
    ("flags", [seq(fixed("6e"), named("read", "write", "")), seq(fixed("6e"), named())]),
    ("enum", [seq(fixed("6d"), named(*NAMES)), seq(fixed("6d"), named())]),
    ("option", [seq(fixed("6b"), BOOL), seq(fixed("6b"), of_type(64))]),
    ("result: both types, one, and none", [result(present(SMALL), present(LARGE)), result(present(STRING), ABSENT),
                                           result(ABSENT, present(SMALL)), result(ABSENT, ABSENT)]),
    ("own, borrow", [seq(fixed(byte), ix("component_type", i)) for byte in ("69", "68") for i in (3, 64)]),
    ("list of a fixed length", [seq(fixed("67"), SMALL, num(300)), seq(fixed("67"), fixed("7d"), num(0))]),
    ("stream, future: of a type, and of none",
     [seq(fixed(byte), value) for byte in ("66", "65") for value in (present(SMALL), present(BOOL), ABSENT)]),
    ("map", [seq(fixed("63"), STRING, LARGE), seq(fixed("63"), SMALL, of_type(3))]),
]


def function(byte, params, of):
    return seq(fixed(byte), vec(*params), of)


NO_RESULT = fixed("0100")


def returns(value):
    return seq(fixed("00"), value)


def resource(value, destructor):
    return seq(fixed("3f"), value, destructor)


DESTRUCTOR = present(ix("function", 6))
FUNCTIONS = [
    ("functions: parameters in order, then the result, or none; async ones",
     [function(byte, [labelled("p", SMALL), labelled("q", STRING), labelled("r", LARGE)], of)
      for byte in ("40", "43") for of in (returns(of_type(64)), NO_RESULT)]
     + [function(byte, [], of) for byte in ("40", "43") for of in (returns(BOOL), NO_RESULT)]),
    ("resources: each value type of core modules, then the function that destroys, or none",
     [resource(value, DESTRUCTOR) for value in CORE_VALUES] + [resource(fixed("7f"), ABSENT), resource(CORE_VALUES[8], ABSENT)]),
]


def component_type(*declarations):
    return seq(fixed("41"), scope(vec(*declarations)))


def instance_type(*declarations):
    return seq(fixed("42"), scope(vec(*declarations)))


def module_type(*declarations):
    return seq(fixed("50"), scope(vec(*declarations)))


def in_two(row):
    """A type with two scopes round it."""
    return component_type(seq(fixed("01"), instance_type(seq(fixed("01"), row))))


def core_in_two(row):
    """A core type with two scopes round it."""
    return component_type(seq(fixed("01"), instance_type(seq(fixed("00"), row))))


# Core types. A field of a structure, or an array's: a type, and whether it is mutable.
REFERENCE = seq(fixed("63"), sx("type", 64))
FUNC_TYPE = function_type([fixed("7f"), REFERENCE, fixed("6e", "636e")], [seq(fixed("64"), sx("type", 2))])
ARRAY = seq(fixed("5e"), seq(fixed("63"), sx("type", 70)), fixed("01"))
STRUCT = seq(fixed("5f"), vec(fixed("7800"), fixed("7701"), seq(fixed("7c"), fixed("00")), seq(fixed("656b", "63656b"), fixed("01")),
                              seq(fixed("6362"), ix("type", 5), fixed("00"))))
CONTINUATION = seq(fixed("5d"), sx("type", 64))
EMPTY = fixed("5f00")


def open_type(supertypes, inner):
    return seq(fixed("50"), vec(*[ix("type", i) for i in supertypes]), inner)


def final_type(supertypes, inner):
    return seq(fixed("4f"), vec(*[ix("type", i) for i in supertypes]), inner)


def group(*types):
    return seq(fixed("4e"), vec(*types))


# The type itself is asked first, then the descriptor, then what it describes.
DESCRIBED = seq(fixed("65"), seq(fixed("4c"), ix("type", 11)), seq(fixed("4d"), ix("type", 12)), ARRAY, order=[0, 3, 2, 1])
DESCRIPTOR = seq(seq(fixed("4d"), ix("type", 12)), STRUCT, order=[1, 0])
# Groups that do not begin as an open type does.
CLOSED_GROUPS = [sub_final(inner) for inner in (FUNC_TYPE, ARRAY, STRUCT, CONTINUATION, EMPTY, DESCRIBED, DESCRIPTOR)]
CLOSED_GROUPS += [final_type([7, 130], FUNC_TYPE), group(), group(sub_final(EMPTY)),
                  group(open_type([9], FUNC_TYPE), sub_final(ARRAY), final_type([64], EMPTY), open_type([], EMPTY))]
OPEN_TYPES = [open_type([], EMPTY), open_type([7, 130], FUNC_TYPE)]
# The types of what a module imports and exports.
TABLE = seq(fixed("01"), fixed("70", "6370"), fixed("00"), num(3))
ENTITIES = [seq(fixed("00"), ix("type", 3)), seq(fixed("20"), ix("type", 200)), TABLE,
            seq(fixed("01"), REFERENCE, fixed("01"), num(1), num(300)), seq(fixed("01"), seq(fixed("64"), sx("type", 2)), fixed("04"), num(0)),
            seq(fixed("02"), fixed("00"), num(2)), seq(fixed("02"), fixed("03"), num(2), num(65536)),
            seq(fixed("02"), fixed("0d"), num(0), num(2**32), num(16)), seq(fixed("03"), fixed("7f"), fixed("00")),
            seq(fixed("03"), REFERENCE, fixed("01")), seq(fixed("03"), fixed("6f", "636f"), fixed("03")),
            seq(fixed("0400"), ix("type", 64))]
MODULE_DECLARATIONS = [
    ("imports of each kind", [seq(fixed("00"), name("env"), name("n"), entity) for entity in ENTITIES]),
    ("groups of types, also such that begin as an open type", [seq(fixed("01"), row) for row in CLOSED_GROUPS[:4] + CLOSED_GROUPS[-2:] + OPEN_TYPES]),
    ("outer types: the count stays, and the index is one so many scopes further out",
     [seq(fixed("0210"), fixed("01"), num(count), ix("type", i)) for count, i in ((0, 5), (1, 200), (300, 0))]),
    ("exports of each kind", [seq(fixed("03"), name("n"), entity) for entity in ENTITIES]),
    ("names", [seq(fixed("00"), name(text), name(text), ENTITIES[0]) for text in NAMES[1:6]]
     + [seq(fixed("03"), name(text), ENTITIES[0]) for text in NAMES[1:6]]),
]
CORE_TYPES = [
    ("a group of types that does not begin as an open type", CLOSED_GROUPS),
    ("an open type, behind 00", [seq(fixed("00"), row) for row in OPEN_TYPES]),
    ("module types: no declaration, and one of each kind",
     [module_type(), module_type(*[rows[0] for _, rows in MODULE_DECLARATIONS])]),
]
SOME_TYPES = [DEFINED[1][1][0], FUNCTIONS[0][1][0], FUNCTIONS[1][1][8], component_type(), instance_type()]
SOME_CORE_TYPES = [CLOSED_GROUPS[0], seq(fixed("00"), OPEN_TYPES[1]), CORE_TYPES[2][1][1]]


def declarations(imports):
    """Those of a component type have imports, too."""
    rows = [("core types", [seq(fixed("00"), row) for row in SOME_CORE_TYPES]),
            ("types", [seq(fixed("01"), row) for row in SOME_TYPES])]
    rows += [("aliases: " + text, [seq(fixed("02"), row) for row in found]) for text, found in ALIASES]
    if imports:
        rows.append(("imports of each type", [seq(fixed("03"), extern("a"), ty) for ty in TYPE_REFS]))
    rows.append(("exports of each type", [seq(fixed("04"), extern("a"), ty) for ty in TYPE_REFS]))
    rows.append(("names", [seq(fixed(byte), extern(text), seq(fixed("01"), ix("component_type", 3)))
                           for byte in (("03", "04") if imports else ("04",)) for text in NAMES]))
    return rows


INSTANCE_DECLARATIONS, COMPONENT_DECLARATIONS = declarations(False), declarations(True)
