"""The cases of core modules and components in a component: the ids 1 and 4."""
from case_lines import *
from flat_rows import ALIASES, CANON, IMPORTS
from type_rows import CLOSED_GROUPS, DEFINED, component_type, module_type

NON_CORE = "There was a section that does not belong in a core wasm module"
NON_COMPONENT = "There was a section that does not belong in a component"
CODE_SIZE = "invalid code section size"

# Sections of core modules.
TYPES = core_section(1, vec(function_type([fixed("7f"), seq(fixed("63"), sx("type", 64))], [fixed("7f")]), sub_final(function_type([], []))))
IMPORT = core_section(2, vec(seq(name("env"), name("f"), fixed("00"), ix("type", 1)), seq(name(""), name("m"), fixed("02"), fixed("00"), num(1))))
FUNCTIONS = core_section(3, vec(ix("type", 0), ix("type", 130)))
TABLES = core_section(4, vec(seq(fixed("70", "6370"), fixed("00"), num(3))))
GLOBALS = core_section(6, vec(seq(fixed("7f00"), fixed("23"), ix("global", 2), fixed("0b"))))
EXPORTS = core_section(7, vec(seq(name("f"), fixed("00", "20"), ix("function", 5)), seq(name("t"), fixed("01"), ix("table", 0))))
START = core_section(8, ix("function", 200))
# The items first, then the table, then the place in it.
ELEMENTS = core_section(9, vec(seq(num(2), ix("table", 3), seq(fixed("23"), ix("global", 1), fixed("0b")), fixed("00"),
                                   vec(ix("function", 5), ix("function", 6)), order=[4, 1, 2])))
COUNT = core_section(12, ix("data_count", 1))
# A function body has a size of its own.
CODE = core_section(10, vec(sized(seq(vec(seq(num(2), fixed("7e")), seq(num(1), fixed("63"), sx("type", 3))), fixed("10"), ix("function", 7),
                                      fixed("0b"))), sized(seq(vec(), fixed("11"), ix("type", 64), ix("table", 1), fixed("0b")))))
DATA = core_section(11, vec(seq(num(1), num(2), fixed("abcd"))))
TAGS = core_section(13, vec(seq(fixed("00"), ix("type", 8))))
NAMES = custom("name", seq(fixed("00"), sized(name("m")), fixed("01"), sized(vec(seq(ix("function", 5), name("f"))))))
OTHER = custom("producers", fixed("00ff"))
MODULES = [("the header alone", core_module()),
           ("types, functions, exports, bodies", core_module(TYPES, FUNCTIONS, EXPORTS, CODE)),
           ("every section", core_module(TYPES, IMPORT, FUNCTIONS, TABLES, TAGS, GLOBALS, EXPORTS, START, ELEMENTS, COUNT, CODE, DATA, NAMES)),
           ("custom sections, and one of another id: for these the section hook is not called", core_module(OTHER, NAMES, raw(99, "aabb"), OTHER))]
# Sections of a component.
ALIAS = section(6, vec(ALIASES[1][1][1], ALIASES[2][1][1]))
LIFT = section(8, vec(CANON[0][1][0]))
NAMED = section(10, vec(IMPORTS[0][1][0]))
TYPE = section(7, vec(component_type(seq(fixed("00"), module_type(seq(fixed("01"), CLOSED_GROUPS[1])))), DEFINED[1][1][0]))
CORE_TYPE = section(3, vec(CLOSED_GROUPS[0]))
RAW = raw(77, "00ff")
COMPONENTS = [("the header alone", component()),
              ("sections that open no scope", component(ALIAS, LIFT, NAMED, RAW)),
              ("core modules and components", component(nested_module(MODULES[1][1]), ALIAS, nested_component(component(nested_module(MODULES[0][1]), LIFT)),
                                                        nested_component(component())))]
WITH_TYPES = [("types, with scopes of their own", component(CORE_TYPE, TYPE)),
              ("types in components in it, beside core modules",
               component(nested_component(component(TYPE, nested_module(MODULES[1][1]), nested_component(component(CORE_TYPE, ALIAS)))), CORE_TYPE))]
# Written by hand.
WORKED = """# A core module's header, and a component's, in a component: each with scopes round it, and of the other kind.
component counted : HEADER 0108 MODULE -> HEADER0108MODULE asked section_hook 1 push 1 pop 1
component counted : HEADER 0408 HEADER -> HEADER0408HEADER asked push 1 pop 1
component : HEADER 0108 HEADER -> There was a section that does not belong in a core wasm module
component : HEADER 0408 MODULE -> There was a section that does not belong in a component
component : HEADER 0100 -> nothing at 8
component : HEADER 0400 -> nothing at 8
# A size becomes shorter with what stands behind it.
component type.0=1 counted : HEADER 01 8e8000 MODULE 03 8300 01 8000 -> HEADER010cMODULE03020101 asked type 1 section_hook 2 push 1 pop 1
component type.0=128 counted : HEADER 04 97808000 HEADER 01 8c00 MODULE 03 02 01 00 -> HEADER0417HEADER010dMODULE0303018001 asked type 1 section_hook 2 push 2 pop 2
# What a strict renaming refuses in a core module, and in a component: the scope stays open.
component strict counted : HEADER 010c MODULE 0302 01 05 -> refused type 5 asked type 1 section_hook 1 push 1
component strict counted : HEADER 0410 HEADER 0606 01 0010 02 00 05 -> refused type 5 asked type 1 push 1
component strict counted : HEADER 0416 HEADER 010c MODULE 0302 01 05 -> refused type 5 asked type 1 section_hook 1 push 2"""


def nested(inner):
    return (nested_module if inner.spell(Spelling())[4] == 1 else nested_component)(inner)


def tries(whole):
    """A component by another spelling, renamed, by strict renamings, and under ceilings."""
    return [spelled(whole)] + ([renamed(whole)] if indices_of(whole.asks) else []) + refused(whole) + ceilings(whole)


def each_of(kind, found):
    lines = []
    for text, inner in found:
        lines.append(f"# {kind} in a component, alone, between other sections, and inside two components more: {text}")
        lines += tries(component(nested(inner)))
        lines += [both(component(ALIAS, RAW, nested(inner), LIFT, nested(inner))),
                  both(component(NAMED, nested_component(component(LIFT, nested_component(component(nested(inner), ALIAS)), RAW))))]
    return lines


def each():
    lines = each_of("A core module", MODULES) + each_of("A component", COMPONENTS)
    lines.append("# In any order, repeated.")
    every = [nested(inner) for _, inner in MODULES + COMPONENTS]
    return lines + [both(component(*every, *every[::-1])), both(component(NAMED, *every[::-1], ALIAS))]


def in_components(depth, row):
    """A section with so many components round it."""
    for _ in range(depth):
        row = nested_component(component(*row))
        row = [row]
    return component(*row)


def deepest(text, section_, scopes):
    """A section that opens so many scopes, as deep as it is read, and one deeper."""
    return [f"# Behind other sections, in the last of them: {text}", both(in_components(200 - scopes, [ALIAS, section_, LIFT])),
            nothing_of(in_components(201 - scopes, [ALIAS, section_, LIFT]))]


def depths():
    lines = ["# 200 components within each other in one, and 201. At such a depth sections that open no scope are read, and no others."]
    lines += [spelled(in_components(200, [])), nothing_of(in_components(201, []))]
    lines += deepest("a core module", nested_module(MODULES[1][1]), 1)
    lines += [both(in_components(200, [ALIAS, LIFT, RAW]))] + refused(in_components(200, [ALIAS]))
    lines.append("# A core module and a component of the other kind, and a size past the end, at the last depth that is read, and one deeper.")
    for number, inner, text in ((1, COMPONENT, NON_CORE), (4, MODULE, NON_COMPONENT), (1, MODULE + bytes.fromhex("0a0901"), CODE_SIZE)):
        for depth, wanted in ((0, text), (1, text), (199, text), (200, "nothing at 8")):
            lines.append(case([], in_components(depth, [raw(number, inner.hex())]).spell(Spelling(other=True)), wanted))
    lines.append("# Its place is that of the outermost of them.")
    front = component(ALIAS, nested(MODULES[1][1]))
    given = component(ALIAS, nested(MODULES[1][1]), nested_component(in_components(200, [])))
    lines.append(case([], given.spell(Spelling()), f"nothing at {len(front.spell(Spelling()))}"))
    return lines


def nothing_of(whole):
    return case([], whole.spell(Spelling()), "nothing at 8")


# Bytes of no core module, and of no component.
WRONG_MODULES = [
    ("a header that is cut, or another", ["", "00", "0061736d010000", "0061736d00000000", "0061736d02000000", "0061736d01000100", "0161736d01000000",
                                          "0061736d0a000100"]),
    ("sections that end nowhere, or have no reading",
     ["MODULE 03", "MODULE 0302 01", "MODULE 0302 0100 00", "MODULE 0303 01 00", "MODULE 0301 01", "MODULE 01 02 01 61", "MODULE 8000", "MODULE ff00",
      "MODULE 0b 09 01", "MODULE 0800", "MODULE 00 00", "MODULE 0002 02 61", "MODULE 0302 01 00 03", "MODULE 0302 01 00 0800",
      "MODULE 00 07 04 6e616d65 00 01", "MODULE 0a04 01 02 00 ff", "MODULE 0a04 01 03 00 0b"]),
    ("a code section's size past the end, where no number is behind it, and where the size is none",
     ["MODULE 0a", "MODULE 0a09", "MODULE 0a80", "MODULE 0a05 8080", "MODULE 0a 808080808010 00", "MODULE 0a 8080808010 00", "MODULE 0301 01 0a 09 01"])]
CODE_SIZES = ["MODULE 0a 09 01", "MODULE 0a 09 00", "MODULE 0a ffffffff0f 00", "MODULE 0a 02 00", "MODULE 0a 03 8000", "MODULE 0302 01 00 0a 05 01 02 00 0b",
              "MODULE 0a04 01 02 00 0b 0a 02 00", "MODULE 0a 8900 ffffffff0f"]
WRONG_COMPONENTS = [
    ("a header that is cut, or another", ["", "0061736d0d0001", "0061736d0d000000", "0061736d0c000100", "0061736d0e000100", "0161736d0d000100"]),
    ("sections that end nowhere, or have no reading",
     ["HEADER 06", "HEADER 0602 01", "HEADER 0601 01", "HEADER 8000", "HEADER 0a 09 01", "HEADER 0c 02 01", "HEADER 0801 00 0901", "HEADER 0702 01 00",
      "HEADER 0109 MODULE", "HEADER 0409 HEADER", "HEADER 0100", "HEADER 0400", "HEADER 0a 02 01", "HEADER 010b MODULE 0302 01", "HEADER 040b HEADER 0602 01"])]


def digits(text):
    return text.replace("HEADER", COMPONENT.hex()).replace("MODULE", MODULE.hex())


def faults():
    """What is asked of a section in which a fault is, is left open."""
    behind = raw(12, "00").spell(Spelling())
    front = component(ALIAS, nested_module(MODULES[1][1])).spell(Spelling(other=True))
    lines = []
    for number, found in ((1, [(text, bodies, None) for text, bodies in WRONG_MODULES] + [("a code section's size past its end", CODE_SIZES, CODE_SIZE)]),
                          (4, [(text, bodies, None) for text, bodies in WRONG_COMPONENTS])):
        for text, bodies, wanted in found:
            lines.append(f"# {'A core module' if number == 1 else 'A component'} that has no reading, alone, behind other sections, and in a component: {text}")
            for body in bodies:
                frame = raw(number, digits(body))
                lines.append(case([], component(frame).spell(Spelling()) + behind, wanted or "nothing at 8"))
                lines.append(case([], front + frame.spell(Spelling()) + behind, wanted or f"nothing at {len(front)}"))
                lines.append(case([], front + nested_component(component(RAW, frame)).spell(Spelling()), wanted or f"nothing at {len(front)}"))
    lines.append("# The other kind, behind other sections, and in a component.")
    for number, body, wanted in ((1, COMPONENT, NON_CORE), (1, COMPONENT + b"\6\0", NON_CORE), (4, MODULE, NON_COMPONENT), (4, MODULE + b"\x0a\x09\1", NON_COMPONENT)):
        frame = raw(number, body.hex())
        lines += [case([], front + frame.spell(Spelling()) + behind, wanted),
                  case([], front + nested_component(component(RAW, nested_component(component(frame)))).spell(Spelling()), wanted)]
    lines.append("# No frame: a size past the end, one that is a longer number than is read, and no size. A size past the end of a section of "
                 "imports is no code section's.")
    for text in ("0109 MODULE", "01ffffffff0f MODULE", "01 888080808000 MODULE", "01", "0188", "0409 HEADER", "04ffffffff0f HEADER", "04 888080808000 HEADER", "04",
                 "0a 09 01", "0a 05 01 00"):
        lines.append(case([], front + bytes.fromhex(digits(text)), f"nothing at {len(front)}"))
    lines.append("# Which comes first: a refusal in a section before, a frame before that is too large, a section before that has no reading.")
    wrong = [raw(1, ""), raw(1, COMPONENT.hex()), raw(4, MODULE.hex()), raw(1, digits("MODULE 0a0901"))]
    before = component(RAW, section(6, vec(ALIASES[2][1][0]))).spell(Spelling())
    for frame in wrong:
        given = before + frame.spell(Spelling())
        lines += [case(["strict", "counted"], given, "refused type 9 asked type 1"), case(["under=1", "counted"], given, "size 2 is too large asked"),
                  case(["under=5", "counted"], given, "size 6 is too large asked type 1"),
                  case(["counted"], COMPONENT + b"\6\1\1" + frame.spell(Spelling()), "nothing at 8 asked")]
    return lines


def cases():
    """The lines."""
    return ["# Core modules and components in a component, by tools/component_cases. The hooks of a core module are called, too; scopes "
            "that are open where one refuses stay open."] + worked(WORKED) + each() + depths() + faults()


def cases_with_types():
    """Those that hold types, too."""
    lines = ["# Types in components in a component, by tools/component_cases. The scopes of types count with those of components."]
    lines += each_of("A component", WITH_TYPES) + deepest("a component type with a module type in it", TYPE, 2)
    lines += deepest("a module type", section(3, vec(module_type())), 1)
    flat = [CORE_TYPE, section(7, vec(*DEFINED[1][1]))]
    lines.append("# Types that open no scope, in the last of 200 components.")
    return lines + [both(in_components(200, [ALIAS, *flat, LIFT, RAW]))] + refused(in_components(200, [*flat, ALIAS]))
