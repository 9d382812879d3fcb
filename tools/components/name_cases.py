"""The cases of sections with a name: the id 0."""
from case_lines import *
from nested_cases import ALIAS, NAMES as CORE_NAMES, RAW

# The sorts by which names are given, with their spaces.
SORTS = [("0000", "function"), ("0001", "table"), ("0002", "memory"), ("0003", "global"), ("0004", "tag"), ("0010", "type"), ("0011", "module"),
         ("0012", "instance"), ("01", "component_func"), ("02", "component_value"), ("03", "component_type"), ("04", "component"),
         ("05", "component_instance")]


def named(*subsections):
    return custom("component-name", seq(*subsections))


def subsection(number, *fields):
    return seq(fixed(number), sized(seq(*fields)))


def naming(space, index, text):
    return seq(ix(space, index), name(text))


def of_sort(digits, *namings):
    return subsection("01", fixed(digits), vec(*namings))


MINE = subsection("00", name("a-component"))
EACH = [of_sort(digits, naming(space, 2, "f"), naming(space, 2, ""), naming(space, 1, "\u00e9\u540d"), naming(space, 300, "n" * 130)) for digits, space in SORTS]
# Subsections that are copied: of another id, or whose contents do not begin with a sort.
COPIED = [subsection(number, fixed(contents)) for number, contents in
          (("02", ""), ("02", "00ff"), ("03", "000000"), ("7f", "01"), ("80", "ff"), ("ff", "0000"), ("01", ""), ("01", "00"), ("01", "000500"), ("01", "001300"),
           ("01", "000f00"), ("01", "06"), ("01", "0600"), ("01", "10 01 00"), ("01", "8000 00"), ("01", "ff"), ("01", "00ff"))]
# Written by hand.
WORKED = """# A function's name follows its index.
component component_func.0=2 counted : HEADER 0016 0e 636f6d706f6e656e742d6e616d65 01 05 01 01 00 01 66 -> HEADER00160e636f6d706f6e656e742d6e616d6501050101020166 asked component_func 1
component counted : HEADER 001a 0e 636f6d706f6e656e742d6e616d65 01 8800 01 8100 8000 81 00 66 -> HEADER00160e636f6d706f6e656e742d6e616d6501050101000166 asked component_func 1
# Of another sort, and another id: as they are.
component component_func.0=2 counted : HEADER 0016 0e 636f6d706f6e656e742d6e616d65 01 05 06 01 00 01 66 -> HEADER00160e636f6d706f6e656e742d6e616d6501050601000166 asked
component component_func.0=2 counted : HEADER 0016 0e 636f6d706f6e656e742d6e616d65 02 05 01 01 00 01 66 -> HEADER00160e636f6d706f6e656e742d6e616d6502050101000166 asked"""


def tries(whole):
    return [spelled(whole)] + ([renamed(whole)] if indices_of(whole.asks) else []) + refused(whole)


def faults(wrap):
    lines = ["# Names that have no reading: a subsection that ends nowhere or is not filled, fewer or more names than counted, a name that is no text; "
             "also behind other sections."]
    front = component(ALIAS, named(MINE, EACH[8]), RAW).spell(Spelling(other=True))
    for contents in ("00", "0080", "0002 01", "0001 01", "0002 00 00", "0000", "0002 01 ff", "0004 03 61 62", "01", "0105 01 01 00 01", "0104 01 01 00 01",
                     "0102 01 01", "0103 01 01 00", "0105 01 02 00 01 66", "0105 01 00 00 01 66", "0106 01 01 00 01 66 00", "0101 01", "0102 0000",
                     "0103 0010 01", "0105 01 01 00 01 ff", "010a 01 01 808080808000 01 66", "0109 01 01 ffffffff1f 01 66", "0105 05 01 00 02 66",
                     "02", "0202 00", "0000 02", "02ffffffff0f"):
        wrong = wrap(custom("component-name", fixed(contents)))
        lines += [case([], component(wrong).spell(Spelling()), "nothing at 8"), case([], front + wrong.spell(Spelling()), f"nothing at {len(front)}")]
    return lines


def unnamed():
    front = component(ALIAS, named(MINE, EACH[8]), RAW).spell(Spelling(other=True))
    lines = []
    lines.append("# A section with a name that has no name, or one that is no text.")
    lines += [nothing(8, [], framed(0, bytes.fromhex(body))) for body in
              ("", "01", "80", "02 61", "01 ff", "02 c328", "0e 636f6d706f6e656e742d6e616d", "ffffffff0f", "808080808000", "ffffffff1f 61")]
    lines.append("# What is before a fault is asked: each of the sections before, and no section behind.")
    given = front + custom("component-name", fixed("0001")).spell(Spelling()) + ALIAS.spell(Spelling())
    asks = component(ALIAS, named(MINE, EACH[8]), RAW).asks
    return lines + [case(["counted"], given, f"nothing at {len(front)} {counts_of(asks)}")]


def cases():
    """The lines."""
    lines = ["# Sections with a name, by tools/component_cases: the names of a component follow their indices, all others stay as they are."]
    lines += worked(WORKED)
    lines.append("# The component's own name; no subsection; each sort, with a name twice, out of order and empty.")
    lines += [spelled(component(named(MINE))), spelled(component(named()))]
    for part in EACH:
        lines += tries(component(named(part)))
    lines += [spelled(component(named(of_sort(digits)))) for digits, _ in SORTS]
    lines.append("# Subsections that are copied: only their sizes are spelled anew.")
    lines += [spelled(component(named(part))) for part in COPIED]
    lines.append("# All of these, in any order, repeated; between other sections; under a ceiling.")
    every = [MINE, *EACH, *COPIED]
    lines += [both(component(named(*every))), both(component(named(*every[::-1], *every))), both(component(ALIAS, named(MINE, EACH[0]), RAW, named(EACH[5], MINE), ALIAS))]
    lines += ceilings(component(named(MINE, EACH[8], EACH[0], *COPIED[:3])))
    lines += refused(component(ALIAS, named(*EACH[:6])))
    lines.append("# Other names: as they are, that of a core module's names too.")
    lines += [spelled(component(custom(text, fixed(contents)))) for text in ("", "name", "producers", "component-names", "component-nam", "Component-name", "\u00e9")
              for contents in ("", "0001", "0105 01 01 00 01 66")]
    lines += [case(["under=9", "counted"], component(custom("producers", fixed("00"))).spell(Spelling()), "size 11 is too large asked")]
    return lines + faults(lambda section: section) + unnamed()


def cases_nested():
    """Those in a component that is nested, and beside core modules."""
    lines = ["# Names in a component in a component, by tools/component_cases; beside those of a core module; and those of a component in a core "
             "module, which stay as they are."]
    lines += [both(component(nested_component(component(named(*EACH), ALIAS)), named(MINE, *EACH[::-1]))),
              both(component(nested_module(core_module(CORE_NAMES)), named(EACH[0])))]
    lines += refused(component(ALIAS, nested_component(component(named(EACH[1]))), named(EACH[0])))
    lines += [spelled(component(nested_module(core_module(custom("component-name", fixed(contents)))))) for contents in ("", "0001", "0105 01 01 00 01 66")]
    return lines + faults(lambda section: nested_component(component(RAW, section)))
