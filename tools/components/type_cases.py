"""The cases of the sections of core types and of types: the ids 3 and 7."""
from case_lines import *
from type_rows import *


def deep(number, what, groups, wrap):
    """The cases of rows with scopes round them: by another spelling and renamed at once, and without the last byte."""
    lines = []
    for text, rows in groups:
        lines.append(f"# {what}, inside two scopes: {text}")
        for row in rows:
            whole = component(section(number, vec(wrap(row))))
            lines += [both(whole)] + cut(number, wrap(row))
    lines.append(f"# {what}, inside two scopes: all of these rows in one, by strict renamings, and under a ceiling")
    every = [row for _, rows in groups for row in rows]
    whole = component(section(number, vec(*[wrap(row) for row in every])))
    return lines + [spelled(whole)] + ceilings(whole) + refused(component(section(number, vec(*[wrap(row) for row in thinned(every)]))))


def thinned(rows):
    """Each eighth row that asks anything."""
    return [row for row in rows if row.asks][::8]


def declared(groups, wrap):
    """Declarations one by one in their scope."""
    return [(text, [wrap(row) for row in rows]) for text, rows in groups]


# Written by hand.
WORKED = """# A name of an export is read behind 01, too; the scope of its instance type is asked round its type.
component counted : HEADER 0709 01 42 01 04 01 0161 01 00 -> HEADER0709014201040001610100 asked component_type 1 push 1 pop 1
# A function's type; nothing is asked.
component counted : HEADER 0708 01 40 01 0178 79 00 73 -> HEADER07080140010178790073 asked
# A module type that ends before its declarations, and one without any.
component strict counted : HEADER 0302 01 50 -> nothing at 8 asked
component counted : HEADER 0303 01 50 00 -> HEADER0303015000 asked push 1 pop 1
# An outer type, with its count, in a module type inside two scopes; an open type, behind 00.
component type.3=2 counted : HEADER 070e 01 41 01 01 42 01 00 50 01 02 10 01 01 03 -> HEADER070e0141010142010050010210010102 asked type 1 push 3 pop 3
component type.1=2 type.3=130 counted : HEADER 0308 01 00 50 01 03 60 00 00 -> HEADER0309010050018201600000 asked type 1
# A final type without supertypes is one alone, also where the 0 is a longer number.
component counted : HEADER 0307 01 4f 8000 60 00 00 -> HEADER030401600000 asked"""


def nested_scopes(opens, depth, inmost):
    """So many scopes, each the only declaration of the one round it, and what stands in the last of them."""
    row = inmost
    for i in range(depth):
        byte = opens[(depth - 1 - i) % len(opens)]
        row = instance_type(seq(fixed("01"), row)) if byte == "42" else component_type(seq(fixed("01"), row))
    return row


def depths():
    lines = ["# 200 scopes within each other; the last without a declaration, and with one that is asked for; a scope more is no row, "
             "and where it stands behind another row, that is asked."]
    for opens, inmost in (("42", instance_type()), ("41", component_type()), ("4142", component_type()),
                          ("42", instance_type(seq(fixed("00"), CLOSED_GROUPS[0]))), ("4241", instance_type(seq(fixed("02"), ALIASES[1][1][0])))):
        opens = [opens[i:i + 2] for i in range(0, len(opens), 2)]
        whole = component(section(7, vec(nested_scopes(opens, 199, inmost))))
        lines += [spelled(whole)] + ([both(whole)] + refused(whole) if inmost.asks[1][0] != "pop" else [])
        lines.append(nothing(8, [], component(section(7, vec(nested_scopes(opens, 200, inmost)))).spell(Spelling())))
    lines.append("# A module type is a scope, too.")
    for depth in (199, 200):
        row = nested_scopes(["42"], depth - 1, instance_type(seq(fixed("00"), module_type(seq(fixed("03"), name("f"), ENTITIES[0])))))
        whole = component(section(7, vec(row)))
        lines += [spelled(whole)] + refused(whole) if depth == 199 else [nothing(8, [], whole.spell(Spelling()))]
    lines.append("# Two rows, each with 200 scopes; one with 201 behind a row that is asked, and behind another section.")
    full, over = (nested_scopes(["42"], depth, instance_type()) for depth in (199, 200))
    lines.append(spelled(component(section(7, vec(full, seq(fixed("68"), ix("component_type", 3)), full)))))
    own = seq(fixed("69"), ix("component_type", 4))
    lines.append(nothing(8, own.asks, component(section(7, vec(own, over))).spell(Spelling())))
    front = component(section(3, vec(CLOSED_GROUPS[4], module_type())), section(7, vec(own)))
    given = component(section(3, vec(CLOSED_GROUPS[4], module_type())), section(7, vec(own)), section(7, vec(over)))
    lines.append(nothing(len(front.spell(Spelling())), front.asks, given.spell(Spelling())))
    return lines


def faults():
    lines = bad(7, "Types: bytes that no type has, alone and with bytes behind them.",
                [f"01{b}{'00' * more}" for b in "00 01 3e 44 4e 50 5d 5e 5f 60 61 62 6c 80 ff".split() for more in range(4)])
    lines += bad(7, "Types: a value type that is none; a case without its last byte, or with another; what may be left out, behind "
                    "another byte; a name that is no text; a longer number than is read; a row that ends early.",
                 ["01 70 72", "01 70 65", "01 70 40", "01 70 ff7f", "01 70 ffffffff1f", "01 70 808080808000", "01 72 01 0161", "01 72 01 01ff 7f",
                  "01 72 02 0161 7f", "01 71 01 0161 02 00", "01 71 01 0161 00 01", "01 71 01 0161 00", "01 71 01 0161 01 7f 01",
                  "01 71 01 0161 8000 00", "01 6f 01", "01 6f 02 7f", "01 6e 01 01ff", "01 6e 01 02c328", "01 6d 01", "01 6d 01 0261",
                  "01 6b", "01 6b 63", "01 6a 00", "01 6a 02 00", "01 6a 00 02", "01 6a 01 00", "01 69 808080808000", "01 68 ffffffff1f",
                  "01 67 7f", "01 67 7f ffffffff1f", "01 66 02", "01 66 01", "01 65 02", "01 65 01 65", "01 63 7f", "01 63 7f 63"])
    lines += bad(7, "Functions: a result in another form; a parameter without a type. Resources: a type that no value of a core module "
                    "has; a flag that is neither 00 nor 01.",
                 ["01 40 00 02", "01 40 00 01", "01 40 00 01 01", "01 40 00 01 02 7f", "01 43 00 00", "01 43 00 00 63", "01 40 01 0161 00 7f 00",
                  "01 40 01 0161 01 00", "01 3f 78 00", "01 3f 76 00", "01 3f 7f", "01 3f 7f 02 00", "01 3f 7f 01", "01 3f 60 00", "01 3f 63 ff7f 00"])
    lines += bad(7, "Declarations: none of the kind, an import in an instance type, another byte before a name, fewer than counted, and "
                    "more than counted.",
                 [f"01 {scope} 01 {row}" for scope in ("41", "42") for row in
                  ("05 7f", "06", "80", "01 3e", "00 4f", "00 00 5f 00", "00 00 4e 00", "00 00 4f 00 5f 00", "02 06 00 00 0161", "02 0010 00 00 0161",
                   "02 0005 01 00 0161", "02 05 02 00 00", "04 02 0161 01 00", "04 0161 01 00", "04 00 0161 06 00", "04 00 0161 03 02",
                   "04 00 0161 0010 00")]
                 + ["01 42 01 03 00 0161 01 00", "01 41 02 01 7f", "01 42 02 01 7f", "01 41 01", "01 42 80", "01 41 01 41 00",
                    "01 41 01 01 42 01 03 00 0161 01 00"])
    lines += bad(3, "Core types: bytes that none has; an open type without 00 before it is a module type, and 00 before a type that is "
                    "no open one; groups that end early or hold a group.",
                 ["01 4d", "01 51 00", "01 61 00 00", "01 7f", "01 40 00", "01 00", "01 00 60 00 00", "01 00 5f 00", "01 00 4f 00 5f 00", "01 00 4e 00",
                  "01 00 50", "01 00 50 00", "01 00 50 00 50 00", "01 50 01 03 0161 5f 00", "01 4e 01", "01 4e 02 5f 00", "01 4e 01 4e 00",
                  "01 4e 01 00 50 00 5f 00", "01 60 01 78 00", "01 60 00", "01 5e 7f 02", "01 5f 01 7f", "01 5d 40", "01 65 5f", "01 4c 01 4c 02 5f 00",
                  "01 4d 01 4c 02 5f 00", "01 80 00"])
    lines += bad(3, "Module types: declarations that are none; an outer index of another sort or behind other bytes; kinds and limits that are none.",
                 [f"01 50 01 {row}" for row in
                  ("04 0161 00 00", "05", "80", "01 50 00", "01 00 50 00 5f 00", "02 11 01 00 00", "02 10 00 00 00", "02 10 02 00 00", "02 00 01 00 00",
                   "02 10 01 00", "02 10 01 808080808000 00", "02 10 01 00 ffffffff1f", "00 0161 00 00", "00 0161 0161 05 00", "00 0161 0162 21 00",
                   "03 0161 01 70 08 00", "03 0161 02 10 00", "03 0161 03 7f 04", "03 0161 04 01 00", "03 01ff 00 00", "00 01ff 00 00 00",
                   "03 0161 01 7f 00 00", "03 0161 02 01 00")] + ["01 50 02 03 0161 00 00", "01 50", "01 50 80"])
    lines += bad(3, "What a module type imports has no compact form, and behind an empty name stands a type as behind any other.",
                 [f"01 50 01 00 0161 {row}" for row in
                  ("00 7f 00", "00 7f 01 0162 0000", "00 7e 0000 00", "00 7e 0000 01 0162", "0162 7f 00", "8000 7e 0000 00")])
    lines += [case([], framed(3, bytes.fromhex(f"01 50 01 00 0161 {row} 0000")), framed(3, bytes.fromhex("01 50 01 00 0161 00 0000")).hex())
              for row in ("00", "8000")]
    lines.append("# Bytes behind a row of which a front is one: the row before is asked.")
    lines += [nothing(8, asks, framed(number, bytes.fromhex(body))) for number, body, asks in
              ((3, "01 50 00 5f 00", [("push", None), ("pop", None)]), (3, "01 50 00 50 00", [("push", None), ("pop", None)]),
               (3, "01 5f 00 00", []), (7, "01 42 00 04", [("push", None), ("pop", None)]), (7, "01 41 00 41 00", [("push", None), ("pop", None)]),
               (7, "01 69 00 00", [("component_type", 0)]), (7, "01 7f 7f", []))]
    lines.append("# A row that has no reading, behind one that is asked; one that is refused before it; a section too large before it.")
    first, other = "42 01 02 00 00 01 05 01 61", "42 01 00 60 01 63 05 00"
    wrong = "42 01 05"
    lines += [case(words, framed(7, bytes.fromhex("02" + body)), wanted) for words, body, wanted in
              ((["strict", "counted"], first + wrong, "nothing at 8 asked instance 1 push 1 pop 1"),
               (["counted"], other + wrong, "nothing at 8 asked type 1 push 1 pop 1"),
               (["strict", "counted"], other + wrong, "refused type 5 asked type 1 push 1"),
               (["strict", "counted"], wrong + other, "nothing at 8 asked"))]
    given = framed(3, bytes.fromhex("01 50 00")) + bytes.fromhex("07 02 01 00")
    lines += [case(["under=2", "counted"], given, "size 3 is too large asked push 1 pop 1"),
              case(["under=3", "counted"], given, "nothing at 13 asked push 1 pop 1")]
    return lines


def cases():
    """The lines."""
    lines = ["# Types, by tools/component_cases. For each row of a table, and each declaration in a scope of its own, what is tried of "
             "the sections above; and with two scopes more round it."]
    lines += worked(WORKED) + depths()
    lines += vectors(3, "Core types", CORE_TYPES) + deep(7, "Core types", CORE_TYPES, core_in_two)
    lines += vectors(3, "Declarations of module types", declared(MODULE_DECLARATIONS, module_type))
    lines += deep(7, "Declarations of module types", declared(MODULE_DECLARATIONS, module_type), core_in_two)
    lines += vectors(7, "Types", DEFINED + FUNCTIONS) + deep(7, "Types", DEFINED + FUNCTIONS, in_two)
    lines += vectors(7, "Declarations of instance types", declared(INSTANCE_DECLARATIONS, instance_type))
    lines += deep(7, "Declarations of instance types", declared(INSTANCE_DECLARATIONS, instance_type), in_two)
    lines += vectors(7, "Declarations of component types", declared(COMPONENT_DECLARATIONS, component_type))
    lines += deep(7, "Declarations of component types", declared(COMPONENT_DECLARATIONS, component_type), in_two)
    return lines + faults()
