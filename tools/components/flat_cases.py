"""The cases of sections that open no scope: the ids 2, 5, 6, 8 to 11, and those that are copied."""
from case_lines import *
from flat_rows import *


def starts():
    lines = ["# The start: the function, its arguments in order, and how many results there are."]
    for func, arguments, results in ((3, [], 0), (3, [4], 1), (200, [4, 5, 4, 300], 128)):
        body = seq(ix("component_func", func), vec(*[ix("component_value", a) for a in arguments]), num(results))
        whole = component(section(9, body))
        lines += [spelled(whole), renamed(whole)] + ceilings(whole)
        bytes_of_body = body.spell(Spelling())
        lines += [nothing(8, [], framed(9, b)) for b in (bytes_of_body[:-1] if results < 128 else bytes_of_body[:-2],
                                                         bytes_of_body + b"\0", b"")]
    return lines


def faults():
    lines = bad(8, "Canonical functions: bytes that no function has, alone and with bytes behind them.",
                [f"01{b}{'00' * more}" for b in "07 08 0c 20 21 26 3f 43 44 80 ff".split() for more in range(4)])
    lines += bad(8, "lift and lower of another sort; a flag that is neither 00 nor 01, or is a longer number; a result of no "
                    "type in another form; no option, and a type that is no core value type.",
                 ["010001020003", "01010100 00", "010602", "01068000", "011107 02", "01110781 00", "01090101 00", "01090200 00",
                  "010900 72 00", "011c010a", "011c01 8000", "010a 76 00", "010a 60 00", "010a 78 00", "010a 63 ff7f 00",
                  "010a ff7f 00", "0109 00 ff7f 00", "0180 0000"])
    lines += bad(6, "Aliases: another target, a sort that is not of its target, no name.",
                 ["01 01 03 00 0161", "01 06 00 00 0161", "01 0010 00 00 0161", "01 0012 00 00 0161", "01 0000 00 00 0161",
                  "01 0005 01 00 0161", "01 0020 01 00 0161", "01 0011 01 00 0161", "01 03 01 00 0161", "01 05 02 00 00",
                  "01 01 02 00 00", "01 02 02 00 00", "01 0000 02 00 00", "01 0012 02 00 00", "01 01 00 00 01ff",
                  "01 01 00 00 02c328", "01 01 00 00 0261", "01 01 00 ffffffff1f 0161", "01 01 00 808080808000 0161"])
    lines += bad(2, "Core instances: another form, an argument that is no instance, another kind.",
                 ["01 02 00 00", "01 00 00 01 0161 11 00", "01 00 00 01 0161 01 00", "01 01 01 0161 05 00",
                  "01 01 01 0161 10 00", "01 01 01 0161 12 00"])
    lines += bad(5, "Instances: another form, another sort, a name behind another byte.",
                 ["01 02 00 00", "01 00 00 01 0161 06 00", "01 00 00 01 0161 0010 00", "01 00 00 01 0161 0012 00",
                  "01 01 01 02 0161 01 00", "01 01 01 8000 0161 01 00", "01 01 01 000161 07 00"])
    lines += bad(10, "Imports: a name behind another byte; types that are none, and value types that are none: of more than a "
                     "byte, and the bytes beside those that are one.",
                 ["01 02 0161 01 00", "01 8000 0161 01 00", "01 0001ff 01 00", "01 000161 06 00", "01 000161 0010 00",
                  "01 000161 0012 00", "01 000161 0302", "01 000161 03 8000 00", "01 000161 02 72", "01 000161 02 65",
                  "01 000161 02 63", "01 000161 02 40", "01 000161 02 ff7f", "01 000161 02 e47f", "01 000161 02 ffffffff1f",
                  "01 000161 01 ffffffff1f", "01 000161"])
    lines += bad(11, "Exports: a name behind another byte, another sort, a flag before the type that is neither 00 nor 01.",
                 ["01 02 0161 01 00 00", "01 000161 06 00 00", "01 000161 0010 00 00", "01 000161 0012 00 00",
                  "01 000161 01 00 02", "01 000161 01 00 8000", "01 000161 01 00 01", "01 000161 01 00 01 06 00"])
    lines.append("# No byte stands before the name of an argument, or of a core instance's export: what would be one is a length of 0, "
                 "and bytes are left behind the row.")
    lines += [case(["counted"], framed(5, bytes.fromhex("01 00 00 01 00 0161 0100")), "nothing at 8 asked component_func 1 component 1"),
              case(["counted"], framed(2, bytes.fromhex("01 01 01 00 0161 0000")), "nothing at 8 asked table 1")]
    return lines


def largest():
    """The largest index, and one behind which a number with a sign has one byte more."""
    limit = 2**32 - 1
    lines = ["# The largest index, as a number without a sign and with one; 63 and 64 with a sign."]
    both = seq(extern("a"), seq(fixed("02"), of_type(limit)))
    whole = component(section(10, vec(both, seq(extern("b"), seq(fixed("05"), ix("component_type", limit - 1))))))
    lines += [spelled(whole), renamed(whole)]
    for index, to in ((63, 64), (64, 63), (0, limit), (limit, 0)):
        whole = component(section(10, vec(seq(extern("a"), seq(fixed("02"), of_type(index))))))
        renames = {("component_type", index): to}
        lines.append(case(words_of(renames) + ["counted"], whole.spell(Spelling(other=True)),
                          f"{whole.spell(Spelling(renames=renames)).hex()} asked component_type 1"))
    return lines


def wholes():
    """Headers, and sections beside others."""
    header = COMPONENT.hex()
    lines = ["# Components: the header alone; what has none; that of a core module."]
    lines += [case(["counted"], COMPONENT, f"{header} asked")]
    lines += [nothing(0, [], bytes.fromhex(b)) for b in ("", header[:-2], "0061736d0d000000", "0061736d0e000100", "0161736d0d000100")]
    lines += [case(["counted"], bytes.fromhex("0061736d01000000"), "There was a section that does not belong in a component asked")]
    lines.append("# Sections of another id stay as they are: the first and the last of these ids, empty, and beside others; only their "
                 "sizes are spelled anew.")
    lines += [spelled(component(raw(12, "00ff"), raw(13, ""), raw(127, "aabb"), raw(12, "00ff")))]
    lines += [spelled(component(raw(i, f"{i:02x}"))) for i in (12, 13, 14, 64, 126, 127)]
    lines += [case(["under=3", "counted"], component(raw(12, "010203")).spell(Spelling(other=True)),
                   f"{header}0c03010203 asked"),
              case(["under=2", "counted"], component(raw(12, "010203")).spell(Spelling()), "size 3 is too large asked")]
    lines.append("# Sections in any order, repeated.")
    rows = {2: INSTANCES[0][1][0], 5: COMPONENT_INSTANCES[0][1][0], 6: ALIASES[2][1][0], 8: CANON[0][1][0],
            10: seq(extern("i"), TYPE_REFS[0]), 11: seq(extern("e"), sort(2, 3), fixed("01"), TYPE_REFS[2])}
    start = section(9, seq(ix("component_func", 1), vec(ix("component_value", 2)), num(1)))
    every = [section(n, vec(row)) for n, row in rows.items()]
    for order in (every + [start, raw(100, "ff")], [raw(100, "ff"), start] + every[::-1], [start, start] + every + every):
        whole = component(*order)
        lines += [spelled(whole), renamed(whole)]
    lines += refused(component(*every))
    lines.append("# A section that has no reading, behind others: its place is told, and what stands before it was asked. An id without "
                 "a size, or with a part of one; a size past the end, and one of more bytes than are read; an id above 127; a body "
                 "that is none.")
    front = component(start, section(6, vec(ALIASES[0][1][0])), raw(12, "ff"))
    for longer in (False, True):
        before = front.spell(Spelling(other=longer))
        for digits in ("08", "0880", "0802 00", "ff00", "8000", "8000 0c00", "080101", "0c", "0b ffffffff0f", "0c 808080808000", "7f01"):
            lines.append(case(["counted"], before + bytes.fromhex(digits), f"nothing at {len(before)} {counts_of(front.asks)}"))
    lines.append("# A row that has no reading, behind one that is asked; one that is refused before it; a section too large before it.")
    two = framed(8, bytes.fromhex("02 1c010302 07"))
    lines += [case(["counted"], two, "nothing at 8 asked memory 1"), case(["strict", "counted"], two, "refused memory 2 asked memory 1"),
              case(["under=2", "counted"], framed(12, b"abc") + bytes.fromhex("0807"), "size 3 is too large asked"),
              case(["under=3", "counted"], framed(12, b"abc") + bytes.fromhex("0807"), "nothing at 13 asked")]
    return lines


# Written by hand.
WORKED = """# An outer type, renamed.
component component_type.0=7 counted : HEADER 06050103020100 -> HEADER06050103020107 asked component_type 1
# An import, a core instance with an argument, an instance with one, the start, an export; a function and a module are renamed.
component component_func.0=2 module.0=3 counted : HEADER 0a06010001610100 02080100000101611200 05080100000101610100 0903000000 0b0701000162010000 -> HEADER0a06010001610100020801000301016112000508010000010161010209030200000b0701000162010200 asked component_type 1 component_func 3 component 1 module 1 instance 1
# A lifted function; its type is asked before its options, and that of a task's result behind them.
component function.2=9 component_type.3=1 counted : HEADER 0806010000020003 -> HEADER0806010000090001 asked function 1 component_type 1
component strict function.2=2 counted : HEADER 08080100000201030003 -> refused memory 0 asked function 1 memory 1 component_type 1
component strict counted : HEADER 080701090005010300 -> refused memory 0 asked memory 1"""


def cases():
    """The lines."""
    lines = ["# Components, by tools/component_cases. For each row of a table: with longer numbers and in its other spelling; with "
             "each index renamed; by a strict renaming, which refuses the first index of a core space that it does not have; and "
             "without its last byte."]
    lines += worked(WORKED) + wholes() + largest()
    lines += vectors(2, "Core instances", INSTANCES)
    lines += vectors(5, "Instances", COMPONENT_INSTANCES)
    lines += vectors(6, "Aliases", ALIASES)
    lowered = [seq(fixed("0100"), ix("component_func", 0), options(i)) for i in range(10)]
    lines += vectors(8, "Canonical options", [("each, of a function that is lowered", lowered)])
    lines += vectors(8, "Canonical functions", CANON)
    lines += starts()
    lines += vectors(10, "Imports", IMPORTS)
    lines += vectors(11, "Exports", EXPORTS)
    return lines + faults()
