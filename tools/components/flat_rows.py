"""The rows of a component's sections that open no scope, as fields."""
from fields import *

# The types of imports and exports.
TYPE_REFS = [seq(fixed("0011"), ix("type", 2)), seq(fixed("01"), ix("component_type", 3)),
             seq(fixed("02"), of_type(63)), seq(fixed("02"), of_type(200)),
             seq(fixed("0300"), ix("component_type", 5)), fixed("0301"),
             seq(fixed("04"), ix("component_type", 6)), seq(fixed("05"), ix("component_type", 128))]
TYPE_REFS += [fixed("02" + byte) for byte in PRIMITIVES]

OPTIONS = [fixed("00"), fixed("01"), fixed("02"), seq(fixed("03"), ix("memory", 1)), seq(fixed("04"), ix("function", 2)),
           seq(fixed("05"), ix("function", 3)), fixed("06"), seq(fixed("07"), ix("function", 130)),
           seq(fixed("08"), ix("type", 4)), fixed("09")]


def options(*which):
    return vec(*[OPTIONS[i] for i in which])


def typed(byte):
    return seq(fixed(byte), ix("component_type", 7))


def typed_with_options(byte):
    """The options are asked before the type."""
    return seq(fixed(byte), ix("component_type", 7), options(4, 3, 8), order=[0, 2, 1])


def typed_flag(byte, flag):
    return seq(fixed(byte), ix("component_type", 7), fixed(flag))


def returned(result):
    return seq(fixed("09"), result, options(7, 0, 3), order=[0, 2, 1])


CORE_VALUES = [fixed("7f"), fixed("7e"), fixed("7d"), fixed("7c"), fixed("7b"), fixed("70", "6370"), fixed("6571", "636571"),
               fixed("6469"), seq(fixed("63"), sx("type", 63)), seq(fixed("64"), sx("type", 64)),
               seq(fixed("6362"), ix("type", 5))]


def slot(byte, value):
    return seq(fixed(byte), value, num(200))


CANON = [
    ("lift: the function, the type, the options", [
        seq(fixed("0000"), ix("function", 5), options(4, 0, 3, 5, 8), ix("component_type", 7), order=[0, 1, 3, 2]),
        seq(fixed("0000"), ix("function", 5), options(), ix("component_type", 64), order=[0, 1, 3, 2])]),
    ("lower", [seq(fixed("0100"), ix("component_func", 5), options(3, 4, 2))]),
    ("resource.new, resource.drop, resource.rep", [typed("02"), typed("03"), typed("04")]),
    ("task.cancel, subtask.drop, backpressure.inc, backpressure.dec", [fixed(b) for b in ("05", "0d", "24", "25")]),
    ("subtask.cancel, without and with async", [fixed("0600"), fixed("0601")]),
    ("task.return: the options, then the type; of no result, of a primitive type, of a type",
     [returned(fixed("0100")), returned(fixed("0073")), returned(seq(fixed("00"), of_type(63)))]),
    ("context.get, context.set: each core value type, and the slot",
     [slot("0a", v) for v in CORE_VALUES] + [slot("0b", v) for v in CORE_VALUES]),
    ("stream.new; stream.read and stream.write, the options before the type; stream.cancel-read, stream.cancel-write, "
     "stream.drop-readable, stream.drop-writable",
     [typed("0e"), typed_with_options("0f"), typed_with_options("10"), typed_flag("11", "00"), typed_flag("11", "01"),
      typed_flag("12", "00"), typed_flag("12", "01"), typed("13"), typed("14")]),
    ("the same of futures",
     [typed("15"), typed_with_options("16"), typed_with_options("17"), typed_flag("18", "00"), typed_flag("18", "01"),
      typed_flag("19", "00"), typed_flag("19", "01"), typed("1a"), typed("1b")]),
    ("error-context.new, error-context.debug-message, error-context.drop",
     [seq(fixed("1c"), options(0, 3)), seq(fixed("1d"), options(1, 3, 4)), fixed("1e")]),
    ("waitable-set.new, waitable-set.drop, waitable.join", [fixed("1f"), fixed("22"), fixed("23")]),
    ("thread.spawn-ref, thread.spawn-indirect, thread.available-parallelism",
     [seq(fixed("40"), ix("type", 4)), seq(fixed("41"), ix("type", 4), ix("table", 6)), fixed("42")]),
]
ALIASES = [
    ("exports of an instance, of each sort",
     [seq(fixed(digits + "00"), ix("component_instance", 9), name("a-b")) for digits, _ in SORTED]),
    ("exports of a core instance, of each kind",
     [seq(fixed("00" + digits + "01"), ix("instance", 9), name("memory")) for digits in ("00", "01", "02", "03", "04")]),
    ("outer ones: the count stays, and the index is one of its sort, so many scopes further out",
     [seq(fixed(digits + "02"), num(3), ix(space, 9))
      for digits, space in (("0010", "type"), ("0011", "module"), ("03", "component_type"), ("04", "component"))]),
]
INSTANCES = [
    ("a module with instances for its imports, and without",
     [seq(fixed("00"), ix("module", 3), vec(seq(name("env"), fixed("12"), ix("instance", 4)),
                                            seq(name(""), fixed("12"), ix("instance", 150)))),
      seq(fixed("00"), ix("module", 3), vec())]),
    ("of exports, each kind; a function is read behind 20, too",
     [seq(fixed("01"), vec(*[seq(name(n), item(i, 7 + i)) for i, n in enumerate(["f", "t", "m", "g", "e"])])),
      seq(fixed("01"), vec())] + [seq(fixed("01"), vec(seq(name("x"), item(i, 140)))) for i in range(5)]),
]
COMPONENT_INSTANCES = [
    ("a component with arguments of each sort, and without",
     [seq(fixed("00"), ix("component", 3), vec(*[seq(name(f"a{i}"), sort(i, 20 + i)) for i in range(6)])),
      seq(fixed("00"), ix("component", 3), vec())]
     + [seq(fixed("00"), ix("component", 3), vec(seq(name("x"), sort(i, 140)))) for i in range(6)]),
    ("of exports, each sort, whose names are read behind 01, too",
     [seq(fixed("01"), vec(*[seq(extern(f"a{i}"), sort(i, 20 + i)) for i in range(6)])), seq(fixed("01"), vec())]
     + [seq(fixed("01"), vec(seq(extern("x"), sort(i, 140)))) for i in range(6)]),
]
NAMES = ["a", "", "wasi:cli/run@0.2.0", "[method]r.get", "unlocked-dep=<a:b/c>", "\u00e9\u540d\U0001f600", "n" * 130]
IMPORTS = [("each type", [seq(extern("a"), ty) for ty in TYPE_REFS]),
           ("names", [seq(extern(n), seq(fixed("01"), ix("component_type", 3))) for n in NAMES])]
EXPORTS = [
    ("each sort, without a type and with one",
     [seq(extern("a"), sort(i, 11), fixed("00")) for i in range(6)]
     + [seq(extern("a"), sort(i, 11), fixed("01"), TYPE_REFS[i]) for i in range(6)]),
    ("each type", [seq(extern("b"), sort(1, 130), fixed("01"), ty) for ty in TYPE_REFS]),
    ("names", [seq(extern(n), sort(1, 4), fixed("00")) for n in NAMES])]
