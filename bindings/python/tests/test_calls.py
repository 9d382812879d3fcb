"""What the package gives, and each of its errors. The worked cases are tried by tools/check_bindings."""
import array
import doctest
import os
import pickle
import subprocess
import sys
import threading
import unittest

import hyssopplinth as h
from hyssopplinth import Space

HEAD = b"\0asm\1\0\0\0"
# two functions of one type, `add` and `sub`, exported
TWO = HEAD + bytes.fromhex("01070160027f7f017f 0303020000 070d0203616464000003737562 0001 0a11020700200020016a0b0700200020016b0b")
# an imported function and three defined ones, of which the first calls the last, and nothing the second
CALLING = HEAD + bytes.fromhex("010401600000 020701016d01660000 030403000000 07050101670001 0a0e030600100310000b02000b02000b")
# a component with a core module in it
NESTING = b"\0asm\x0d\0\1\0" + bytes.fromhex("010e") + HEAD + bytes.fromhex("010401600000")
# a component whose component type has an alias of a core type, one scope further out
ALIASING = b"\0asm\x0d\0\1\0" + bytes.fromhex("030401600000 07090141010200100201 00")
COMPONENT = b"\0asm\x0d\0\1\0"
# the exports of TWO, each with the other's function; and TWO with its functions in the other order
SWAPPED = bytes.fromhex("070d020361646400010373756200 00")
MOVED = TWO[:22] + SWAPPED + TWO[37:40] + TWO[48:] + TWO[40:48]


class Calls(unittest.TestCase):
    def test_documents(self):
        self.assertEqual(doctest.testmod(h).failed, 0)

    def test_normal_spelling_is_its_own(self):
        for data in (TWO, HEAD, CALLING, NESTING, ALIASING):
            self.assertEqual(h.plain(data), data)
        self.assertEqual(h.plain(HEAD + bytes.fromhex("01840001600000")), HEAD + bytes.fromhex("010401600000"))

    def test_any_buffer_of_bytes(self):
        for data in (bytearray(TWO), memoryview(TWO), array.array("B", TWO), memoryview(b"." + TWO)[1:], memoryview(TWO[::-1])[::-1]):
            self.assertEqual(h.plain(data), TWO)
        for data in (5, "text", None, [0]):
            self.assertRaises(TypeError, h.plain, data)

    def test_a_renaming_goes_by_its_last_entries(self):
        for renaming in ({"function": {0: 1, 1: 0}}, {Space.FUNCTION: {0: 1, 1: 0}}, {2: {0: 1, 1: 0}},
                         [("function", 0, 9), (2, 1, 0), (Space.FUNCTION, 0, 1)]):
            self.assertEqual(h.rename(TWO, renaming)[22:37], SWAPPED)
        with self.assertRaises(h.RefusedError) as said:
            h.rename(TWO, {"function": {0: 1, 1: 0}}, strict=True)
        self.assertEqual((said.exception.space, said.exception.index, str(said.exception)), (Space.TYPE, 0, "refused type 0"))
        self.assertEqual(h.rename(TWO, {"function": {0: 1, 1: 0}, "type": {0: 0}}, strict=True)[22:37], SWAPPED)
        self.assertEqual(h.rename(TWO, {}), TWO)
        self.assertEqual(h.rename(TWO, h.read_renaming('{"function": {"0": 1, "1": 0}}'))[22:37], SWAPPED)
        self.assertRaises(h.RefusedError, h.rename, TWO, h.read_renaming('{"strict": true}'))

    def test_what_is_no_renaming(self):
        self.assertRaises(ValueError, h.rename, TWO, {"functions": {0: 1}})
        self.assertRaises(ValueError, h.rename, TWO, {"Function": {0: 1}})
        self.assertRaises(OverflowError, h.rename, TWO, {"function": {0: 1 << 32}})
        self.assertRaises(OverflowError, h.rename, TWO, {"function": {-1: 1}})
        self.assertRaises(TypeError, h.rename, TWO, {"function": {"0": 1}})
        with self.assertRaises(h.RenamingError) as said:
            h.rename(b"", [(0, 0, 1), (16, 7, 8), (17, 0, 0)])
        self.assertEqual((said.exception.place, said.exception.space, said.exception.index), (1, 16, 7))

    def test_a_function_is_asked_in_order_and_ends_with_what_it_raises(self):
        asked = []

        def ask(space, index):
            asked.append((space.key, index))
            return index
        self.assertEqual(h.answer(CALLING, ask), CALLING)
        self.assertEqual(asked, [("type", 0)] * 4 + [("function", 1), ("function", 3), ("function", 0)])

        class Mine(Exception):
            pass

        def refuse(space, index):
            raise Mine(index)
        self.assertRaises(Mine, h.answer, CALLING, refuse)
        # nothing is asked of bytes without a reading
        with self.assertRaises(h.ParseError) as said:
            h.answer(CALLING[:20], refuse)
        self.assertEqual(said.exception.place, 14)
        self.assertRaises(TypeError, h.answer, CALLING, lambda space, index: None)
        self.assertRaises(OverflowError, h.answer, CALLING, lambda space, index: -1)

    def test_visits_are_answered_in_their_places(self):
        rows = h.visits(ALIASING)
        custom = h.Section.CUSTOM
        self.assertEqual(rows, [(h.Kind.PUSH, None, 0, 0, custom, None), (h.Kind.OUTER, Space.TYPE, 1, 0, custom, None),
                                (h.Kind.POP, None, 0, 0, custom, None)])
        self.assertEqual(h.answer_all(ALIASING, [7, 6, 5])[-1], 6)
        self.assertEqual(h.answer(ALIASING, lambda space, index: 200)[-2:], b"\xc8\1")
        with self.assertRaises(h.MiscountedError) as said:
            h.answer_all(ALIASING, [0, 0])
        self.assertEqual((said.exception.wanted, said.exception.status), (3, 15))
        self.assertEqual(h.visits(HEAD), [])
        self.assertEqual(h.answer_all(HEAD, []), HEAD)

    def test_visits_have_places(self):
        index, section = h.Kind.INDEX, h.Section
        self.assertEqual(h.visits(CALLING), [
            (index, Space.TYPE, 0, 0, section.IMPORT, 0),
            *((index, Space.TYPE, 0, 0, section.FUNCTION, row) for row in range(3)),
            (index, Space.FUNCTION, 0, 1, section.EXPORT, 0),
            (index, Space.FUNCTION, 0, 3, section.CODE, 0), (index, Space.FUNCTION, 0, 0, section.CODE, 0)])
        # a start and a name stand in no row
        more = CALLING[:-16] + bytes.fromhex("080103") + CALLING[-16:] + bytes.fromhex("000b 046e616d65 010401020166")
        rows = [row for row in h.visits(more) if row not in h.visits(CALLING)]
        self.assertEqual(rows, [(index, Space.FUNCTION, 0, 3, section.START, None), (index, Space.FUNCTION, 0, 2, section.CUSTOM, None)])
        # in a module that is in a component, the section is told
        inner = HEAD + bytes.fromhex("010401600000 03020100 0a040102000b")
        rows = h.visits(COMPONENT + bytes((1, len(inner))) + inner)
        self.assertEqual([(row.kind, row.section, row.row) for row in rows],
                         [(h.Kind.PUSH, section.CUSTOM, None), (index, section.FUNCTION, None), (h.Kind.POP, section.CUSTOM, None)])

    def test_functions_move_and_go(self):
        self.assertEqual(h.renumber(TWO, [1, 0]), MOVED)
        self.assertEqual(h.renumber(MOVED, iter((1, 0))), TWO)
        self.assertEqual(h.renumber(HEAD, []), HEAD)
        made, kept = h.prune(CALLING)
        self.assertEqual(kept, [1, 3])
        self.assertEqual(h.prune(made), (made, [1, 2]))
        self.assertEqual(h.calls(CALLING), (1, [1], [[3, 0], [], []]))
        self.assertEqual(h.calls(HEAD), (0, [], []))

    def test_two_modules_are_one(self):
        self.assertEqual(h.calls(h.merge(TWO, CALLING))[:2], (1, [1, 2, 3]))
        with self.assertRaises(h.ExportClashError) as said:
            h.merge(TWO, TWO)
        self.assertEqual((said.exception.name, str(said.exception)), ("add", "export clash add"))

    def test_each_error_has_its_status_and_text(self):
        start = HEAD + bytes.fromhex("080100")
        starting = HEAD + bytes.fromhex("010401600000 03020100 080100 0a040102000b")
        cut, twice = HEAD + bytes.fromhex("0aff0100"), HEAD + bytes.fromhex("030100030100")
        uneven = HEAD + bytes.fromhex("010401600000 03020100")
        texts = "There was a section that does not belong in a "
        for call, kind, status, text in [
                (lambda: h.plain(b""), h.ParseError, 5, "parse error at 0"),
                (lambda: h.merge(TWO, b""), h.ParseError, 5, "parse error at 0 by 2"),
                (lambda: h.plain(cut), h.CodeSectionSizeError, 7, "invalid code section size"),
                (lambda: h.merge(cut, TWO), h.CodeSectionSizeError, 7, "invalid code section size by 1"),
                (lambda: h.prune(COMPONENT), h.NonCoreModuleError, 8, texts + "core wasm module"),
                (lambda: h.plain(COMPONENT + b"\4\x08" + HEAD), h.NonComponentError, 9, texts + "component"),
                (lambda: h.plain(TWO, ceiling=12), h.TooLargeError, 10, "too large: 13 over 12"),
                (lambda: h.answer_all(TWO, []), h.MiscountedError, 15, "wrong number of answers: 4 are wanted"),
                (lambda: h.renumber(TWO, [0, 0]), h.OrderError, 17, "not an order at 1"),
                (lambda: h.prune(start), h.DanglingError, 18, "dangling function 0"),
                (lambda: h.merge(TWO, start), h.DanglingError, 18, "dangling function 0 by 2"),
                (lambda: h.merge(TWO, TWO), h.ExportClashError, 19, "export clash add"),
                (lambda: h.merge(starting, starting), h.TwoStartsError, 20, "two starts"),
                (lambda: h.renumber(uneven, [0]), h.UnevenError, 115, "uneven: 1 and 0"),
                (lambda: h.merge(uneven, TWO), h.UnevenError, 115, "uneven: 1 and 0 by 1"),
                (lambda: h.calls(twice), h.RepeatedSectionError, 116, "repeated section 3")]:
            with self.subTest(text), self.assertRaises(kind) as said:
                call()
            error = said.exception
            self.assertEqual((error.status, str(error)), (status, text))
            self.assertEqual(error.exit_status, status - 100 if status > 100 else status)
            again = pickle.loads(pickle.dumps(error))
            self.assertEqual((type(again), str(again), again.__dict__), (kind, text, error.__dict__))

    def test_the_families(self):
        for kind in (h.ParseError, h.CodeSectionSizeError, h.NonCoreModuleError, h.NonComponentError, h.DanglingError, h.UnevenError,
                     h.RepeatedSectionError):
            self.assertTrue(issubclass(kind, h.InputError) and issubclass(kind, ValueError) and issubclass(kind, h.Error))
        self.assertTrue(all(issubclass(kind, h.ArgumentError) for kind in (h.RenamingError, h.MiscountedError, h.OrderError)))
        self.assertTrue(all(issubclass(kind, h.MergeError) for kind in (h.ExportClashError, h.TwoStartsError)))
        self.assertTrue(issubclass(h.OutOfMemory, MemoryError))

    def test_each_call_that_makes_has_a_ceiling(self):
        for call in (h.plain, h.prune, lambda data, **more: h.rename(data, {}, **more),
                     lambda data, **more: h.renumber(data, [0, 1], **more), lambda data, **more: h.merge(data, HEAD, **more),
                     lambda data, **more: h.answer(data, lambda _, index: index, **more)):
            with self.assertRaises(h.TooLargeError) as said:
                call(TWO, ceiling=6)
            self.assertEqual((said.exception.size, said.exception.ceiling), (7, 6))
            call(TWO, ceiling=17)
            self.assertRaises(OverflowError, call, TWO, ceiling=-1)
            self.assertRaises(OverflowError, call, TWO, ceiling=1 << 32)

    def test_room_is_made_as_it_is_wanted(self):
        exports = b"".join(bytes([2, 97 + name // 10, 97 + name % 10, 0, 0]) for name in range(100))
        module = HEAD + bytes.fromhex("07f50364") + exports
        made = h.rename(module, {"function": {0: h.NO_CEILING}})
        self.assertEqual(len(made), len(module) + 400)
        self.assertEqual(h.answer(module, lambda space, index: h.NO_CEILING), made)
        segment = HEAD + bytes.fromhex("09d70f 010041000bd00f") + bytes(2000)
        self.assertEqual(len(h.visits(segment)), 2001)

    def test_threads_call_at_once(self):
        wrong = []

        def work():
            for _ in range(100):
                if h.plain(TWO) != TWO or h.prune(CALLING).kept != [1, 3]:
                    wrong.append(1)
        threads = [threading.Thread(target=work) for _ in range(4)]
        for thread in threads:
            thread.start()
        for thread in threads:
            thread.join()
        self.assertEqual(wrong, [])

    def test_a_library_that_is_not_there(self):
        code = "import hyssopplinth as h\ntry: h.library_path()\nexcept h.LibraryNotFound as e: print(e)"
        there = {**os.environ, "HYSSOPPLINTH_LIBRARY": "/nowhere", "LD_LIBRARY_PATH": "",
                 "PYTHONPATH": os.pathsep.join(filter(None, sys.path))}
        ran = subprocess.run([sys.executable, "-c", code], stdout=subprocess.PIPE, env=there)
        said = ran.stdout.decode()
        self.assertEqual(ran.returncode, 0)
        # a wheel's own shared object, or one that the system's loader knows, is found all the same
        if said:
            self.assertIn("/nowhere", said)
            self.assertIn("HYSSOPPLINTH_LIBRARY", said)

    def test_texts(self):
        self.assertEqual(h.read_renaming('{"strict": true, "function": {"0": 1, "4294967295": 0}, "data_count": {}}'),
                         ({Space.FUNCTION: {0: 1, 4294967295: 0}, Space.DATA_COUNT: {}}, True))
        self.assertEqual(h.read_renaming(b'{"function":{"0":1},"function":{"1":2,"1":3}}'), ({Space.FUNCTION: {1: 3}}, False))
        self.assertEqual(h.read_renaming('{"function": 5, "function": {}}'), ({Space.FUNCTION: {}}, False))
        for text in ('{"function":{"0":1,}}', "{} {}", "", "\ufeff{}", b"\xef\xbb\xbf{}", b"\xff", b"\x7b\x00\x7d\x00",
                     '{"functions":{}}', '{"Function":{}}', '{"function":[1,0]}', '{"function":null}', '{"strict":1}', "[]", "null", "NaN",
                     '{"function":{"0":NaN}}',
                     *(f'{{"function":{{"{old}":1}}}}' for old in ("00", "+0", " 0", "0x0", "-0", "4294967296", "", "1\\n", "\u0661")),
                     *(f'{{"function":{{"0":{new}}}}}'
                       for new in ("1.0", "1e0", "-1", "-0", '"1"', "4294967296", "true", "9" * 5000, "1e999")),
                     "[" * 100000, '{"function": 1e999, "function": {}}'):
            with self.subTest(text[:40]):
                self.assertRaises(h.RenamingError, h.read_renaming, text)
        self.assertEqual(h.read_order(" [1, 0, 4294967295]\n"), [1, 0, 4294967295])
        self.assertEqual(h.read_order(b"[]"), [])
        for text in ("{}", "[1.0]", "[-1]", "[true]", "[4294967296]", '["1"]', "[[]]", "1"):
            self.assertRaises(h.RenamingError, h.read_order, text)


if __name__ == "__main__":
    unittest.main()
