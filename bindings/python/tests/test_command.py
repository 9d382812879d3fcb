"""The command, from file to file: what is written, what is said, and each status."""
import os
import stat
import subprocess
import sys
import tempfile
import unittest

from .test_calls import CALLING, COMPONENT, HEAD, MOVED, SWAPPED, TWO


class Command(unittest.TestCase):
    def setUp(self):
        self.room = tempfile.TemporaryDirectory()
        self.addCleanup(self.room.cleanup)
        self.put("in", TWO)
        self.put("map", b'{"function": {"0": 1, "1": 0}}')

    def path(self, name):
        return os.path.join(self.room.name, name)

    def put(self, name, data):
        with open(self.path(name), "wb") as file:
            file.write(data)

    def get(self, name):
        with open(self.path(name), "rb") as file:
            return file.read()

    def run_it(self, *words, given=b"", **more):
        ran = subprocess.run([sys.executable, "-m", "hyssopplinth", *words], input=given, stdout=subprocess.PIPE, stderr=subprocess.PIPE,
                             env=dict(os.environ, PYTHONPATH=os.pathsep.join(filter(None, sys.path))), cwd=self.room.name, **more)
        return ran.returncode, ran.stdout, ran.stderr.decode()

    def test_what_is_written(self):
        swapped = TWO[:22] + SWAPPED + TWO[37:]
        self.assertEqual(self.run_it("in", "-o", "out"), (0, b"", ""))
        self.assertEqual(self.get("out"), TWO)
        self.assertEqual(self.run_it("in", "-o", "out", "--map", "map"), (0, b"", ""))
        self.assertEqual(self.get("out"), swapped)
        self.assertEqual(self.run_it("rename", "in", "--map", "-", "--out", "out", given=b"{}"), (0, b"", ""))
        self.assertEqual(self.get("out"), TWO)
        self.put("order", b"[1, 0]")
        self.assertEqual(self.run_it("renumber", "-", "--order", "order", "-o", "-", given=MOVED), (0, TWO, ""))
        self.assertEqual(self.run_it("renumber", "in", "--order", "-", "-o", "-", given=b"[1, 0]"), (0, MOVED, ""))
        self.put("calling", CALLING)
        self.assertEqual(self.run_it("prune", "calling", "-o", "out"), (0, b"kept 1 3\n", ""))
        status, made, said = self.run_it("prune", "-", "-o", "-", given=CALLING)
        self.assertEqual((status, made, said), (0, self.get("out"), "kept 1 3\n"))
        self.assertEqual(self.run_it("merge", "in", "calling", "-o", "both"), (0, b"", ""))
        self.assertEqual(self.run_it("prune", "both", "-o", "out"), (0, b"kept 1 2 3 5\n", ""))
        self.assertEqual(self.run_it("plain", "in", "-o", "in"), (0, b"", ""))
        self.assertEqual(self.get("in"), TWO)
        self.assertEqual(sorted(os.listdir(self.room.name)), ["both", "calling", "in", "map", "order", "out"])

    def test_a_file_that_stands_keeps_its_mode_and_its_link(self):
        self.put("out", b"old")
        os.chmod(self.path("out"), 0o640)
        os.symlink("out", self.path("link"))
        self.assertEqual(self.run_it("in", "-o", "link")[0], 0)
        self.assertTrue(os.path.islink(self.path("link")))
        self.assertEqual((self.get("out"), stat.S_IMODE(os.stat(self.path("out")).st_mode)), (TWO, 0o640))
        self.assertEqual(self.run_it("in", "-o", "new")[0], 0)
        mask = os.umask(0)
        os.umask(mask)
        self.assertEqual(stat.S_IMODE(os.stat(self.path("new")).st_mode), 0o666 & ~mask)
        self.assertEqual(self.run_it("in", "-o", os.devnull)[0], 0)
        self.assertFalse(os.path.isfile(os.devnull))

    def test_each_status(self):
        self.put("out", b"old")
        self.put("empty", b"")
        self.put("start", HEAD + bytes.fromhex("080100"))
        self.put("component", COMPONENT)
        self.put("uneven", HEAD + bytes.fromhex("010401600000 03020100"))
        self.put("twice", HEAD + bytes.fromhex("030100030100"))
        self.put("strict", b'{"strict": true}')
        self.put("orders", b"[0, 0]")
        for words, status, said in [
                (["in", "-o", "nowhere/out"], 4, "write fault"),
                (["in", "-o", "."], 4, "write fault"),
                (["nowhere", "-o", "out"], 3, "read fault"),
                ([".", "-o", "out"], 3, "read fault"),
                (["in", "--map", "nowhere", "-o", "out"], 12, "shelf fault"),
                (["nowhere", "--map", "empty", "-o", "out"], 11, "bad renaming"),
                (["merge", "nowhere", "nowhere", "-o", "out"], 12, "shelf fault"),
                (["empty", "-o", "out"], 5, "parse error at 0"),
                (["merge", "in", "empty", "-o", "out"], 5, "parse error at 0 by 2"),
                (["in", "--map", "strict", "-o", "out"], 6, "refused type 0"),
                (["in", "--map", "map", "--strict", "-o", "out"], 6, "refused type 0"),
                (["prune", "component", "-o", "out"], 8, "There was a section that does not belong in a core wasm module"),
                (["-m", "6", "in", "-o", "out"], 10, "too large: 7 over 6"),
                (["renumber", "in", "--order", "map", "-o", "out"], 11, "bad renaming"),
                (["renumber", "in", "--order", "orders", "-o", "out"], 17, "not an order at 1"),
                (["prune", "uneven", "-o", "out"], 15, "uneven: 1 and 0"),
                (["prune", "twice", "-o", "out"], 16, "repeated section 3"),
                (["prune", "start", "-o", "out"], 18, "dangling function 0"),
                (["merge", "in", "in", "-o", "out"], 19, "export clash add")]:
            with self.subTest(words):
                self.assertEqual(self.run_it(*words), (status, b"", said + "\n"))
                self.assertEqual(self.get("out"), b"old")
        self.assertEqual([name for name in os.listdir(self.room.name) if name.startswith(".")], [])

    def test_other_words(self):
        for words in ([], ["in"], ["-o", "out"], ["in", "-o"], ["in", "in", "-o", "out"], ["rename", "in", "-o", "out"],
                      ["renumber", "in", "-o", "out"], ["merge", "in", "-o", "out"], ["in", "--strict", "-o", "out"],
                      ["plain", "in", "--map", "map", "-o", "out"],
                      ["-m", "4294967296", "in", "-o", "out"], ["-m", "01", "in", "-o", "out"], ["-m", "-1", "in", "-o", "out"],
                      ["-", "--map", "-", "-o", "out"], ["in", "-o", "out", "--ma", "map"]):
            with self.subTest(words):
                status, made, said = self.run_it(*words)
                self.assertEqual((status, made, said[:7]), (2, b"", "usage: "))
        self.assertFalse(os.path.exists(self.path("out")))
        self.assertIn(b"merge IN SECOND", self.run_it("--help")[1])

    def test_streams_that_fail(self):
        with open("/dev/full", "wb") as full:
            ran = subprocess.run([sys.executable, "-m", "hyssopplinth", "in", "-o", "-"], stdout=full, stderr=subprocess.PIPE,
                                 cwd=self.room.name, env=dict(os.environ, PYTHONPATH=os.pathsep.join(filter(None, sys.path))))
        self.assertEqual((ran.returncode, ran.stderr), (4, b"write fault\n"))
        if os.geteuid():
            os.chmod(self.path("in"), 0)
            self.assertEqual(self.run_it("in", "-o", "out")[0], 3)


if __name__ == "__main__":
    unittest.main()
