"""What the scripts share that run the program: their words, what came of many runs, and runs over bytes, each with a bound on its
memory (these need Linux, /bin/sh, and Python 3.9 or later)."""
import argparse
import collections
import os
import select
import signal
import sys


def parser_of(doc, **numbers):
    """The parser of a script whose doc has its usage in a line, with these numbers among its words; --help prints the doc."""
    if {"-h", "--help"} & set(sys.argv[1:]):
        print(doc.strip())
        sys.exit(0)
    parser = argparse.ArgumentParser(usage=next(line for line in doc.split("\n") if line.startswith("tools/")))
    for key, usual in numbers.items():
        parser.add_argument("--" + key.replace("_", "-"), type=int, default=usual)
    return parser


def collected(pieces):
    """The failures of pieces of work, each a count of statuses and its failures. They are printed as they come, and then the counts."""
    statuses, failures = collections.Counter(), []
    for done in pieces:
        found, said = done.result()
        statuses.update(found)
        failures += said
        for line in said:
            print(line, flush=True)
    for status, count in sorted(statuses.items()):
        print(f"status {status}: {count}")
    return failures


class Run:
    """How a run ended: its status, or the number of the signal that ended it with a minus before, and what it wrote."""

    def __init__(self, status, out, err):
        self.status, self.out, self.err = status, out, err


files = {}


def taken(file):
    size = os.fstat(file).st_size
    data = os.pread(file, size, 0) if size else b""
    os.ftruncate(file, 0)
    return data


def run(program, words, given, most, seconds=60):
    """Runs the program on words over an input, with no environment and at most so many bytes of memory, its own included. It is
    ended after so many seconds."""
    # Those that a process began with are its parent's.
    mine = files.setdefault(os.getpid(), [])
    if not mine:
        mine.extend(os.memfd_create(name) for name in ("given", "out", "err"))
    os.ftruncate(mine[0], 0)
    os.pwrite(mine[0], given, 0)
    for file in mine:
        os.lseek(file, 0, os.SEEK_SET)
    # A shell sets the bound, which is a small process: to copy this one would take longer.
    child = os.posix_spawn("/bin/sh", ["sh", "-c", 'ulimit -v "$0" && exec "$@"', str(most >> 10), program, *words], {},
                           file_actions=[(os.POSIX_SPAWN_DUP2, file, at) for at, file in enumerate(mine)])
    ended = os.pidfd_open(child)
    if not select.select([ended], [], [], seconds)[0]:
        os.kill(child, signal.SIGKILL)
    os.close(ended)
    _, how = os.waitpid(child, 0)
    return Run(os.waitstatus_to_exitcode(how), taken(mine[1]), taken(mine[2]))


def own(program):
    """The least memory, in bytes, by which the program takes a module without sections: what a run takes beside what its input asks
    for."""
    low, high = 0, 1 << 32
    while high - low > 1 << 12:
        middle = (low + high) // 2
        if run(program, ["plain"], b"\0asm\1\0\0\0", middle).status == 0:
            high = middle
        else:
            low = middle
    return high


def verdict(run_, statuses, lines=2):
    """What is wrong with a run that must end with one of these statuses, write to standard output with 0 alone, and then so many lines,
    and say one line with another."""
    said = run_.err.decode("utf-8", "replace")
    if run_.status not in statuses:
        return f"status {run_.status}: {said.strip()[:200]}"
    if run_.status and (run_.out or len(said.split("\n")) != 2 or not said.endswith("\n")):
        return f"status {run_.status} with {len(run_.out)} bytes of output, and '{said.strip()[:200]}'"
    if not run_.status and (said or run_.out.count(b"\n") != lines):
        return f"status 0 with {run_.out.count(10)} lines of output, and '{said.strip()[:200]}'"
    return None
