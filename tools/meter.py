"""What a run of a program takes: time, memory, instructions; its input is a file, or nothing. And what it is compared with, compiled."""
import os
import re
import shutil
import subprocess
import sys
import tempfile

# A process of its own, so that what it says of its child is not what this one has taken.
METER = """
import resource, subprocess, sys, time
start = time.perf_counter()
status = subprocess.run(sys.argv[1:], stdout=subprocess.DEVNULL, stderr=subprocess.DEVNULL).returncode
wall = time.perf_counter() - start
used = resource.getrusage(resource.RUSAGE_CHILDREN)
print(wall, used.ru_utime + used.ru_stime, used.ru_maxrss / 1024, status)
"""


def compiled(folder, compiler, words, name):
    """A program of tools/peers, compiled; none where its compiler is missing."""
    if not shutil.which(compiler):
        print(f"{name}: left out, {compiler} is missing")
        return None
    made = os.path.join(folder, name)
    subprocess.run([compiler, *words, "-o", made], check=True)
    return made


def metered(words, given=os.devnull):
    """Wall time, processor time, peak of memory in MiB, and status of a run."""
    with open(given, "rb") as source:
        said = subprocess.run([sys.executable, "-S", "-c", METER, *words], stdin=source, stdout=subprocess.PIPE, text=True, check=True).stdout
    wall, used, peak, status = said.split()
    return float(wall), float(used), float(peak), int(status)


def peak_of(words, given):
    """The peak of memory of a run in MiB, by /usr/bin/time, whose own is small."""
    if not os.path.exists("/usr/bin/time"):
        return metered(words, given)[2]
    with tempfile.NamedTemporaryFile("r") as said, open(given, "rb") as source:
        subprocess.run(["/usr/bin/time", "-o", said.name, "-f", "%M", *words], stdin=source, stdout=subprocess.DEVNULL, stderr=subprocess.DEVNULL)
        return int(said.read().split()[-1]) / 1024


def least_of(words, given=os.devnull, runs=3):
    """The least processor time of some runs, in seconds, and the greatest peak of memory, in MiB."""
    _, times, peaks, statuses = zip(*(metered(words, given) for _ in range(runs)))
    if any(statuses):
        sys.exit(f"{' '.join(words)}: status {max(statuses)}")
    return min(times), max(peaks)


def length_made(words, given=os.devnull):
    """What a maker of crates/bench prints: how many bytes came."""
    with open(given, "rb") as source:
        return int(subprocess.run(words, stdin=source, stdout=subprocess.PIPE, text=True, check=True).stdout)


def instructions(words, given=os.devnull):
    """Those that callgrind counts; none where the program fails, or valgrind says nothing."""
    with open(given, "rb") as source:
        ran = subprocess.run(["valgrind", "--tool=callgrind", "--callgrind-out-file=/dev/null", *words], stdin=source,
                             stdout=subprocess.DEVNULL, stderr=subprocess.PIPE, text=True)
    found = re.search(r"Collected : (\d+)", ran.stderr)
    return int(found[1]) if found and not ran.returncode else None
