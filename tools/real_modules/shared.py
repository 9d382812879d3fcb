"""What the scripts that run the program over real modules share."""
import os
import shutil
import subprocess

# Modules that have no reading, by their path, and why. One that is refused and isn't here is a failure.
EXPECTED = [
    ("wat/tags*_names.wasm", "wabt 1.0.32 writes the names of tags as subsection 10, which is that of fields"),
    ("wat/references*.wasm", "wabt 1.0.32 writes a typed function reference by the numbers of an earlier proposal"),
    ("binaryen/lit_binary_*.wasm", "types and operators of the garbage collection proposal by the numbers of 2022"),
    ("binaryen/let.wasm", "types and operators of the garbage collection proposal by the numbers of 2022"),
    ("worked/*_small.wasm", "binaryen 108 with all features writes typed function references by the numbers of 2022"),
    ("binaryen/crash_*.wasm", "a module that is broken on purpose, which wabt doesn't read either"),
    ("binaryen/passes_fuzz_metrics_noprint.wasm", "no module: random bytes for a maker of modules"),
]
LONGEST = 67_108_864
LONGEST_FILE = 1_048_576

# node, or what the environment names in its place, with the proposals that it has behind a flag, where it knows the flag.
NODE = [os.environ.get("NODE", "node")]
if shutil.which(NODE[0]):
    known = subprocess.run([*NODE, "--v8-options"], capture_output=True, text=True).stdout
    NODE += [flag for flag in ("--experimental-wasm-memory64", "--experimental-wasm-exnref", "--experimental-wasm-extended-const",
                               "--experimental-wasm-multi-memory", "--experimental-wasm-relaxed-simd") if flag + " " in known]


def run(program, words, data, room):
    ran = subprocess.run([program, *words], input=data, capture_output=True, cwd=room)
    return ran.returncode, ran.stdout, ran.stderr.decode(errors="replace").strip()


def first_difference(one, two):
    at = next((at for at, (a, b) in enumerate(zip(one, two)) if a != b), min(len(one), len(two)))
    return f"{len(one)} bytes where {len(two)} are due, other from byte {at} on"


def modules_of(folder, parts):
    """The paths of the modules in a folder, but of its sources; where parts are named, those whose path has one of them in it."""
    paths = []
    for top, _, names in os.walk(folder):
        if os.path.relpath(top, folder).split(os.sep)[0] != "sources":
            paths += [os.path.join(top, name) for name in names if name.endswith((".wasm", ".o"))]
    return [path for path in sorted(paths) if not parts or any(part in os.path.relpath(path, folder) for part in parts)]


def accepted_by_wabt(path):
    return bool(shutil.which("wasm-validate")) and subprocess.run(["wasm-validate", "--enable-all", path], capture_output=True).returncode == 0
