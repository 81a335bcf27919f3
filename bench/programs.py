"""Builds the peers and our programs, runs them, and counts the x86-64 instructions that they take."""
import platform
import re
import shutil
import subprocess
import tempfile
from pathlib import Path

HOUSE = Path(__file__).resolve().parent.parent
BENCH = HOUSE / "bench"
OUT = HOUSE / "target" / "bench"
OURS = HOUSE / "target" / "bin"
NATIVE = platform.machine() == "x86_64"

# Static and at a fixed address: no loader and no indirection that the peer's code did not ask for.
FLAGS = ["-std=c11", "-O3", "-march=x86-64", "-static", "-fno-pie", "-no-pie"]
WARNINGS = ["-Wall", "-Wextra", "-Wconversion", "-pedantic"]
SHEET_PEERS = {"a": "trap", "b": "flip", "c": "lanes"}


class Failed(Exception):
    """Something that the benchmark needs is missing, or a program failed."""


def needed(*names):
    """The first of these programs that this machine has."""
    for name in names:
        path = shutil.which(name)
        if path:
            return path
    raise Failed("none of these programs is installed: " + ", ".join(names))


def compiler():
    return needed("x86_64-linux-gnu-gcc", *(["gcc", "cc"] if NATIVE else []))


def compiler_version():
    return subprocess.run([compiler(), "--version"], capture_output=True, text=True, check=True).stdout.splitlines()[0]


def compiled(command):
    if subprocess.run(command).returncode != 0:
        raise Failed("not compiled: " + " ".join(map(str, command)))


def build_peers():
    """Compiles the peers; returns the path of each by its letter, and `truth` by its name."""
    OUT.mkdir(parents=True, exist_ok=True)
    peers, paths = BENCH / "peers", {}
    for letter, name in SHEET_PEERS.items():
        paths[letter] = OUT / name
        sources = [peers / f"{name}.c", peers / "engine.c", peers / "common.c"]
        compiled([compiler(), *FLAGS, *WARNINGS, "-o", paths[letter], *sources])
    paths["truth"] = OUT / "truth"
    compiled([compiler(), *FLAGS, *WARNINGS, "-o", paths["truth"], peers / "truth.c", peers / "common.c"])
    return paths


def make_suites():
    """Writes the generated suites; returns their folder."""
    folder, maker = OUT / "suites", OUT / "make-suites"
    folder.mkdir(parents=True, exist_ok=True)
    peers = BENCH / "peers"
    compiled([needed("cc", "gcc"), "-std=c11", "-O2", *WARNINGS, "-o", maker, BENCH / "suites.c", peers / "engine.c", peers / "common.c"])
    subprocess.run([maker, folder], check=True)
    return folder


def build_ours():
    """Our programs `sheet` and `answers`, proved and built if a crate has changed since."""
    built = subprocess.run([HOUSE / "bin" / "build-proved", "sheet", "answers"], capture_output=True, text=True)
    if built.returncode != 0:
        raise Failed("not proved: " + built.stderr[-500:])
    return OURS / "sheet", OURS / "answers"


def toolchain():
    rt = Path(needed("rt")).resolve()
    return rt.parent.parent / "toolchain"


def command(program):
    """The words that start a program, a linked one with the toolchain's loader and C library. Its whole path, since that is counted too."""
    program = Path(program).resolve()
    headers = subprocess.run([needed("readelf"), "-lW", program], capture_output=True, text=True, check=True).stdout
    if "INTERP" not in headers:
        return [str(program)]
    library = toolchain() / "lib"
    return [str(library / "ld-linux-x86-64.so.2"), "--library-path", str(library), str(program)]


def answer(words, data):
    """What a started program says to some input, on another processor under the system's emulator."""
    emulator = [] if NATIVE else [needed("qemu-x86_64")]
    ran = subprocess.run(emulator + words, input=data, capture_output=True)
    if ran.returncode != 0:
        raise Failed(f"{words[-1]} ended with status {ran.returncode}")
    return ran.stdout


def counted(words, data):
    """The answer of a program and its number of instructions: environment and folder are fixed, so that the number is always the same."""
    OUT.mkdir(parents=True, exist_ok=True)
    with tempfile.NamedTemporaryFile(dir=OUT, mode="r") as log:
        if NATIVE:
            counter = [needed("valgrind"), "--tool=callgrind", "--callgrind-out-file=/dev/null", f"--log-file={log.name}"]
        else:
            plugin = OUT / "counter.so"
            compiled([needed("cc", "gcc"), "-O2", "-shared", "-fPIC", "-o", plugin, BENCH / "counter.c"])
            counter = [needed("qemu-x86_64"), "-plugin", str(plugin)]
        ran = subprocess.run(counter + words, input=data, capture_output=True, env={}, cwd="/")
        said = log.read() + ran.stderr.decode(errors="replace")
    found = re.search(r"(?:Collected :|instructions) (\d+)", said)
    if ran.returncode != 0 or not found:
        raise Failed(f"{words[-1]} was not counted (status {ran.returncode}): {said[-500:]}")
    return ran.stdout, int(found.group(1))


def counter_name():
    if NATIVE:
        return "Valgrind's callgrind"
    return "the emulator qemu-x86_64 with the plug-in bench/counter.c"
