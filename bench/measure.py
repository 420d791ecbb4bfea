"""Builds what is measured and measures it. Everything is written below target/bench."""

import filecmp
import os
import statistics
import subprocess
import sys

HERE = os.path.dirname(os.path.abspath(__file__))
ROOT = os.path.dirname(HERE)
OUT = os.path.join(ROOT, "target", "bench")
TRACES = os.path.join(OUT, "traces")
TESTS = os.path.join(ROOT, "target", "tests")
NEED, GCC_FOR, X86 = (os.path.join(ROOT, "tests", name) for name in ("need", "gcc-for", "x86"))
FLAGS = ["-std=c11", "-O3", "-Wall", "-Wextra"]
# The C library fills and copies without `rep`: where instructions are counted it counts a byte as one,
# and an emulator runs it byte by byte.
NO_REP = dict(os.environ, GLIBC_TUNABLES="glibc.cpu.x86_rep_stosb_threshold=0x40000000:"
              "glibc.cpu.x86_rep_movsb_threshold=0x40000000")


def say(what):
    print(what, file=sys.stderr, flush=True)


def run(words, **more):
    """Runs a command and gives what it prints; ends the benchmark if it fails."""
    done = subprocess.run(words, capture_output=True, text=True, **more)
    if done.returncode:
        sys.exit(f"{words[0]} ended with {done.returncode}:\n{done.stdout}{done.stderr}")
    return done


def command(program):
    """The words that run a program here: its path, or an emulator's command."""
    return run([X86, "--words", program]).stdout.splitlines()


def emulated(program):
    return len(command(program)) > 1


def built(library, name, sources, *flags):
    """The path of a C program, built for the processor of the library."""
    path = os.path.join(OUT, name)
    sources = [os.path.join(HERE, source) for source in sources]
    run([GCC_FOR, library] + FLAGS + sources + ["-o", path] + list(flags))
    return path


def build(folder):
    """The baseline, the driver, the writer of traces."""
    os.makedirs(TRACES, exist_ok=True)
    library = os.path.join(folder, "libpieces.a")
    plain = built(library, "baseline", ["baseline.c"])
    drive = built(library, "drive", ["drive.c", "calls.c"], library, "-Wl,-z,now")
    run([NEED, "cargo", "cargo"])
    where = dict(os.environ, CARGO_TARGET_DIR=TESTS)
    package = os.path.join(ROOT, "tests", "compare")
    run(["cargo", "build", "--release", "--offline", "--quiet", "-j1"], cwd=package, env=where)
    return plain, drive, os.path.join(TESTS, "release", "traces")


def trace(writer, name, lines):
    """The file of a profile's trace, written if it is not there or older than its writer."""
    path = os.path.join(TRACES, f"{name}, {lines}")
    if not os.path.exists(path) or os.path.getmtime(path) < os.path.getmtime(writer):
        say(f"  writing the trace: {name}")
        run([writer, name, path, str(lines)])
    return path


def head(path, lines, name):
    """The first lines of a trace, as a file of its own."""
    part = os.path.join(OUT, name)
    with open(path, "rb") as whole, open(part, "wb") as first:
        for _ in range(lines):
            first.write(whole.readline())
    return part


def must_agree(programs, path):
    """Ends the benchmark if the programs do not all write the same for a trace."""
    wrote = [os.path.join(OUT, f"output-{i}") for i in range(len(programs))]
    for program, output in zip(programs, wrote):
        with open(path, "rb") as source, open(output, "wb") as sink:
            if subprocess.run(command(program), stdin=source, stdout=sink).returncode:
                sys.exit(f"{program} fails on {path}")
        if not filecmp.cmp(wrote[0], output, shallow=False):
            sys.exit(f"{programs[0]} and {program} differ on {path}")
    for output in wrote:
        os.remove(output)


def processor_time(words, path):
    """Seconds of processor time that a command takes for a trace."""
    source, sink = os.open(path, os.O_RDONLY), os.open(os.devnull, os.O_WRONLY)
    actions = [(os.POSIX_SPAWN_DUP2, source, 0), (os.POSIX_SPAWN_DUP2, sink, 1)]
    child = os.posix_spawn(words[0], words, NO_REP if len(words) > 1 else os.environ,
                           file_actions=actions)
    _, status, used = os.wait4(child, 0)
    os.close(source)
    os.close(sink)
    if status:
        sys.exit(f"{' '.join(words)} fails on {path}")
    return used.ru_utime + used.ru_stime


def times(programs, path, rounds):
    """The median time of each program for a trace, run in turn."""
    commands = [command(program) for program in programs]
    taken = [[processor_time(words, path) for words in commands] for _ in range(rounds)]
    return [statistics.median(column) for column in zip(*taken)]


def counter(program):
    """What counts a program's instructions, the words before those that run it; none if nothing
    can: callgrind, or the plugin of count.c in Debian's emulator."""
    if not emulated(program):
        words = ["valgrind", "--tool=callgrind"]
        return words if subprocess.run([NEED, "valgrind", "valgrind"]).returncode == 0 else None
    plugin = os.path.join(OUT, "count.so")
    run(["gcc"] + FLAGS + ["-shared", "-fPIC", os.path.join(HERE, "count.c"), "-o", plugin])
    words = ["qemu-x86_64", "-plugin", plugin]
    if subprocess.run([NEED, "qemu-x86_64", "qemu-user"]).returncode:
        return None
    tried = subprocess.run(words + command(program)[1:], stdin=subprocess.DEVNULL,
                           capture_output=True, text=True)
    return words if "end: " in tried.stderr else None


def instructions(counting, program, path):
    """The instructions that a program takes for a trace."""
    if counting is None:
        return None
    if emulated(program):
        words, sign = counting + command(program)[1:], "end: "
    else:
        words, sign = counting + ["--callgrind-out-file=/dev/null", program], "Collected :"
    with open(path, "rb") as source:
        done = subprocess.run(words, stdin=source, stdout=subprocess.DEVNULL,
                              stderr=subprocess.PIPE, text=True, env=NO_REP)
    counted = [line for line in done.stderr.splitlines() if sign in line]
    return int(counted[0].split()[-1]) if counted else None


def between(counting, programs, path, skipped, counted):
    """The instructions that each program takes for so many lines of a trace after the first."""
    heads = [head(path, skipped, "head"), head(path, skipped + counted, "longer head")]
    both = [[instructions(counting, program, part) for part in heads] for program in programs]
    return [first and last and last - first for first, last in both]


def driven(drive, what, rounds):
    """Rows of the driver, in their order: shape, call, N, size, and the medians of several runs."""
    words = command(drive) + [what]
    env = NO_REP if len(words) > 2 else os.environ
    runs = [[line.split("\t") for line in run(words, env=env).stdout.splitlines()]
            for _ in range(rounds)]
    rows = []
    for same in zip(*runs):
        shape, call, n, size = same[0][:4]
        plain, pieces = (statistics.median(float(row[i]) for row in same) for i in (4, 5))
        rows.append((shape, call, int(n), int(size), plain, pieces))
    return rows


def call_instructions(counting, drive):
    """The instructions of each call and its stores, by shape, call and side; nothing where nothing
    counts."""
    if counting is None:
        return {}
    return marked(counting, drive) if emulated(drive) else collected(counting, drive)


def marked(counting, drive):
    """The instructions between two marks each, less those between marks about nothing; the emulator
    counts no stores."""
    done = run(counting + command(drive)[1:] + ["count"], env=NO_REP)
    names = [tuple(line.split("/")) for line in done.stdout.splitlines()]
    marks = [int(line.split()[1]) for line in done.stderr.splitlines() if line.startswith("mark: ")]
    between = [end - begin for begin, end in zip(marks[::2], marks[1::2])]
    return {name: (many - between[0], None) for name, many in zip(names[1:], between[1:])}


def collected(counting, drive):
    """The instructions and the stores that callgrind has collected under each name."""
    folder = os.path.join(OUT, "counts")
    os.makedirs(folder, exist_ok=True)
    for name in os.listdir(folder):
        os.remove(os.path.join(folder, name))
    run(counting + ["-q", "--collect-atstart=no", "--cache-sim=yes",
                    "--callgrind-out-file=" + os.path.join(folder, "part"), drive, "count"],
        env=NO_REP)
    counted = {}
    for name in os.listdir(folder):
        with open(os.path.join(folder, name)) as part:
            words = dict(line.rstrip("\n").split(": ", 1) for line in part
                         if line.startswith(("desc: Trigger", "events: ", "totals: ")))
        asked = words.get("desc", "").partition("Client Request: ")[2]
        if asked:
            by = dict(zip(words["events"].split(), map(int, words["totals"].split())))
            counted[tuple(asked.split("/"))] = by["Ir"], by["Dw"]
    return counted


def processor():
    """The name of the processor."""
    for words in (["cat", "/proc/cpuinfo"], ["lscpu"]):
        for line in run(words).stdout.splitlines():
            if line.lower().startswith("model name"):
                return line.partition(":")[2].strip()
    return "unknown processor"
