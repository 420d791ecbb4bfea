#!/usr/bin/env python3
"""Breaks the independent program, one way at a time, and shows that the comparison notices."""

import os
import shutil
import subprocess
import sys
from pathlib import Path

sys.dont_write_bytecode = True
from versions import BY_DOOR, BY_TRACE

TESTS = Path(__file__).resolve().parent.parent
TARGET = Path(os.environ.get("CARGO_TARGET_DIR", TESTS.parent / "target" / "tests")).resolve()
ROOM = TARGET / "wrong"
# A copy of the independent program and its C functions, laid out as in tests/.
COPY = ROOM / "copy"
STANDIN = COPY / "wrong" / "standin"
BUILT = ROOM / "built"


def build(package, target, flags=""):
    """Builds a package; its folder of programs."""
    command = ["cargo", "build", "--release", "--offline", "--quiet", "-j1"]
    environment = {**os.environ, "RUSTFLAGS": flags, "CARGO_TARGET_DIR": str(target)}
    if subprocess.run(command, cwd=package, env=environment).returncode != 0:
        sys.exit(f"{package.name} does not build")
    return target / "release"


def edited(edits):
    """Copies the independent program and its C functions, with the edits made."""
    shutil.rmtree(COPY, ignore_errors=True)
    shutil.copytree(TESTS / "independent", COPY / "independent", copy_function=shutil.copyfile)
    shutil.copytree(TESTS / "wrong" / "standin", STANDIN, copy_function=shutil.copyfile)
    for name, text, instead in edits:
        path = COPY / "independent" / "src" / name
        source = path.read_text()
        if source.count(text) != 1:
            sys.exit(f"the edit of {name} does not apply: {text}")
        path.write_text(source.replace(text, instead))


def by_trace(compare, edits):
    """What `compare` says of the trace program with the edits made."""
    edited(edits)
    program = build(COPY / "independent", BUILT, "-Awarnings") / "independent"
    return [compare, "--program", program, "--lines", "1"]


def by_door(doors, edits):
    """What `doors` says of the C functions with the edits made."""
    edited(edits)
    library = build(STANDIN, BUILT, "-Awarnings")
    door = ROOM / "door"
    if subprocess.run([TESTS / "doors" / "build-door", library, door]).returncode != 0:
        sys.exit("the door does not build")
    return [doors, "--door", door, "--rounds", "1"]


def noticed(name, command):
    """Runs a comparison to its end; whether it found an answer, an area or a line that differs."""
    done = subprocess.run(command, stdout=subprocess.PIPE, text=True)
    account = done.stdout.partition("DIFFERENT: ")[2]
    ended = done.returncode == (1 if account else 0)
    if not ended or ": fault: " in account:
        sys.exit(f"{name}: a fault, not a difference (ended with {done.returncode})\n{account}")
    where = account.partition(":")[0]
    print(f"{name}: " + (f"noticed by {where}" if account else "no difference"), flush=True)
    return bool(account)


def main():
    subprocess.run([TESTS / "need", "cargo", "cargo"], check=True)
    compare = build(TESTS / "compare", TARGET) / "compare"
    doors = build(TESTS / "doors", TARGET) / "doors"
    if noticed("the unbroken trace program", by_trace(compare, [])):
        sys.exit("the comparison finds a difference where there is none")
    if noticed("the unbroken C functions", by_door(doors, [])):
        sys.exit("the comparison finds a difference where there is none")
    seen = [noticed(name, by_trace(compare, edits)) for name, edits in BY_TRACE]
    seen += [noticed(name, by_door(doors, edits)) for name, edits in BY_DOOR]
    print(f"{sum(seen)} of {len(seen)} wrong versions noticed")
    sys.exit(0 if all(seen) else 1)


if __name__ == "__main__":
    main()
