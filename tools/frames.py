#!/usr/bin/env python3
"""Lists the largest stack frames of a program, each as its size in bytes and its function.

    tools/frames.py [PROGRAM] [--show N] [--limit BYTES] [--without PREFIX]..

With --limit the status is 1 where a frame is larger. Functions whose names begin with a PREFIX are left out. PROGRAM is
crates/raftlog/out/raftlog by default. A frame is what a function subtracts from the stack pointer. A frame above 4 KB is entered by a loop that
touches each page; then its size is subtracted from another register. The registers that a function saves aren't counted: they have at most 56
bytes.
"""
import argparse
import re
import shutil
import subprocess
import sys
from pathlib import Path

RAFTLOG = Path(__file__).resolve().parent.parent / "crates/raftlog/out/raftlog"
FUNCTION = re.compile(r"^[0-9a-f]+ <(.*)>:$")
TAKES = re.compile(r"\bsub\s+\$0x([0-9a-f]+),%(rsp|r11)\b")


def frames(program):
    """Returns the size of the frame of each function of a program that has one."""
    listing = subprocess.run(["objdump", "-d", "--no-show-raw-insn", str(program)], check=True, capture_output=True, text=True)
    found, function, touching = {}, None, False
    for line in listing.stdout.splitlines():
        if named := FUNCTION.match(line):
            function, touching = named[1], False
        elif function and (taken := TAKES.search(line)):
            if taken[2] == "rsp" and touching:
                touching = False
                continue
            touching = taken[2] == "r11"
            found[function] = found.get(function, 0) + int(taken[1], 16)
    return found


def main():
    words = argparse.ArgumentParser(description=__doc__.splitlines()[0])
    words.add_argument("program", type=Path, nargs="?", default=RAFTLOG, help="the path of the program")
    words.add_argument("--show", type=int, default=12, metavar="N", help="how many frames to list (default: %(default)s)")
    words.add_argument("--limit", type=int, metavar="BYTES", help="the size above which a frame is an error")
    words.add_argument("--without", action="append", default=[], metavar="PREFIX", help="leave out functions whose names begin so; may be repeated")
    asked = words.parse_args()
    if not asked.program.exists():
        sys.exit(f"{asked.program} isn't there: make raftlog")
    if not shutil.which("objdump"):
        sys.exit("objdump (of binutils) isn't there, which lists the functions")
    found = sorted(frames(asked.program).items(), key=lambda frame: -frame[1])
    found = [(function, size) for function, size in found if not function.startswith(tuple(asked.without))]
    if not found:
        sys.exit(f"{asked.program}: no function has a frame, so they can't be read")
    for function, size in found[:asked.show]:
        print(f"{size:8} {function[:150]}")
    if asked.limit is not None and found[0][1] > asked.limit:
        sys.exit(f"{asked.program}: a frame above {asked.limit} bytes")


if __name__ == "__main__":
    main()
