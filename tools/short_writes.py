#!/usr/bin/env python3
"""Runs raft_example on a disk that takes no more bytes, and checks that it recovers from each write that fails half way.

    tools/short_writes.py [PROGRAM]

No file may grow beyond a limit, as with `ulimit -f`; the limit is each number of bytes in turn. A write that would pass it is made in part and
then refused, which ends the program. When it is run again without a limit, it has to find at least the state that it printed last, and at
least as much as with the limit before, and to go on. Nothing is cut off then, as the half write was taken back, but what the program tore
itself. PROGRAM is crates/raft_example/out/raft_example by default. A line is printed for each
limit with which it doesn't; the status is 1 where there is one.
"""
import argparse
import resource
import signal
import subprocess
import sys
import tempfile
from pathlib import Path

from folder_stops import BATCHES, CRATES, SECONDS, UNTORN

# (the program writes fewer bytes to a file)
LIMITS = 4096


def limit_files(limit):
    """Lets no file of this process grow beyond so many bytes: a write beyond them is refused, and no signal is sent."""
    signal.signal(signal.SIGXFSZ, signal.SIG_IGN)
    resource.setrlimit(resource.RLIMIT_FSIZE, (limit, limit))


def shown(program, folder, limit):
    """Runs the program over a folder, with the limit in the list `limit`, or without one for None. Returns whether it ended well, the states
    of the regions that it printed (the position of each in BATCHES, None for any other state), and all lines that it printed."""
    ended = subprocess.run([program, folder], stdin=subprocess.DEVNULL, capture_output=True, text=True, timeout=SECONDS,
                           restore_signals=False, preexec_fn=limit and (lambda: limit_files(limit[0])))
    printed = ended.stdout.splitlines()
    lines = [line for line in printed if line.startswith("  region ")]
    states = list(zip(lines[::2], lines[1::2]))
    return ended.returncode == 0, [BATCHES.index(state) if state in BATCHES else None for state in states], printed


def is_cut_untorn(lines):
    """Tests whether something was cut off files before the program tore one itself, given what it printed, in one run or more."""
    tears = [at for at, line in enumerate(lines) if line.startswith("torn, ")]
    return any(line.startswith("cut off: ") for line in lines[: tears[0] if tears else None])


def main():
    words = argparse.ArgumentParser(description=__doc__.splitlines()[0])
    words.add_argument("program", type=Path, nargs="?", default=CRATES / "raft_example/out/raft_example", help="the path of raft_example")
    program = words.parse_args().program.resolve()
    limit, least, wrongs = 0, 0, 0
    while limit < LIMITS:
        with tempfile.TemporaryDirectory(prefix="raft-example-short-") as room:
            folder = Path(room) / "logs"
            is_whole, before, first = shown(program, folder, [limit])
            if is_whole:
                break
            goes_on, found, second = shown(program, folder, None)
        # (the fifth batch isn't synced, and is torn)
        wanted = max(least, *(min(state, UNTORN) for state in before[-1:]), 0)
        if not goes_on or found[0] is None or found[0] < wanted or is_cut_untorn(first + second):
            wrongs += 1
            print(f"no file beyond {limit} bytes: after {before} found {found}, {second[:1]}")
        else:
            least = found[0]
        limit += 1
    print(f"writes refused at {limit} limits, {wrongs} wrong")
    sys.exit(0 if wrongs == 0 and 2 <= limit < LIMITS and least > 3 else 1)


if __name__ == "__main__":
    main()
