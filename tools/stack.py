#!/usr/bin/env python3
"""Runs `raftlog recover` over 2,000 files, with little stack and with many workers, and prints a line for each run.

    tools/stack.py [PROGRAM] [--files N] [--megabytes N] [--regions N]

The files are made by tools/logs.py. Each run has to end with status 0, and to print the expected lines; where one doesn't, the status is 1. The
stack has the limits of `ulimit -s`, in KiB; where it is `unlimited`, threads get what the system gives them. PROGRAM is
crates/raftlog/out/raftlog by default. The lines have the time and the memory of each run, which aren't judged.
"""
import argparse
import os
import resource
import subprocess
import sys
import tempfile
import time
from pathlib import Path

import logs

RAFTLOG = Path(__file__).resolve().parent.parent / "crates/raftlog/out/raftlog"
LIMITS = ["unlimited", 8192, 4096, 3072, 2048, 1024, 512]
WORKERS = [1, 2, 4, 256]
SECONDS = 120


def limit_stack(limit):
    """Sets the limit of this process's stack, in KiB, as `ulimit -S -s` does."""
    most = resource.getrlimit(resource.RLIMIT_STACK)[1]
    wanted = resource.RLIM_INFINITY if limit == "unlimited" else limit << 10
    if most != resource.RLIM_INFINITY:
        wanted = most if wanted == resource.RLIM_INFINITY else min(wanted, most)
    resource.setrlimit(resource.RLIMIT_STACK, (wanted, most))


def run(program, folder, limit, workers):
    """Runs raftlog with a limit of the stack. Returns what went wrong, or None, and how many seconds and MiB the run took."""
    queue, version, *files = (folder / "args").read_text().split()
    words = [str(program), "recover", queue, version, str(workers), *files]
    with tempfile.TemporaryFile() as out, tempfile.TemporaryFile() as err:
        start = time.monotonic()
        child = subprocess.Popen(words, cwd=folder, stdin=subprocess.DEVNULL, stdout=out, stderr=err,
                                 preexec_fn=lambda: (limit_stack(limit), resource.setrlimit(resource.RLIMIT_CPU, (SECONDS, SECONDS))))
        _, status, used = os.wait4(child.pid, 0)
        seconds = time.monotonic() - start
        child.returncode = os.waitstatus_to_exitcode(status)
        out.seek(0)
        err.seek(0)
        wrong = None
        if child.returncode != 0:
            wrong = f"status {child.returncode} {err.read(200).decode(errors='replace').strip()}"
        elif out.read() != (folder / "expect").read_bytes():
            wrong = "other lines"
    return wrong, seconds, used.ru_maxrss / 1024


def main():
    words = argparse.ArgumentParser(description=__doc__.splitlines()[0])
    words.add_argument("program", type=Path, nargs="?", default=RAFTLOG, help="the path of raftlog")
    words.add_argument("--files", type=int, default=2000, metavar="N", help="how many files to make (default: %(default)s)")
    words.add_argument("--megabytes", type=int, default=47, metavar="N", help="how large they are together, about (default: %(default)s)")
    words.add_argument("--regions", type=int, default=3000, metavar="N", help="how many regions they have (default: %(default)s)")
    asked = words.parse_args()
    if not asked.program.exists():
        sys.exit(f"{asked.program} isn't there: make raftlog")
    wrongs = 0
    with tempfile.TemporaryDirectory(prefix="raftlog-stack-") as room:
        folder = Path(room) / "logs"
        logs.write(folder, asked.files, asked.megabytes << 20, asked.regions)
        for limit in LIMITS:
            for workers in WORKERS:
                wrong, seconds, megabytes = run(asked.program.resolve(), folder, limit, workers)
                wrongs += wrong is not None
                print(f"stack {limit}, {workers} workers: {wrong or 'right'}, {seconds:.2f} s, {megabytes:.0f} MB", flush=True)
    sys.exit(1 if wrongs else 0)


if __name__ == "__main__":
    main()
