#!/usr/bin/env python3
"""Runs `raftlog recover` over a folder of cases, and counts the runs that give another answer than expected.

    tools/compare.py CASES [PROGRAM [WORKERS]] [--plain]

A case is a folder with log files, a file `args` (a queue, a version, then `<seq>=<path>` for each file) and the expected answer: a file
`expect` with the lines to print, or a file `refused`, where nothing may be printed and the status has to be 1. PROGRAM is
crates/raftlog/out/raftlog by default. WORKERS are numbers of workers, such as `1,2,4,8`: each case is run with each of them; by default
with 1. (In cases with atomic groups that overlap others on a region, more workers may give other answers.) With --plain, `raftlog recover
--plain` is run. The first differences are printed; the status is 1 where there is one, or no case.
"""
import os
import subprocess
import sys
from concurrent.futures import ThreadPoolExecutor
from pathlib import Path

RAFTLOG = Path(__file__).resolve().parent.parent / "crates/raftlog/out/raftlog"
SHOWN = 10
SECONDS = 60
PLAIN = "--plain"


def answer(program, workers, case):
    """Runs the program on a case, and returns its status and what it printed; None as the status where it doesn't end in time."""
    queue, version, *files = (case / "args").read_text().split()
    option = [PLAIN] if PLAIN in sys.argv else []
    words = [str(program), "recover", *option, queue, version, workers, *files]
    try:
        done = subprocess.run(words, cwd=case, stdin=subprocess.DEVNULL, capture_output=True, timeout=SECONDS)
    except subprocess.TimeoutExpired:
        return None, b""
    return done.returncode, done.stdout


def difference(program, workers, case):
    """Returns how the answer to a case differs from the expected one; None where it doesn't."""
    status, printed = answer(program, workers, case)
    expect = case / "expect"
    if expect.exists():
        if status != 0:
            return f"status {status} where lines are owed"
        return None if printed == expect.read_bytes() else "other lines"
    if status != 1:
        return f"status {status} where a refusal is owed"
    return "printed in front of a refusal" if printed else None


def differences(program, numbers, case):
    """Returns a line for each number of workers with which the answer to a case differs."""
    found = ((workers, difference(program, workers, case)) for workers in numbers)
    return [f"{case}, {workers} workers: {how}" for workers, how in found if how]


def main():
    given = [word for word in sys.argv[1:] if word != PLAIN]
    if not 1 <= len(given) <= 3:
        sys.exit(__doc__)
    folder = Path(given[0])
    program = Path(given[1]).resolve() if len(given) > 1 else RAFTLOG
    numbers = (given[2] if len(given) > 2 else "1").split(",")
    if not folder.is_dir():
        sys.exit(f"{folder}: there is no such folder of cases")
    if not program.exists():
        sys.exit(f"{program} isn't there: make raftlog, or make cuttings")
    cases = sorted(path.parent for path in folder.rglob("args"))
    with ThreadPoolExecutor(os.cpu_count()) as pool:
        differing = [line for lines in pool.map(lambda case: differences(program, numbers, case), cases) for line in lines]
    for line in differing[:SHOWN]:
        print(line)
    print(f"{len(cases)} cases, {len(cases) * len(numbers)} runs, {len(differing)} differ")
    sys.exit(1 if differing or not cases else 0)


main()
