#!/usr/bin/env python3
"""Proves a crate from nothing by one job, as `rt ci` does, and lists how long the proof of each function took, longest first:
`tools/costs.py CRATE [--test] [--only PATH].. [--show N]`, for example `tools/costs.py raft_recover_tests --test`.

The times are processor times, so that other work on the machine matters less. The time of the first function that cites a library includes
the reading of that library's statements. What comes before the first function (reading, lowering) is counted with that function, in a
line that says so."""

import argparse
import os
import pathlib
import re
import subprocess
import sys

TOP = pathlib.Path(__file__).resolve().parent.parent


def kit():
    """Returns the folder of the toolchain: the one with the page that `rt doc` prints."""
    page = subprocess.run([os.environ.get("RT", "rt"), "doc"], check=True, capture_output=True, text=True)
    return pathlib.Path(page.stdout.strip()).parent


def seconds(pid):
    """Returns the processor time of a process and all its children, in seconds; 0 where it has ended."""
    try:
        with open(f"/proc/{pid}/stat", encoding="utf-8") as file:
            fields = file.read().rsplit(")", 1)[1].split()
        with open(f"/proc/{pid}/task/{pid}/children", encoding="utf-8") as file:
            children = file.read().split()
    except OSError:
        return 0.0
    return sum(map(int, fields[11:15])) / os.sysconf("SC_CLK_TCK") + sum(map(seconds, children))


def costs(lines, pid):
    """Reads the lines of progress that the process `pid` prints. Returns for each function its time and its name, and the last line. The
    first function's time includes what came before it."""
    found, before, last = [], 0.0, ""
    for line in lines:
        now = seconds(pid)
        checked = re.match(r"checked (.*), 1 of|checked (.*), \d+ of", line)
        if checked and checked[1]:
            found.append((now - before, f"what comes before the first function, and {checked[1]}"))
        elif checked:
            found.append((now - before, checked[2]))
        if checked:
            before = max(now, before)
        last = line.rstrip() or last
    return found, last


def main():
    words = argparse.ArgumentParser(description=__doc__, formatter_class=argparse.RawDescriptionHelpFormatter)
    words.add_argument("crate", help="the name of the crate")
    words.add_argument("--test", action="store_true", help="prove its tests too")
    words.add_argument("--only", action="append", default=[], metavar="PATH", help="prove this function alone; may be repeated")
    words.add_argument("--show", type=int, default=30, metavar="N", help="how many functions to list (default: %(default)s)")
    asked = words.parse_args()
    sys.dont_write_bytecode = True
    sys.path.insert(0, str(kit() / "bin"))
    import rtlib

    folder = TOP / "crates" / asked.crate
    crate = rtlib.Crate(str(folder), str(TOP), {})
    for library in crate.below():
        if not library.is_built():
            sys.exit(f"{library.name} isn't built: run rt lib in its folder first")
    flags = ["--jobs", "1", *(f"--only={path}" for path in asked.only)]
    flags = crate.words(flags, tests=asked.test, keeps=False)
    check = [*rtlib.guarded(), rtlib.RATTLE, "check", *flags, "--progress"]
    how = {"cwd": folder, "stdin": subprocess.DEVNULL, "stdout": subprocess.PIPE, "stderr": subprocess.STDOUT, "text": True}
    with subprocess.Popen(check, errors="replace", **how) as run:
        found, last = costs(run.stdout, run.pid)
    for cost, name in sorted(found, reverse=True)[: asked.show]:
        print(f"{cost:7.1f} s  {name}")
    print(f"{sum(cost for cost, _ in found):7.1f} s  {len(found)} functions: {last}")
    sys.exit(run.returncode)


if __name__ == "__main__":
    main()
