#!/usr/bin/env python3
"""Runs raft_example on a disk that has no room for one write, and checks that it goes on without opening its files again.

    tools/full_once.py [PROGRAM]

`strace` refuses one write to one log file as a full disk does (ENOSPC); each file and each write in turn. The engine takes back what it wrote,
and the program makes the call once more: it has to print what it prints otherwise, and a second run has to find what it finds otherwise. The
file has to be cut and synced before it is written again. Where that cut, or that sync, is refused too (EIO), the program has to fail with the
error of this, and writes no more to the file.

Then no file may grow beyond a limit, so that a write is made in part and then refused, as where a disk is full half way. The limit is each
number of bytes in turn, and it is lifted when the file is cut: all has to be as without it.

PROGRAM is crates/raft_example/out/raft_example by default. A line is printed for each run that is wrong; the status is 1 where there is one.
Without `strace`, or the right to use it, nothing is tried: a line says so, and the status is 0.
"""
import argparse
import os
import re
import resource
import signal
import subprocess
import sys
import tempfile
import threading
from pathlib import Path

from folder_stops import CRATES, SECONDS

FILES = ["0000000000000001.raftlog", "0000000000000002.raftlog", "0000000000000001.rewrite"]

# (the program writes fewer times to a file, and fewer bytes)
WRITES = 100
LIMITS = 4096

FOLDER = "logs"
FREE = resource.getrlimit(resource.RLIMIT_FSIZE)[1]
CALL = re.compile(r"^\d+ +(\w+)\(.*?(?:, (\d+))?\) += (-?\d+)(?: (\w+))?", re.M)


def may_trace():
    """Tests whether `strace` is there, and may run a program."""
    try:
        return subprocess.run(["strace", "-f", "-o", os.devnull, "true"], capture_output=True, timeout=SECONDS).returncode == 0
    except OSError:
        return False


def printed(command, room):
    """Runs a command in a folder, and returns its status, what it prints, and its errors."""
    ended = subprocess.run(command, cwd=room, stdin=subprocess.DEVNULL, capture_output=True, text=True, timeout=SECONDS)
    return ended.returncode, ended.stdout, ended.stderr


def lives(program, name=None, injected=()):
    """Runs the program twice over a new folder, the first time with calls refused of the named file. Returns what both runs give, and the
    calls of that file: of each the name, the length that it was given, what it returned, and the error."""
    with tempfile.TemporaryDirectory(prefix="raft-example-full-") as room:
        log, words = Path(room) / "calls", []
        if name:
            words = ["strace", "-f", "-o", log, "-P", Path(room).resolve() / FOLDER / name, "-e", "trace=write,ftruncate,fsync"]
            words += [word for it in injected for word in ("-e", f"inject={it}")]
        first, second = printed([*words, program, FOLDER], room), printed([program, FOLDER], room)
        return first, second, CALL.findall(log.read_text()) if name else []


def refused_at(calls, error):
    """Returns the position of the first call that was refused with this error, or None."""
    return next((at for at, call in enumerate(calls) if call[3] == error), None)


def faults_of_write(program, wanted, name, at):
    """Refuses a write of a file. Returns what is wrong then; None where the program doesn't write so often."""
    no_room = f"write:error=ENOSPC:when={at}"
    *both, calls = lives(program, name, [no_room])
    refused = refused_at(calls, "ENOSPC")
    if refused is None:
        return None
    faults = [] if both == wanted else [f"it gives {both}"]
    if [(call[0], call[2]) for call in calls[refused + 1 : refused + 3]] != [("ftruncate", "0"), ("fsync", "0")]:
        faults.append(f"the file isn't cut and synced next, but {calls[refused + 1 : refused + 3]}")
    for other in ("ftruncate", "fsync"):
        when = sum(call[0] == other for call in calls[:refused]) + 1
        (status, _, said), _, these = lives(program, name, [no_room, f"{other}:error=EIO:when={when}"])
        failed = refused_at(these, "EIO")
        if failed is None or status == 0 or "Input/output error" not in said:
            faults.append(f"{other} refused too: status {status}, {said}")
        elif any(call[0] == "write" for call in these[failed:]):
            faults.append(f"{other} refused too: the file is written again")
    return faults


def lift_at_stop(run):
    """Waits until a run under `strace` ends. Lets it write more where it is stopped, and go on. Returns the lines of its calls."""
    lines = []
    for line in run.stderr:
        lines.append(line)
        if "--- stopped by SIGSTOP" in line:
            pid = int(line.split()[0])
            resource.prlimit(pid, resource.RLIMIT_FSIZE, (FREE, FREE))
            os.kill(pid, signal.SIGCONT)
    return "".join(lines)


def lives_with_limit(program, limit):
    """Runs the program twice over a new folder, the first time with a limit of its files that is lifted when a file is cut. Returns what both
    runs give, whether a write was refused, and whether one was made in part."""
    with tempfile.TemporaryDirectory(prefix="raft-example-part-") as room:
        words = ["strace", "-f", "-o", "/dev/stderr", "-e", "trace=write,ftruncate", "-e", "inject=ftruncate:signal=SIGSTOP:when=1"]
        # (Python ignores the signal of a write beyond the limit, and the program inherits that)
        with subprocess.Popen([*words, program, FOLDER], cwd=room, stdin=subprocess.DEVNULL, stdout=subprocess.PIPE, stderr=subprocess.PIPE,
                              text=True, restore_signals=False, start_new_session=True,
                              preexec_fn=lambda: resource.setrlimit(resource.RLIMIT_FSIZE, (limit, FREE))) as run:
            late = threading.Timer(SECONDS, lambda: os.killpg(run.pid, signal.SIGKILL))
            late.start()
            calls = CALL.findall(lift_at_stop(run))
            first = run.wait(), run.stdout.read()
            late.cancel()
        second = printed([program, FOLDER], room)
        is_part = any(call[0] == "write" and 0 <= int(call[2]) < int(call[1]) for call in calls)
        return first, second[:2], refused_at(calls, "EFBIG") is not None, is_part


def count_refused(program, wanted):
    """Refuses each write of each file in turn. Returns how many there are, and with how many something is wrong."""
    count, wrongs = 0, 0
    for name in FILES:
        for at in range(1, WRITES):
            faults = faults_of_write(program, wanted, name, at)
            if faults is None:
                break
            count += 1
            wrongs += bool(faults)
            for fault in faults:
                print(f"write {at} of {name} refused: {fault}")
    return count, wrongs


def count_parts(program, wanted):
    """Limits the files to each number of bytes in turn. Returns the limits, the writes that are made in part, and those that are wrong."""
    parts, wrongs = 0, 0
    for limit in range(LIMITS):
        *both, is_refused, is_part = lives_with_limit(program, limit)
        if not is_refused:
            return limit, parts, wrongs
        parts += is_part
        if both != [it[:2] for it in wanted]:
            wrongs += 1
            print(f"no file beyond {limit} bytes until one is cut: {both}")
    return LIMITS, parts, wrongs + 1


def main():
    words = argparse.ArgumentParser(description=__doc__.splitlines()[0])
    words.add_argument("program", type=Path, nargs="?", default=CRATES / "raft_example/out/raft_example", help="the path of raft_example")
    program = words.parse_args().program.resolve()
    if not may_trace():
        print("strace is missing, or may not be used: nothing was tried")
        return 0
    *wanted, _ = lives(program)
    count, wrongs = count_refused(program, wanted)
    limits, parts, torn = count_parts(program, wanted)
    print(f"{count} writes refused once, {wrongs} wrong; {parts} of {limits} made in part, {torn} wrong")
    return 0 if not wrongs and not torn and count > len(FILES) and parts > count and wanted[0][0] == 0 else 1


if __name__ == "__main__":
    sys.exit(main())
