#!/usr/bin/env python3
"""Tests that programs in Rattle and in Rust open each other's folders.

    tools/both_folders.py RAFTLOG RAFT_EXAMPLE RUST_EXAMPLES

RUST_EXAMPLES is the folder with the examples of rust/, as cargo builds them (`look`, `ten_lines`). A folder that raft_example wrote is looked at
and written to from Rust. One that a Rust program wrote until it was killed is checked, dumped and opened in Rattle, and then looked at from
Rust. A line is printed for each step that finds something else than was written; the status is 1 where there is one.
"""
import re
import signal
import subprocess
import sys
import tempfile
from pathlib import Path

SECONDS = 120
WRITTEN = 50


class Steps:
    """Runs programs, and counts the steps and those that went wrong."""

    def __init__(self):
        self.count, self.wrongs = 0, 0

    def run(self, *words):
        """Runs a program, and returns how it ended, with what it printed."""
        return subprocess.run(words, stdin=subprocess.DEVNULL, capture_output=True, text=True, timeout=SECONDS)

    def expect(self, about, ended, wanted, statuses=(0,)):
        """Counts a step. It went wrong if its program ended with a status that is none of `statuses`, or printed nothing that matches one
        of the patterns in `wanted`; then a line says so."""
        self.count += 1
        lacking = [pattern for pattern in wanted if not re.search(pattern, ended.stdout)]
        if ended.returncode not in statuses or lacking:
            self.wrongs += 1
            print(f"{about}: status {ended.returncode}, lacking {lacking}\n{ended.stdout}{ended.stderr}")


def written_until_killed(program, folder):
    """Has a Rust program write entries to region 7 until it is killed. Returns the first index that it wrote, and the last one that it
    printed as written."""
    writer = subprocess.Popen([program, folder], stdin=subprocess.DEVNULL, stdout=subprocess.PIPE, text=True)
    said = []
    for line in writer.stdout:
        said += [int(line.split()[1])] if line.startswith("wrote ") else []
        if len(said) == WRITTEN:
            writer.send_signal(signal.SIGKILL)
    writer.wait()
    return said[0], said[-1]


def main():
    if len(sys.argv) != 4:
        sys.exit(__doc__)
    raftlog, example, rust = (Path(word).resolve() for word in sys.argv[1:])
    steps = Steps()
    with tempfile.TemporaryDirectory(prefix="raft-both-") as room:
        ours, theirs = Path(room) / "ours", Path(room) / "theirs"
        # (what raft_example leaves is what its expected output says last)
        steps.expect("raft_example writes", steps.run(example, ours), [])
        steps.expect("Rust looks", steps.run(rust / "look", ours), [r"region 7: entries 3 to 4, 1 keys", r"region 8: entries 1 to 3, 1 keys"])
        first, last = written_until_killed(rust / "ten_lines", ours)
        if first != 5:
            steps.wrongs += 1
            print(f"Rust goes on with entry {first} of region 7, and not with 5")
        steps.expect("Rust wrote, raftlog reads", steps.run(raftlog, "regions", ours), [rf"(?m)^7 entries 3\.\.({last + 1}|{last + 2}) keys 1 "])

        first, last = written_until_killed(rust / "ten_lines", theirs)
        ends = rf"({last + 1}|{last + 2})"
        # (a batch that was being written when the program was killed is a torn tail)
        steps.expect("raftlog checks", steps.run(raftlog, "check", theirs), [r"(?m)^append file 1: \d+ bytes, \d+ batch(?:es)?, read from offset 0 to "], statuses=(0, 1))
        steps.expect("raftlog reads", steps.run(raftlog, "regions", theirs), [rf"(?m)^7 entries 1\.\.{ends} keys 0 "])
        steps.expect("raftlog dumps", steps.run(raftlog, "dump", "--region", "7", "--values", theirs), [rf'(?m)^    {index} "entry {index}"$' for index in (1, last)])
        steps.expect("raft_example opens", steps.run(example, theirs), [rf"opened: append files \d+, rewrite files 1\n  region 7: entries 1 to ({last}|{last + 1}), leader nobody"])
        steps.expect("raftlog checks again", steps.run(raftlog, "check", theirs), [r"(?m)^sound$"])
        steps.expect("Rust looks again", steps.run(rust / "look", theirs), [r"region 7: entries \d+ to \d+, 1 keys", r"region 8: entries 1 to 3, 1 keys"])
    print(f"{steps.count} steps, {steps.wrongs} different")
    return 1 if steps.wrongs else 0


if __name__ == "__main__":
    sys.exit(main())
