#!/usr/bin/env python3
"""Runs the commands of `raftlog` that look into folders over folders that no engine writes, and with arguments that make no sense.

    tools/hostile_folders.py [PROGRAM] [--inputs N] [--seed S] [--from K] [--jobs J]

The files of each folder are those of an input of tools/hostile.py. A reader of this file, written from docs/FORMAT.md, finds out what can't be
read in them, and `raftlog recover` whether the batches of a queue can follow one another. Counted are

    crashes     the program ends by a signal
    statuses    another status than 0, 1 and 2
    hangs       no answer in SECONDS
    sound       `check` says `sound` of files in which something can't be read, whose numbers aren't in a row, or that `recover` refuses;
                or says `damaged` of others
    places      `check --json` names other places with damage than there are
    lines       lines that should be JSON and aren't, or a dump that names other batches than there are

PROGRAM is crates/raftlog/out/raftlog by default. The status is 1 where anything was counted.
"""
import argparse
import json
import os
import random
import subprocess
import sys
import tempfile
import zlib
from collections import Counter
from concurrent.futures import ProcessPoolExecutor
from pathlib import Path

import hostile

TOP = Path(__file__).resolve().parent.parent
ROUND = 50
SECONDS = 60
WORDS = ["check", "dump", "files", "regions", "cut", "--json", "--region", "--from", "--to", "--values", "--workers", "--format", "--svg", "--yes",
         "--dry-run", "--append", "--rewrite", "1=x", "=", "-1", "18446744073709551616", "", "é", "--help", "--version", "-h", "help", "--", "-"]


class Unreadable(Exception):
    """Raised where bytes can't be read."""


class Reader:
    """Reads bytes from their start on. Its calls raise Unreadable where too few are left, or they are no number."""

    def __init__(self, data):
        self.data, self.at = data, 0

    def take(self, count):
        """Returns the next `count` bytes."""
        if len(self.data) - self.at < count:
            raise Unreadable
        self.at += count
        return self.data[self.at - count:self.at]

    def number(self):
        """Returns the next encoded number."""
        number = 0
        for place in range(10):
            byte = self.take(1)[0]
            if place == 9 and byte > 1:
                raise Unreadable
            number |= (byte & 127) << 7 * place
            if byte < 128:
                return number
        raise Unreadable


def header(data):
    """Returns the length of the batch at the start of `data`, by its header, and where its items begin; None where no header stands there."""
    if len(data) < 16:
        return None
    length, kind, offset = int.from_bytes(data[:7], "big"), data[7], int.from_bytes(data[8:16], "big")
    return (length, offset) if kind == 0 and 16 <= offset <= length else None


def ends_of_items(data, seq, version):
    """Returns for each item of an item batch that has entries: its region, the first index, and where each entry ends among the entry
    bytes. Raises Unreadable where the batch can't be read."""
    if len(data) <= 4 or zlib.crc32(data[:-4]) ^ (seq % 2**32 if version == 2 else 0) != int.from_bytes(data[-4:], "little"):
        raise Unreadable
    reader, found, tail = Reader(data[:-4]), [], 0
    for _ in range(reader.number()):
        region, kind = reader.number(), reader.take(1)[0]
        if kind == 1:
            count = reader.number()
            first, ends = reader.number() if count else None, []
            for place in range(count):
                if first + place >= 2**64 - 1:
                    raise Unreadable
                end = reader.number()
                if not tail <= end < 2**32:
                    raise Unreadable
                tail = end
                ends.append(end)
            if count:
                found.append((region, first, ends))
        elif kind == 2:
            command = reader.take(1)[0]
            if command not in (1, 2, 3):
                raise Unreadable
            if command > 1:
                reader.number()
        elif kind == 3:
            change = reader.take(1)[0]
            if change not in (1, 2):
                raise Unreadable
            reader.take(reader.number())
            if change == 1:
                reader.take(reader.number())
        else:
            raise Unreadable
    return found


def walk(data, seq, version):
    """Returns how many batches of a file can be read, and the places where something can't: the offset of the batch, and the region, the
    first and the last index of the entries, or None for each where the batch itself can't be read."""
    at, batches, damage = 0, 0, []
    while at < len(data):
        found = header(data[at:])
        try:
            if not found or found[0] > len(data) - at:
                raise Unreadable
            batch = data[at:at + found[0]]
            items, block = ends_of_items(batch[found[1]:], seq, version), batch[16:found[1]]
            batches += 1
            sound = not block or (len(block) >= 4 and zlib.crc32(block[:-4]) == int.from_bytes(block[-4:], "little"))
            for region, first, ends in items:
                lost = [first + place for place, end in enumerate(ends) if not sound or end > max(len(block) - 4, 0)]
                damage += [(at, region, lost[0], lost[-1])] if lost else []
        except Unreadable:
            damage.append((at, None, None, None))
            if not found or found[0] > len(data) - at:
                break
        at += found[0]
    return batches, damage


class Looker:
    """Runs raftlog in a folder, and collects the faults: the kind of each, the number of its input, and what it is about."""

    def __init__(self, program, folder):
        self.program, self.folder, self.faults = program, folder, []

    def run(self, number, *words):
        """Runs raftlog with these arguments, and returns how it ended, with what it printed; None where it hangs."""
        words = [self.program, *map(str, words)]
        try:
            ended = subprocess.run(words, stdin=subprocess.DEVNULL, capture_output=True, timeout=SECONDS, cwd=self.folder)
        except subprocess.TimeoutExpired:
            self.faults.append(("hangs", number, words[1:]))
            return None
        if ended.returncode < 0 or ended.returncode > 2:
            self.faults.append(("crashes" if ended.returncode < 0 else "statuses", number, words[1:]))
        return ended

    def expect(self, kind, number, is_so, about):
        """Notes a fault unless `is_so` is true."""
        if not is_so:
            self.faults.append((kind, number, about))

    def look(self, number, case):
        """Runs the commands over a folder with the files of a case."""
        _, queue, version, _ = case.words
        files = sorted(dict(case.files).items())
        folder = Path(self.folder) / f"{number}"
        folder.mkdir()
        for seq, data in files:
            (folder / f"{seq:016}.{'raftlog' if queue == 'append' else 'rewrite'}").write_bytes(data)
        walked = {seq: walk(data, seq, int(version)) for seq, data in files}
        row = all(later == seq + 1 for (seq, _), (later, _) in zip(files, files[1:]))
        readable = row and not any(damage for _, damage in walked.values())
        recovered = self.run(number, "recover", queue, version, 2, *[f"{seq}={folder}/{seq:016}.{'raftlog' if queue == 'append' else 'rewrite'}" for seq, _ in files])
        checked = self.run(number, "check", folder, "--format", version, "--json")
        if recovered and checked:
            self.compare(number, checked, walked, readable, recovered.returncode == 0, queue)
        dumped = self.run(number, "dump", folder, "--format", version, "--values")
        if dumped:
            lines = [line for line in dumped.stdout.splitlines() if not line.startswith(b" ")]
            owed = sum(any(d[1] is None for d in damage) and sum(d[1] is None for d in damage) for _, damage in walked.values())
            self.expect("lines", number, sum(b" unreadable: " in line for line in lines) == owed, "dump")
            self.expect("lines", number, dumped.returncode == (0 if readable else 1), "status of dump")
        for words in (["regions"], ["files"], ["dump", "--json"], ["regions", "--json"], ["files", "--json"], ["cut", "--dry-run"]):
            ended = self.run(number, *words, folder, "--format", version)
            if ended and "--json" in words:
                self.read_lines(number, ended)

    def compare(self, number, checked, walked, readable, recovers, queue):
        """Compares the lines of `check --json` with what this file's reader has found."""
        lines = self.read_lines(number, checked)
        says = bool(lines) and lines[-1] == {"verdict": "sound"}
        self.expect("sound", number, checked.returncode == (0 if says else 1), "status")
        self.expect("sound", number, not says or (readable and recovers), "says sound")
        # (an opening refuses more than a recovery does: groups that don't stand in a row)
        self.expect("sound", number, says or not (readable and recovers) or queue == "rewrite", "says damaged")
        for line in lines:
            if "damage" in line:
                told = [(d["offset"], d.get("region"), d.get("first"), d.get("last")) for d in line["damage"]]
                self.expect("places", number, (line["batches"], told) == walked[line["file"]], line)

    def read_lines(self, number, ended):
        """Returns the lines of JSON that a run printed; none, with a fault, where a line isn't JSON."""
        try:
            return [json.loads(line) for line in ended.stdout.splitlines()]
        except ValueError:
            self.faults.append(("lines", number, "JSON"))
            return []


def round_of(arguments, numbers):
    """Runs one round of inputs. Returns how many folders there were, and the faults."""
    with tempfile.TemporaryDirectory(dir="/dev/shm" if os.path.isdir("/dev/shm") else None) as folder:
        looker, count = Looker(arguments.program, folder), 0
        for number in numbers:
            case = hostile.case_of(arguments.seed, number)
            chance = random.Random(f"words {arguments.seed} {number}")
            if case.words[0] == "recover":
                count += 1
                looker.look(number, case)
            looker.run(number, *[chance.choice(WORDS) for _ in range(chance.randint(1, 5))])
        return count, looker.faults


def main():
    parser = argparse.ArgumentParser(description=__doc__, formatter_class=argparse.RawDescriptionHelpFormatter)
    parser.add_argument("program", nargs="?", default=TOP / "crates/raftlog/out/raftlog", type=lambda path: str(Path(path).resolve()), help="the path of raftlog")
    parser.add_argument("--inputs", type=int, default=500, metavar="N", help="how many inputs to run (default: %(default)s)")
    parser.add_argument("--seed", default="1", metavar="S", help="the seed of the inputs (default: %(default)s)")
    parser.add_argument("--from", type=int, default=0, dest="begin", metavar="K", help="the number of the first input (default: %(default)s)")
    parser.add_argument("--jobs", type=int, default=os.cpu_count(), metavar="J", help="how many processes run inputs at the same time (default: %(default)s)")
    arguments = parser.parse_args()
    arguments.program = str(arguments.program)
    end = arguments.begin + arguments.inputs
    rounds = [range(at, min(at + ROUND, end)) for at in range(arguments.begin, end, ROUND)]
    folders, found = 0, Counter()
    with ProcessPoolExecutor(arguments.jobs) as pool:
        for count, faults in pool.map(round_of, [arguments] * len(rounds), rounds):
            folders += count
            for kind, number, about in faults:
                found[kind] += 1
                print(f"{kind}: input {number}: {about}", flush=True)
    print(f"seed {arguments.seed}, inputs {arguments.begin} to {end - 1}: {folders} folders; " + (", ".join(f"{found[kind]} {kind}" for kind in sorted(found)) or "nothing wrong"))
    return 1 if found else 0


if __name__ == "__main__":
    sys.exit(main())
