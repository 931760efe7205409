#!/usr/bin/env python3
"""Crashes the machine anywhere in a run of raft_example, and opens each folder that the crash may leave.

    tools/folder_stops.py [PROGRAM]

`strace` lists what the run asks of the system. A crash leaves what was synced; of what was written to a file since then any prefix; and of the
names that were made or deleted since the folder was synced the first ones. The program is run on each such folder: it has to open it, to find
the batches that were synced and a prefix of those written since, and to go on. PROGRAM is crates/raft_example/out/raft_example by default. A
line is printed for each folder where it doesn't; the status is 1 where there is one.
"""
import argparse
import re
import subprocess
import sys
import tempfile
from concurrent.futures import ThreadPoolExecutor
from pathlib import Path

CRATES = Path(__file__).resolve().parent.parent / "crates"
CALLS = "openat,write,fsync,fdatasync,ftruncate,unlink"
SECONDS = 60
RUNNERS = 2


def found(first, second):
    """Returns the lines that the program prints of its two regions."""
    regions = (7, *first), (8, *second)
    return tuple(f"  region {region}: entries {entries}, leader {leader}" for region, entries, leader in regions)


# what the program's batches leave, one after the other; the fifth is torn, and written again as the sixth
BATCHES = [
    found(("0 to 0", "nobody"), ("0 to 0", "nobody")),
    found(("1 to 3", "a"), ("0 to 0", "nobody")),
    found(("1 to 3", "a"), ("1 to 2", "a")),
    found(("1 to 4", "b"), ("1 to 2", "a")),
    found(("3 to 4", "b"), ("1 to 2", "a")),
    found(("3 to 4", "b"), ("1 to 3", "c")),
    found(("3 to 4", "b"), ("1 to 3", "c")),
]
UNTORN = 4


class File:
    """A file: its bytes on the disk, and the changes that aren't synced."""

    def __init__(self):
        self.synced = b""
        self.since = []

    def versions(self):
        """Yields all contents that a crash may leave of the file, oldest first."""
        bytes_ = self.synced
        yield bytes_
        for change in self.since:
            if isinstance(change, bytes):
                for end in range(1, len(change) + 1):
                    yield bytes_ + change[:end]
                bytes_ += change
            else:
                bytes_ = bytes_[:change]
                yield bytes_

    def last(self):
        """Returns the contents that the file has now."""
        return list(self.versions())[-1]

    def sync(self):
        """Makes all changes synced."""
        self.synced, self.since = self.last(), []


class Disk:
    """The files of a folder, and what a crash may leave of them. `allowed` is what the program may find then."""

    def __init__(self):
        self.names, self.files, self.since = {}, {}, []
        self.batches, self.now, self.allowed = 0, BATCHES[0], {BATCHES[0]}

    def put(self, name, bytes_):
        """Writes bytes to the end of a file. Each write to an append file is one batch."""
        self.files[name].since.append(bytes_)
        if name.endswith(".raftlog"):
            self.batches += 1
            self.now = BATCHES[self.batches]
            self.allowed |= {self.now}

    def cut(self, name, len_):
        """Cuts a file to a length. The run does so once, to cut the fifth batch off again."""
        self.files[name].since.append(len_)
        self.now = BATCHES[UNTORN]
        self.allowed |= {self.now}

    def make(self, name):
        """Makes a file."""
        self.files[name] = File()
        self.since.append((name, self.files[name]))

    def delete(self, name):
        """Deletes a file."""
        del self.files[name]
        self.since.append((name, None))

    def sync(self, name):
        """Syncs a file, or the names in the folder."""
        if name in self.files:
            self.files[name].sync()
            if name.endswith(".raftlog"):
                self.allowed = {self.now}
        else:
            self.names, self.since = dict(self.files), []

    def lefts(self):
        """Yields the folders that a crash may leave, as pairs of name and bytes: behind each change of a name, each version of one file
        with the first and with the last version of all others."""
        for count in range(len(self.since) + 1):
            names = dict(self.names)
            for name, file in self.since[:count]:
                names[name] = file
            names = {name: file for name, file in names.items() if file is not None}
            for others in (0, -1):
                ends = {name: list(file.versions())[others] for name, file in names.items()}
                yield tuple(sorted(ends.items()))
                for varied, file in names.items():
                    for version in file.versions():
                        yield tuple(sorted({**ends, varied: version}.items()))


def unspelled(text):
    """Returns the bytes that `strace` shows as `\\x61\\x62`."""
    return bytes.fromhex(text.replace("\\x", ""))


def calls_of(program, room):
    """Runs the program under `strace`, and yields what it asks of the system about files of its folder: the call, the name of the file, and
    the arguments."""
    folder, log = room / "run", room / "calls"
    subprocess.run(["strace", "-f", "-y", "-xx", "-s", "1000000", "-o", log, "-e", f"trace={CALLS}", program, folder],
                   stdout=subprocess.DEVNULL, check=True, timeout=SECONDS)
    for line in log.read_text().splitlines():
        match = re.match(r"\d+ +(\w+)\((.*)\) += (\d+)", line)
        if not match:
            continue
        call, words, _ = match.groups()
        paths = [unspelled(path) for path in re.findall(r'(?:(?<=<)|(?<="))(?:\\x[0-9a-f]{2})+', words)]
        paths = [path for path in paths if path.startswith(bytes(folder))]
        if paths:
            yield call, paths[0].decode(errors="replace")[len(str(folder)):].strip("/"), words


def take(disk, call, name, words):
    """Applies a call to the disk, and returns whether it changes what a crash may leave."""
    if call == "openat" and "O_CREAT" in words:
        disk.make(name)
    elif call == "write":
        disk.put(name, unspelled(re.search(r'"((?:\\x[0-9a-f]{2})*)"', words).group(1)))
    elif call == "ftruncate":
        disk.cut(name, int(words.split()[-1]))
    elif call == "unlink":
        disk.delete(name)
    elif call in ("fsync", "fdatasync"):
        disk.sync(name)
    else:
        return False
    return True


def opened(program, files):
    """Runs the program on a folder with these files, and returns what it finds there: its lines of the regions; None where it fails."""
    with tempfile.TemporaryDirectory(prefix="raft-engine-left-") as room:
        folder = Path(room) / "left"
        folder.mkdir()
        for name, bytes_ in files:
            (folder / name).write_bytes(bytes_)
        ended = subprocess.run([program, folder], capture_output=True, text=True, timeout=SECONDS)
        regions = [line for line in ended.stdout.splitlines() if line.startswith("  region ")]
        return tuple(regions[:2]) if ended.returncode == 0 else None


def main():
    words = argparse.ArgumentParser(description=__doc__.splitlines()[0])
    words.add_argument("program", type=Path, nargs="?", default=CRATES / "raft_example/out/raft_example", help="the path of raft_example")
    program = words.parse_args().program.resolve()
    disk, stops, lefts = Disk(), 0, {}
    with tempfile.TemporaryDirectory(prefix="raft-engine-stops-") as room:
        for call, name, rest in calls_of(program, Path(room)):
            if take(disk, call, name, rest):
                stops += 1
                for files in disk.lefts():
                    lefts.setdefault(files, []).append((stops, frozenset(disk.allowed)))
    wrongs = 0
    with ThreadPoolExecutor(RUNNERS) as runners:
        for (files, wanted), lines in zip(lefts.items(), runners.map(lambda files: opened(program, files), lefts)):
            for stop, allowed in wanted:
                if lines not in allowed:
                    wrongs += 1
                    print(f"stopped behind change {stop}, files {[(name, len(bytes_)) for name, bytes_ in files]}: {lines}")
    print(f"{stops} changes, {len(lefts)} folders opened, {wrongs} different")
    return 1 if wrongs or disk.batches + 1 != len(BATCHES) else 0


if __name__ == "__main__":
    sys.exit(main())
