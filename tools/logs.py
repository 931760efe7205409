#!/usr/bin/env python3
"""Writes valid log files of the append queue, and what recovery has to print of them.

    tools/logs.py FOLDER [--files N] [--megabytes N] [--regions N]

FOLDER, which is made, or has to be empty, gets a case for tools/compare.py: the files `1`, `2`, .., a file `args` (the queue, the version, then
`<seq>=<path>` for each file) and a file `expect` with the lines that `raftlog recover` has to print. The files are of version 2, as
docs/FORMAT.md has it, and the same for the same arguments. Each batch appends entries to some regions, and at times puts a key or compacts a
region.
"""
import argparse
import random
import sys
import zlib
from pathlib import Path

REGIONS_A_BATCH = 4
ENTRIES_A_REGION = 8
ENTRY_BYTES = 240


def number(n):
    """Returns the encoding of a number: in groups of seven bits, the lowest first."""
    septets = bytearray()
    while n >= 128:
        septets.append(n % 128 + 128)
        n //= 128
    septets.append(n)
    return bytes(septets)


def checksum(data, signature=0):
    """Returns the bytes of a checksum, combined with a signature by exclusive or."""
    return (zlib.crc32(data) ^ signature).to_bytes(4, "little")


class Region:
    """What a region has: the file of each entry, from the first index on, and the file of each key."""

    def __init__(self):
        self.first, self.files, self.keys = 1, [], {}

    def append(self, seq):
        """Appends entries that are in file `seq`, and returns the index of the first one."""
        start = self.first + len(self.files)
        self.files += [seq] * ENTRIES_A_REGION
        return start

    def compact(self, index):
        """Removes the entries below an index."""
        self.files = self.files[index - self.first:]
        self.first = index

    def line(self, region):
        """Returns the line that `raftlog recover` prints of the region."""
        entries = f"{self.first}..{self.first + len(self.files)}" if self.files else "-"
        least = min([*self.files[:1], *self.keys.values()], default="-")
        return f"{region} entries {entries} keys {len(self.keys)} append {least} rewrite -\n"


def items_of(dice, regions, seq):
    """Draws the items of a batch in file `seq`, applies them to the regions, and returns them with the entry bytes."""
    items, tail = [], 0
    for region in dice.sample(range(1, len(regions) + 1), min(REGIONS_A_BATCH, len(regions))):
        held = regions[region - 1]
        start = held.append(seq)
        tails = b"".join(number(tail + ENTRY_BYTES * (i + 1)) for i in range(ENTRIES_A_REGION))
        tail += ENTRY_BYTES * ENTRIES_A_REGION
        items.append(number(region) + b"\x01" + number(ENTRIES_A_REGION) + number(start) + tails)
        what = dice.randrange(8)
        if what == 0:
            key = b"key %d" % dice.randrange(3)
            held.keys[key] = seq
            items.append(number(region) + b"\x03\x01" + number(len(key)) + key + number(5) + b"value")
        elif what == 1:
            index = dice.randint(held.first, start)
            held.compact(index)
            items.append(number(region) + b"\x02\x02" + number(index))
    return items, dice.randbytes(64) * (tail // 64)


def batch_of(dice, regions, seq):
    """Draws a batch in file `seq`, applies it to the regions, and returns its bytes."""
    items, entries = items_of(dice, regions, seq)
    item_batch = number(len(items)) + b"".join(items)
    item_batch += checksum(item_batch, seq % 2**32)
    entries += checksum(entries)
    length = 16 + len(entries) + len(item_batch)
    return (length << 8).to_bytes(8, "big") + (16 + len(entries)).to_bytes(8, "big") + entries + item_batch


def write(folder, files, size, regions):
    """Writes so many files, with about `size` bytes together, over so many regions, and the answer."""
    folder.mkdir(parents=True, exist_ok=True)
    dice, held = random.Random(1), [Region() for _ in range(regions)]
    for seq in range(1, files + 1):
        with open(folder / str(seq), "wb") as log:
            while log.tell() < size / files:
                log.write(batch_of(dice, held, seq))
    words = " ".join(f"{seq}={seq}" for seq in range(1, files + 1))
    (folder / "args").write_text(f"append 2 {words}\n")
    lines = [region.line(i + 1) for i, region in enumerate(held) if region.files or region.keys]
    live = sum(len(region.files) + len(region.keys) for region in held)
    (folder / "expect").write_text("".join(lines) + f"cleaned -\nlive {live} 0\n")


def main():
    words = argparse.ArgumentParser(description=__doc__.splitlines()[0])
    words.add_argument("folder", type=Path, help="the folder to write into")
    words.add_argument("--files", type=int, default=16, metavar="N", help="how many files to write (default: %(default)s)")
    words.add_argument("--megabytes", type=int, default=16, metavar="N", help="how large they are together, about (default: %(default)s)")
    words.add_argument("--regions", type=int, default=1000, metavar="N", help="how many regions they have (default: %(default)s)")
    asked = words.parse_args()
    if asked.folder.exists() and (not asked.folder.is_dir() or any(asked.folder.iterdir())):
        sys.exit(f"{asked.folder}: no folder, or not an empty one")
    write(asked.folder, asked.files, asked.megabytes << 20, asked.regions)


if __name__ == "__main__":
    main()
