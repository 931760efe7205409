"""Folders of log files, each with one kind of damage, and what `raftlog check` has to print of them. tools/folder_damage.py runs them.

Each row is a function that changes a folder, and returns the status that `raftlog check` has to end with and the texts that it has to print.
Offsets come from the headers of the batches. Files that aren't those of demo/ are made as docs/FORMAT.md says.
"""
import os
import random
import shutil
from pathlib import Path

from logs import checksum, number

TOP = Path(__file__).resolve().parent.parent
HEADER_LEN = 16
LAST = 3


def name_of(seq, ending="raftlog"):
    """Returns the name of a log file."""
    return f"{seq:016}.{ending}"


def counted(batches):
    """Returns a number of batches in words."""
    return "1 batch" if batches == 1 else f"{batches} batches"


def batches(bytes_):
    """Returns for each batch in these bytes where it begins, where its items begin, and where it ends, by its header."""
    at, found = 0, []
    while at < len(bytes_):
        len_ = int.from_bytes(bytes_[at:at + 8], "big") >> 8
        items_at = int.from_bytes(bytes_[at + 8:at + 16], "big")
        found.append((at, at + items_at, at + len_))
        at += len_
    return found


def batch(seq, *items, entries=b""):
    """Returns the bytes of a batch of version 2, signed for file `seq`, with these items and entry bytes."""
    item_batch = number(len(items)) + b"".join(items)
    item_batch += checksum(item_batch, seq)
    entries += checksum(entries) if entries else b""
    length = HEADER_LEN + len(entries) + len(item_batch)
    return (length << 8).to_bytes(8, "big") + (HEADER_LEN + len(entries)).to_bytes(8, "big") + entries + item_batch


def entries_of(region, first, lens, before=0):
    """Returns an item with entries of these lengths, whose indexes begin at `first`. `before` is how many entry bytes of other items come
    before theirs."""
    tails = [before + sum(lens[:i + 1]) for i in range(len(lens))]
    return number(region) + b"\x01" + number(len(lens)) + number(first) + b"".join(map(number, tails))


def put(region, key, value):
    """Returns an item that gives a key a value."""
    return number(region) + b"\x03\x01" + number(len(key)) + key + number(len(value)) + value


def marker(group, status):
    """Returns a group marker: an item that says which place its batch has in an atomic group."""
    return number(group) + b"\x03\x01\x03__\x01\x01" + bytes([status])


class Room:
    """A folder with the first files of demo/."""

    def __init__(self, path):
        self.path = path
        path.mkdir()
        for seq in range(1, LAST + 1):
            shutil.copy(TOP / f"demo/{seq}.log", self.file(seq))

    def file(self, seq, ending="raftlog"):
        """Returns the path of a log file."""
        return self.path / name_of(seq, ending)

    def only(self, append, rewrite=()):
        """Replaces all files by ones with these batches, numbered from 1 on in each queue."""
        for path in self.path.iterdir():
            path.unlink()
        for ending, files in (("raftlog", append), ("rewrite", rewrite)):
            for seq, found in enumerate(files, 1):
                self.file(seq, ending).write_bytes(b"".join(found))

    def batches(self, seq):
        """Returns where the batches of an append file begin, where their items begin, and where they end."""
        return batches(self.file(seq).read_bytes())

    def flip(self, seq, at, bit=0):
        """Flips a bit of the byte at an offset of an append file."""
        bytes_ = bytearray(self.file(seq).read_bytes())
        bytes_[at] ^= 1 << bit
        self.file(seq).write_bytes(bytes_)

    def contents(self):
        """Returns the bytes of each file by its name, without LOCK."""
        return {path.name: path.read_bytes() for path in self.path.iterdir() if path.name != "LOCK"}

    def keep(self, seq, len_):
        """Cuts an append file to a length."""
        os.truncate(self.file(seq), len_)


def sizes(room):
    """Returns the texts that say of each append file that it can be read to its end."""
    return [f"append file {seq}: {room.file(seq).stat().st_size} bytes, {counted(len(room.batches(seq)))}, read from offset 0 to {room.file(seq).stat().st_size}\n"
            for seq in range(1, LAST + 1)]


# ---- the rows: each changes a folder, and returns the status that is wanted and the texts that have to be said

def untouched(room):
    """Changes nothing."""
    return 0, [*sizes(room), "rewrite: no files", "opening: would open, and cut nothing of the append queue", "\nsound\n"]


def first_byte(room):
    """Damages the header of the last file's first batch, behind which sound batches follow."""
    (_, _, second), *_ = room.batches(LAST)
    left = room.file(LAST).stat().st_size
    room.flip(LAST, 0)
    return 1, [f"append file {LAST} offset 0: no batch can be read there, {left} bytes before the end: ", f"append file {LAST} offset 0: the {left} bytes from there on weren't searched for batches\n", f"opening: refused: Corruption: append file {LAST}, offset 0: ",
               f"one stands behind it, at offset {second}\n", "\ndamaged\n"]


def length_bit(room):
    """Makes a batch in the midst of the last file longer by its header than it is."""
    found = room.batches(LAST)
    at, _, behind = found[3]
    room.flip(LAST, at + 5, 3)
    return 1, [f"append file {LAST} offset {at}: no batch can be read there, ", f"opening: refused: Corruption: append file {LAST}, offset {at}: ",
               f"one stands behind it, at offset {behind}\n"]


def other_number(room):
    """Gives a single file another number than its batches were signed for."""
    for seq in (2, 3):
        room.file(seq).unlink()
    room.file(1).rename(room.file(2))
    return 1, ["append file 2 offset 0: no batch can be read there, ", "opening: refused: Corruption: append file 2, offset 0: ", "signed for file 1\n"]


def one_missing(room):
    """Deletes a file between two others."""
    room.file(2).unlink()
    return 1, ["append file 2: missing\n", "opening: refused: Corruption: append file 2: it is missing, files 1 and 3 are there\n"]


def two_missing(room):
    """Deletes two files between two others."""
    shutil.copy(TOP / "demo/4.log", room.file(4))
    room.file(2).unlink()
    room.file(3).unlink()
    return 1, ["append files 2 to 3: missing\n", "opening: refused: Corruption: append file 2: it is missing, files 1 and 4 are there\n"]


def torn(room):
    """Cuts the end off the last batch of the last file."""
    *_, (at, _, end) = room.batches(LAST)
    room.keep(LAST, end - 5)
    return 1, [f"append file {LAST}: {end - 5} bytes, {counted(len(batches(room.file(LAST).read_bytes()[:at])))}, read from offset 0 to {at}\n",
               f"append file {LAST} offset {at}: no batch can be read there, {end - 5 - at} bytes before the end: ",
               f"opening: would open, and cut {end - 5 - at} bytes of append file {LAST} from offset {at} on: ", "\ndamaged\n"]


def torn_before_the_last(room):
    """Cuts the end off the last batch of a file that isn't the last."""
    *_, (at, _, end) = room.batches(2)
    room.keep(2, end - 5)
    return 1, [f"append file 2 offset {at}: no batch can be read there, {end - 5 - at} bytes before the end: ", f"opening: refused: Corruption: append file 2, offset {at}: "]


def entry_byte(room):
    """Changes a byte of an entry, which recovery doesn't read."""
    at, items_at, end = room.batches(2)[1]
    room.flip(2, at + HEADER_LEN)
    return 1, [f"append file 2 offset {at}: entr", " can't be read: the entry block doesn't stand in the file, or its checksum doesn't hold\n", "opening: would open, and cut nothing of the append queue\n", "\ndamaged\n"]


def item_byte(room):
    """Changes a byte of an item."""
    at, items_at, _ = room.batches(2)[2]
    room.flip(2, items_at)
    return 1, [f"append file 2 offset {at}: no batch can be read there, ", f"opening: refused: Corruption: append file 2, offset {at}: "]


def zeros(room):
    """Fills the last batch with zeros, as if its pages were never written."""
    *_, (at, _, end) = room.batches(LAST)
    room.file(LAST).write_bytes(room.file(LAST).read_bytes()[:at] + bytes(end - at))
    return 1, [f"append file {LAST} offset {at}: no batch can be read there, {end - at} bytes before the end: ", f"opening: would open, and cut {end - at} bytes of append file {LAST} from offset {at} on: "]


def misnamed(room):
    """Gives a file a name that ends as those of log files do, but isn't one."""
    room.file(LAST).rename(room.path / "3.raftlog")
    return 1, [f"raftlog: {room.path}/3.raftlog: it isn't the name of a log file\n"]


def foreign(room):
    """Makes the last file begin as those of raft-engine do."""
    room.file(LAST).write_bytes(b"RAFT-LOG-FILE-HEADER" + bytes(44))
    return 1, [f"raftlog: {room.file(LAST)}: it is a file of raft-engine"]


def no_folder(room):
    """Deletes the folder."""
    shutil.rmtree(room.path)
    return 1, [f"raftlog: {room.path}: ", "No such file or directory"]


def nothing(room):
    """Deletes all files."""
    shutil.rmtree(room.path)
    room.path.mkdir()
    return 1, ["append: no files\n", "rewrite: no files\n", "\nempty\n"]


def last_missing(room):
    """Deletes the last file. Nothing says that there was one."""
    room.file(LAST).unlink()
    return 0, ["opening: would open, and cut nothing of the append queue\n", "\nsound\n"]


# (region 7 has the entries 1 to 4 in append file 1; of these 1 to 2 were rewritten, in a group of two batches)
APPEND = [batch(1, entries_of(7, 1, [2, 3, 4, 5]), entries=b"aabbbccccddddd")]
GROUP = [batch(2, marker(9, 0), entries_of(7, 1, [2]), entries=b"aa"), batch(2, marker(9, 2), entries_of(7, 2, [3]), entries=b"bbb")]
OLDER = [batch(1, entries_of(8, 1, [1]), entries=b"x")]


def both_queues(room):
    """Makes sound files of both queues."""
    room.only([APPEND], [OLDER, GROUP])
    return 0, [f"rewrite file 2: {sum(map(len, GROUP))} bytes, 2 batches, read from offset 0 to {sum(map(len, GROUP))}\n", "opening: would open, and cut nothing of the rewrite queue\n", "\nsound\n"]


def rewrite_torn(room):
    """Makes a torn tail of the rewrite queue."""
    room.only([APPEND], [OLDER, [batch(2, entries_of(8, 1, [1]), entries=b"x"), GROUP[0][:30]]])
    at = len(batch(2, entries_of(8, 1, [1]), entries=b"x"))
    return 1, [f"rewrite file 2 offset {at}: no batch can be read there, 30 bytes before the end: ", f"opening: would open, and cut 30 bytes of rewrite file 2 from offset {at} on: ",
               "opening: would open, and cut nothing of the append queue\n"]


def both_torn(room):
    """Makes torn tails of both queues."""
    room.only([[*APPEND, batch(1, entries_of(7, 5, [1]), entries=b"y")[:25]]], [OLDER, [GROUP[0], GROUP[1], GROUP[0][:30]]])
    at, behind = sum(map(len, APPEND)), sum(map(len, GROUP))
    return 1, [f"opening: would open, and cut 25 bytes of append file 1 from offset {at} on: ", f"opening: would open, and cut 30 bytes of rewrite file 2 from offset {behind} on: ", "\ndamaged\n"]


def rewrite_entry_byte(room):
    """Changes a byte of an entry in the last rewrite file, which may be the only file that has it."""
    room.only([APPEND], [OLDER, [GROUP[0], GROUP[1][:HEADER_LEN] + b"X" + GROUP[1][HEADER_LEN + 1:]]])
    at = len(GROUP[0])
    return 1, [f"rewrite file 2 offset {at}: entry 2 of region 7 can't be read: ", f"opening: refused: Corruption: rewrite file 2, offset {at}: the entries of this batch are damaged\n"]


def older_rewrite_entry_byte(room):
    """Changes a byte of an entry in an older rewrite file, whose entries an opening doesn't look at."""
    room.only([APPEND], [[OLDER[0][:HEADER_LEN] + b"X" + OLDER[0][HEADER_LEN + 1:]], GROUP])
    return 1, ["rewrite file 1 offset 0: entry 1 of region 8 can't be read: ", "opening: would open, and cut nothing of the rewrite queue\n", "\ndamaged\n"]


def hole(room):
    """Makes batches that can all be read, one of which can't follow the one before it."""
    second = batch(1, entries_of(7, 40, [1] * 5), entries=b"ABCDE")
    room.only([[batch(1, entries_of(7, 10, [1] * 10), entries=b"0123456789"), second]])
    size = room.file(1).stat().st_size
    return 1, [f"append file 1: {size} bytes, 2 batches, read from offset 0 to {size}\n", f"opening: refused: Corruption: append file 1, offset {size - len(second)}: "]


def unknown_status(room):
    """Makes a group marker with a status that there is not."""
    room.only([APPEND], [[batch(1, marker(9, 3), entries_of(7, 1, [2]), entries=b"aa")]])
    return 1, ["opening: refused: "]


def group_over_two_files(room):
    """Divides an atomic group between two files."""
    room.only([APPEND], [[batch(1, marker(9, 0), entries_of(7, 1, [2]), entries=b"aa")], [GROUP[1]]])
    return 1, ["opening: refused: "]


def past_its_block(room):
    """Makes a sound batch with an entry that would end behind the entry bytes. An opening doesn't look at the entries of append files."""
    room.only([[batch(1, entries_of(7, 1, [2, 9]), entries=b"aab")]])
    return 1, ["append file 1 offset 0: entry 2 of region 7 can't be read: the entry block is too short\n", "opening: would open, and cut nothing of the append queue\n"]


def without_block(room):
    """Makes a sound batch with an entry, but without entry bytes."""
    room.only([[batch(1, entries_of(7, 1, [2]))]])
    return 1, ["append file 1 offset 0: entry 1 of region 7 can't be read: ", "opening: would open, and cut nothing of the append queue\n", "\ndamaged\n"]


def large(seed=5):
    """Returns batches of up to 700 KB, one of which lies over each multiple of 4 MiB."""
    dice, found, first = random.Random(seed), [], 1
    while sum(map(len, found)) < 18 << 20:
        lens = [dice.randrange(1, 100_000) for _ in range(7)]
        found.append(batch(1, entries_of(7, first, lens), entries=dice.randbytes(sum(lens))))
        first += len(lens)
    return found


def large_file(room):
    """Makes a sound file that is read in several pieces."""
    found = large()
    room.only([found])
    size = sum(map(len, found))
    return 0, [f"append file 1: {size} bytes, {counted(len(found))}, read from offset 0 to {size}\n", "\nsound\n"]


def large_file_damaged(room):
    """Damages in such a file the entries of the batch over the second border of pieces, and the items of a batch before the last border."""
    found = large()
    room.only([found])
    bounds = room.batches(1)
    over = next(at for at, _, end in bounds if at < 8 << 20 < end)
    items, items_at, behind = next(bound for bound in bounds if bound[2] > 15 << 20)
    room.flip(1, over + HEADER_LEN)
    room.flip(1, items_at)
    return 1, [f"append file 1: {sum(map(len, found))} bytes, {counted(len(found) - 1)}, read from offset 0 to {items}\n", f"append file 1 offset {over}: entries ",
               f"append file 1 offset {items}: no batch can be read there, ", f"opening: refused: Corruption: append file 1, offset {items}: ", f"one stands behind it, at offset {behind}\n"]


ROWS = [untouched, first_byte, length_bit, other_number, one_missing, two_missing, torn, torn_before_the_last, entry_byte, item_byte, zeros,
        misnamed, foreign, no_folder, nothing, last_missing, both_queues, rewrite_torn, both_torn, rewrite_entry_byte, older_rewrite_entry_byte, hole, unknown_status,
        group_over_two_files, past_its_block, without_block, large_file, large_file_damaged]
