#!/usr/bin/env python3
"""Runs `raftlog` over random inputs that no engine writes, and counts answers that it must never give.

    tools/hostile.py [--inputs N] [--seed S] [--from K] [--jobs J] [--program PATH] [--against FILE] [--keep FOLDER]

Each input begins as a sound one: an item batch for `raftlog batch`, or log files for `raftlog recover`. Then bits are flipped; bytes are lost,
added, overwritten, doubled or taken from elsewhere; numbers are put in their place. In most inputs the checksums and the headers are made right
again, so that the code behind these checks is reached. The same seed and number give the same input: `--seed S --from K --inputs 1` makes a
single one again. Counted are

    crashes     the program ends by a signal
    statuses    another status than 0 and 1 (the arguments are always right)
    hangs       no answer in SECONDS
    printed     lines are printed before a refusal, a refusal has other words, or an answer isn't whole
    memory      the answer is `memory`, though the limit of the address space allows for what an empty recovery needs, for SPARE_KIB and
                MULTIPLE times the input, and for a stack for each worker
    differ      the answer isn't that of FILE, if one is named: a Python file with a function `answer(words, data, files)`, which returns
                the bytes to print, or a set of words one of which has to stand behind `raftlog: refused: `, or None where any answer
                will do. `files` are pairs of number and bytes

Inputs with a fault are kept in FOLDER, if one is named. The status is 1 where anything was counted.
"""
import argparse
import importlib.util
import os
import random
import shlex
import signal
import subprocess
import sys
import tempfile
import zlib
from collections import Counter
from concurrent.futures import ProcessPoolExecutor
from dataclasses import dataclass, field
from pathlib import Path

RAFTLOG = Path(__file__).resolve().parent.parent / "crates/raftlog/out/raftlog"
ROUND = 250
SECONDS = 60
STEP_KIB = 250
SPARE_KIB = 500
STACK_KIB = 8192
MULTIPLE = 64
WORDS = {"corruption", "codec", "io", "failed", "invalid-argument", "memory"}
GREAT = [2**7, 2**14, 2**20, 2**28, 2**31, 2**32 - 1, 2**32, 2**56, 2**62, 2**63, 2**64 - 2, 2**64 - 1]
REGIONS = [0, 1, 2, 300, 2**56, 2**64 - 1]
KEYS = [b"", b"k", b"key", b"__", b"__\x00", b"__\x01\x00"]
MARK = b"__\x01"


def varint(chance, number):
    """Returns an encoding of a number, at times a longer one than is needed."""
    septets = [number >> shift & 127 for shift in range(0, max(number.bit_length(), 1), 7)]
    while chance.random() < 0.02 and len(septets) < 9:
        septets.append(0)
    return bytes(septet | 128 for septet in septets[:-1]) + bytes(septets[-1:])


def text(chance, data):
    """Returns bytes with their length before them."""
    return varint(chance, len(data)) + data


def signed(content, seq, version):
    """Returns an item batch: its content, and its checksum, signed for its file."""
    checksum = zlib.crc32(content) ^ (seq % 2**32 if version == 2 else 0)
    return content + checksum.to_bytes(4, "little")


def framed(item_batch, block, kind=0):
    """Returns a log batch of an item batch and entry bytes."""
    entries = block + zlib.crc32(block).to_bytes(4, "little") if block else b""
    length = 16 + len(entries) + len(item_batch)
    return ((length << 8) + kind).to_bytes(8, "big") + (16 + len(entries)).to_bytes(8, "big") + entries + item_batch


class Items:
    """Makes items that follow one another, for one input."""

    def __init__(self, chance, queue):
        self.chance, self.queue = chance, queue
        self.regions = chance.sample(REGIONS, 3)
        self.ends = {region: chance.choice([0, 1, 10, 2**32 - 2, 2**64 - 60]) for region in self.regions}

    def content(self):
        """Returns the bytes of an item batch without its checksum, and its entry bytes."""
        chance, items, block = self.chance, [], b""
        if self.queue == "rewrite" and chance.random() < 0.4:
            status = bytes([chance.choice([0, 0, 1, 2, 2, 2, 3])])
            items.append(varint(chance, chance.choice([8, 9])) + b"\x03\x01" + text(chance, MARK) + text(chance, status))
        for _ in range(chance.choice([0, 1, 1, 2, 3, 5])):
            item, data = self.item(len(block))
            items.append(item)
            block += data
        rest = chance.randbytes(2) if chance.random() < 0.05 else b""
        return varint(chance, len(items)) + b"".join(items) + rest, block

    def item(self, already):
        """Returns an item and its entry bytes. `already` is how many entry bytes of other items come before."""
        chance, region = self.chance, self.chance.choice(self.regions)
        head, kind = varint(chance, region), chance.random()
        if kind < 0.4:
            return self.entries(head, region, already)
        if kind < 0.6:
            near = max(0, min(self.ends[region] + chance.randint(-9, 3), 2**64 - 1))
            return head + bytes([2, chance.choice([2, 3])]) + varint(chance, near), b""
        if kind < 0.65:
            return head + b"\x02\x01", b""
        key = chance.choice(KEYS)
        if kind < 0.75:
            return head + b"\x03\x02" + text(chance, key), b""
        return head + b"\x03\x01" + text(chance, key) + text(chance, chance.randbytes(chance.choice([0, 1, 9]))), b""

    def entries(self, head, region, already):
        """Returns a run of entries, and their bytes. It goes on where the last run ended, or begins a little before that, rarely behind a hole."""
        chance = self.chance
        first = max(0, self.ends[region] + chance.choice([0, 0, 0, -1, -3, 1 if chance.random() < 0.1 else 0]))
        data = [chance.randbytes(chance.choice([0, 1, 2, 5])) for _ in range(min(chance.choice([0, 1, 2, 5]), 2**64 - 1 - first))]
        if not data:
            return head + b"\x01\x00", b""
        self.ends[region] = first + len(data)
        tails, tail = b"", already
        for string in data:
            tail += len(string)
            tails += varint(chance, tail)
        return head + b"\x01" + varint(chance, len(data)) + varint(chance, first) + tails, b"".join(data)


def damaged(chance, data, other):
    """Returns bytes with one kind of damage, which may take bytes of `other`."""
    at, kind = chance.randint(0, len(data)), chance.randrange(9)
    end = chance.randint(at, min(len(data), at + 9))
    if kind == 0 and data:
        place = chance.randrange(len(data) * 8)
        return data[: place // 8] + bytes([data[place // 8] ^ 1 << place % 8]) + data[place // 8 + 1:]
    if kind == 1:
        return data[:at]
    if kind == 2:
        return data[:at] + data[end:]
    if kind == 3:
        return data[:at] + chance.randbytes(chance.randint(1, 9)) + data[at:]
    if kind == 4:
        return data[:at] + data[at:end] * chance.choice([2, 3, 9]) + data[end:]
    if kind == 5:
        return data[:at] + other[chance.randint(0, len(other)):]
    if kind == 6:
        return data[:at] + varint(chance, chance.choice(GREAT)) + data[min(len(data), at + 1):]
    if kind == 7:
        return data[:at] + bytes([chance.choice([0, 1, 2, 3, 4, 127, 128, 255])]) * (end - at) + data[end:]
    return data[:at] + chance.choice([b"\x80" * 9 + b"\x02", b"\xff" * 9 + b"\x01", b"\x80" * 4]) + data[at:]


@dataclass
class Case:
    """One run: the arguments before the files, what is on standard input, and the files as pairs of number and bytes."""
    words: list
    data: bytes = b""
    files: list = field(default_factory=list)

    def line(self, number):
        """Returns the arguments, with the path of each file."""
        return self.words + [f"{seq}={number}.{place}" for place, (seq, _) in enumerate(self.files)]

    def limit(self, empty):
        """Returns how many KiB of address space are enough, if an empty recovery needs `empty`."""
        size = len(self.data) + sum(len(data) for _, data in self.files)
        stacks = int(self.words[3]) if self.words[0] == "recover" else 1
        return empty + SPARE_KIB + size * MULTIPLE // 1024 + (stacks * (STACK_KIB + 256) if stacks > 1 else 0)


def item_batch_case(chance):
    """Draws an item batch for `raftlog batch`."""
    queue, version, seq = chance.choice(["append", "rewrite"]), chance.choice([1, 2]), chance.choice([0, 12, 2**32 + 5, 2**64 - 1])
    items = Items(chance, queue)
    content, other = items.content()[0], items.content()[0]
    for _ in range(chance.choice([0, 1, 1, 1, 2, 4])):
        content = damaged(chance, content, other)
    data = signed(content, seq, version)
    if chance.random() < 0.2:
        data = damaged(chance, data, other)
    return Case(["batch", queue, str(seq), str(version)], data)


def log_batch(chance, items, seq, version, harm):
    """Draws a log batch. With the probability `harm` its items are damaged under a right checksum; more rarely it is signed for another
    file, or its header is wrong."""
    content, block = items.content()
    if chance.random() < harm:
        content = damaged(chance, content, items.content()[0])
    if chance.random() < harm / 4:
        seq += 1
    batch = framed(signed(content, seq, version), block, 1 if chance.random() < harm / 20 else 0)
    if chance.random() < harm / 4:
        batch = damaged(chance, batch[:16], batch) + batch[16:]
    return batch


def files_case(chance):
    """Draws files for `raftlog recover`."""
    queue, version, workers = chance.choice(["append", "rewrite"]), chance.choice([1, 2]), chance.choice([1, 1, 1, 2, 3, 4])
    items, harm = Items(chance, queue), chance.choice([0, 0.1, 0.1, 0.4])
    seq, files = chance.choice([1, 12, 2**32 - 2]), []
    for _ in range(chance.choice([1, 1, 2, 3])):
        batches = [log_batch(chance, items, seq, version, harm) for _ in range(chance.choice([0, 1, 2, 4]))]
        files.append((seq, b"".join(batches)))
        seq += chance.choice([1, 1, 2])
    for _ in range(chance.choice([0, 0, 0, 1, 2])):
        place = chance.randrange(len(files))
        files[place] = (files[place][0], damaged(chance, files[place][1], files[0][1]))
    if chance.random() < 0.03:
        files.reverse()
    return Case(["recover", queue, str(version), str(workers)], b"", files)


def case_of(seed, number):
    """Returns the input of a seed and a number."""
    chance = random.Random(f"{seed} {number}")
    return item_batch_case(chance) if chance.random() < 0.4 else files_case(chance)


def needed_kib(program):
    """Returns how many KiB of address space an empty recovery needs."""
    for size in range(STEP_KIB, 2**20, STEP_KIB):
        words = shlex.join([program, "recover", "append", "2", "1"])
        if subprocess.run(["sh", "-c", f"ulimit -S -v {size}; exec {words} 2>&1"], stdout=subprocess.DEVNULL).returncode == 0:
            return size
    sys.exit(f"{program} recovers no files at all")


def script(program, empty, folder, numbers, cases):
    """Writes inputs, and a shell script that runs the program on each, within its limit."""
    lines = [f"ulimit -s {STACK_KIB}", "export MALLOC_ARENA_MAX=1"]
    for number, case in zip(numbers, cases):
        (folder / f"{number}.in").write_bytes(case.data)
        for place, (_, data) in enumerate(case.files):
            (folder / f"{number}.{place}").write_bytes(data)
        run = shlex.join([program, *case.line(number)])
        lines.append(f"(ulimit -S -v {case.limit(empty)}; exec {run} <{number}.in >{number}.out 2>{number}.err); echo $? >{number}.status")
    (folder / "script").write_text("\n".join(lines) + "\n")


def run(program, empty, folder, numbers, cases):
    """Runs the cases. Where one hangs it is ended, and those behind it are run."""
    while numbers:
        script(program, empty, folder, numbers, cases)
        shell = subprocess.Popen(["sh", "script"], cwd=folder, stderr=subprocess.DEVNULL, start_new_session=True)
        try:
            shell.wait(SECONDS)
            return
        except subprocess.TimeoutExpired:
            os.killpg(shell.pid, signal.SIGKILL)
            shell.wait()
            done = sum((folder / f"{number}.status").exists() for number in numbers)
            numbers, cases = numbers[done + 1:], cases[done + 1:]


def fault(case, folder, number, answer):
    """Returns what is wrong with the answer to a case, as one of the words of the page above; None where nothing is."""
    status_path = folder / f"{number}.status"
    if not status_path.exists():
        return "hangs"
    status = int(status_path.read_text())
    out, err = (folder / f"{number}.out").read_bytes(), (folder / f"{number}.err").read_text(errors="replace")
    if status > 128:
        return "crashes"
    if status > 1:
        return "statuses"
    word = err.removeprefix("raftlog: refused: ").removesuffix("\n")
    if status == 1 and (out or word not in WORDS or err != f"raftlog: refused: {word}\n"):
        return "printed"
    if status == 0 and (err or not out.endswith(b"\n") or not out.splitlines()[-1].startswith((b"items ", b"live "))):
        return "printed"
    if status == 1 and word == "memory":
        return "memory"
    owed = answer(case.words, case.data, case.files) if answer else None
    if owed is None:
        return None
    same = out == owed if isinstance(owed, bytes) and status == 0 else status == 1 and not isinstance(owed, bytes) and word in owed
    return None if same else "differ"


def load(path):
    """Returns the function `answer` of a Python file; None where no file is named."""
    if path is None:
        return None
    spec = importlib.util.spec_from_file_location("against", path)
    module = importlib.util.module_from_spec(spec)
    spec.loader.exec_module(module)
    return module.answer


def round_of(arguments, numbers):
    """Runs one round of inputs. Returns how many answers there were of each kind, and the inputs with a fault."""
    answer, counts, faults = load(arguments.against), Counter(), []
    cases = [case_of(arguments.seed, number) for number in numbers]
    with tempfile.TemporaryDirectory(dir="/dev/shm" if os.path.isdir("/dev/shm") else None) as folder:
        folder = Path(folder)
        run(arguments.program, arguments.empty, folder, numbers, cases)
        for number, case in zip(numbers, cases):
            found = fault(case, folder, number, answer)
            status = folder / f"{number}.status"
            counts[case.words[0] + (" answered" if status.exists() and status.read_text() == "0\n" else " refused")] += 1
            if found:
                faults.append((found, number, shlex.join(case.line(number))))
                keep(arguments.keep, folder, number)
    return counts, faults


def keep(kept, folder, number):
    """Copies all files of an input and its answer into the folder `kept`, if one is named."""
    if kept:
        Path(kept).mkdir(parents=True, exist_ok=True)
        for path in folder.glob(f"{number}.*"):
            (Path(kept) / path.name).write_bytes(path.read_bytes())


def main():
    parser = argparse.ArgumentParser(description=__doc__, formatter_class=argparse.RawDescriptionHelpFormatter)
    parser.add_argument("--inputs", type=int, default=10_000, metavar="N", help="how many inputs to run (default: %(default)s)")
    parser.add_argument("--seed", default="1", metavar="S", help="the seed of the inputs (default: %(default)s)")
    parser.add_argument("--from", type=int, default=0, dest="begin", metavar="K", help="the number of the first input (default: %(default)s)")
    parser.add_argument("--jobs", type=int, default=os.cpu_count(), metavar="J", help="how many processes run inputs at the same time (default: %(default)s)")
    parser.add_argument("--program", default=RAFTLOG, type=lambda path: str(Path(path).resolve()), metavar="PATH", help="the path of raftlog")
    parser.add_argument("--against", metavar="FILE", help="the Python file with the answers to compare with")
    parser.add_argument("--keep", metavar="FOLDER", help="the folder in which inputs with a fault are kept")
    arguments = parser.parse_args()
    arguments.program = str(arguments.program)
    if not os.access(arguments.program, os.X_OK):
        sys.exit(f"{arguments.program} isn't there: make raftlog")
    arguments.empty = needed_kib(arguments.program)
    end = arguments.begin + arguments.inputs
    rounds = [range(at, min(at + ROUND, end)) for at in range(arguments.begin, end, ROUND)]
    counts, found = Counter(), Counter()
    with ProcessPoolExecutor(arguments.jobs) as pool:
        for more, faults in pool.map(round_of, [arguments] * len(rounds), rounds):
            counts += more
            for kind, number, line in faults:
                found[kind] += 1
                print(f"{kind}: input {number}: raftlog {line}", flush=True)
    print(f"seed {arguments.seed}, inputs {arguments.begin} to {end - 1}: " + ", ".join(f"{counts[name]} {name}" for name in sorted(counts)))
    print(", ".join(f"{found[kind]} {kind}" for kind in ("crashes", "statuses", "hangs", "printed", "memory", "differ")))
    sys.exit(1 if found else 0)


if __name__ == "__main__":
    main()
