#!/usr/bin/env python3
"""Refuses each request for memory and each start of a thread in turn, and checks that no answer changes but to say so.

    tools/refused_memory.py [--inputs N] [--seed S] [--jobs J] [--every K] [--rows-alone] [--row NAME]..
                            [--raftlog PATH] [--refusals PATH]

`tools/refused_memory.c` is built, and loaded before a program. Each call is run with ample memory; then with its first request for memory
refused, with its second, and so on, up to the first run that makes no more requests; then the same with all requests refused from the first
on, from the second on, and so on; and then with each start of a thread refused. With --every K only each K-th request is refused.

The rows of `raft_refusals` come first. The program makes the calls of a row. Where a call finds no memory, the program compares what it left
with what it has to leave, and makes the call again. So a run with one request refused has to print what is expected with ample memory: what
`crates/raft_refusals/stdout` has under the row's name. Where all requests from one on are refused it may also end with `memory`, since the
second call finds none either. It must never print `left otherwise`.

The calls of `raftlog` are `batch` over an item batch, `recover` over the files of `demo/` with 1 to 8 workers, and the inputs that
`tools/hostile.py` makes of SEED, with 1, 2 and 4 workers. A run has to answer as with ample memory, or `memory`, or `io` (a read that finds
no memory is a failed read), and then prints no line. Where the start of a thread is refused, the answer has to be the same; also over files of
more than 8 MiB, which as many workers read as are asked for. Where files have several faults, several workers may meet another one first.

It prints how many rows, calls and runs there were, and each run that went wrong. It needs a C compiler `cc`. The status is 1 where a run went
wrong.
"""
import argparse
import itertools
import os
import subprocess
import sys
import tempfile
from collections import Counter
from concurrent.futures import ThreadPoolExecutor
from dataclasses import dataclass
from pathlib import Path

import hostile

TOP = Path(__file__).resolve().parent.parent
SECONDS = 60
FOREVER = 2**63
MEMORY = [(1, b"", b"raftlog: refused: memory\n"), (1, b"", b"raftlog: refused: io\n")]
# Which of several faults in the files is met first is open where there are more workers.
FAULTS = [(1, b"", f"raftlog: refused: {word}\n".encode()) for word in ("corruption", "codec", "io")]
# With more threads the number of requests is not the same in each run.
QUIET_RUNS = 3
OWED = TOP / "crates/raft_refusals/stdout"
# The rows that start threads.
THREADED_ROWS = {"pieces", "workers"}
LARGE_FILES, LARGE_MEGABYTES = 9, 9


@dataclass
class Call:
    """A program with its arguments, its standard input, and the folder that it runs in. `owed` is what a row has to print; `starts_alone`
    says that only starts of threads are refused."""
    name: str
    words: list
    data: bytes = b""
    folder: Path = TOP
    threads: bool = False
    starts_alone: bool = False
    owed: bytes = b""


def answer(library, call, refusals):
    """Runs a call with these refusals. Returns its status and what it printed, and whether something was refused."""
    reader, writer = os.pipe()
    words = {**os.environ, **{name: str(number) for name, number in refusals.items()}, "REFUSE_TOLD": str(writer)}
    try:
        done = subprocess.run(call.words, input=call.data, cwd=call.folder, env={**words, "LD_PRELOAD": library},
                              capture_output=True, timeout=SECONDS, pass_fds=[writer])
        given = done.returncode, done.stdout, done.stderr
    except subprocess.TimeoutExpired:
        given = None, b"", b""
    os.close(writer)
    told = os.read(reader, 1)
    os.close(reader)
    return given, bool(told)


def each_refusal(library, call, refusals_of, every=1):
    """Yields for each run in which something was refused its number and its answer. It ends behind the first run without a refusal; where
    there are threads behind several such runs."""
    quiet = 0
    for number in itertools.count(1, every):
        given, told = answer(library, call, refusals_of(number))
        quiet = 0 if told else quiet + 1
        if quiet >= (QUIET_RUNS if call.threads else 1):
            return
        if told:
            yield number, given


def one(number):
    """Returns the refusal of a single request."""
    return {"REFUSE_FIRST": number, "REFUSE_LAST": number}


def all_from(number):
    """Returns the refusal of all requests from a number on."""
    return {"REFUSE_FIRST": number, "REFUSE_LAST": FOREVER}


def start(number):
    """Returns the refusal of the start of a thread."""
    return {"REFUSE_START": number}


def runs_of(library, call, ample, modes):
    """Makes the runs of a call. Returns how many there were of each mode, and a line for each that went wrong. A mode is its name, a
    function that returns its refusals, the answers that are allowed beside the one with ample memory, and the step from one number to the
    next."""
    runs, wrong = Counter(), []
    for how, refusals_of, allowed, every in modes:
        for number, given in each_refusal(library, call, refusals_of, every):
            runs[how] += 1
            if given not in [ample, *allowed]:
                wrong.append(f"{call.name}: {how} {number} refused: status {given[0]}, {given[1][-60:]}, {given[2][:60]}")
    return runs, wrong


def program_runs(library, call, every):
    """Makes the runs of a call of `raftlog`."""
    ample, _ = answer(library, call, {})
    faults = FAULTS if call.threads and ample in FAULTS else []
    modes = [("start of a thread", start, faults, 1)]
    if not call.starts_alone:
        modes = [("one request", one, MEMORY + faults, every), ("all requests from", all_from, MEMORY + faults, every), *modes]
    runs, wrong = runs_of(library, call, ample, modes)
    if ample[0] not in (0, 1):
        wrong.append(f"{call.name}: with ample memory status {ample[0]}")
    return runs, wrong


def owed_rows():
    """Returns what each row of `raft_refusals` has to print, by its name."""
    rows, lines = {}, []
    for line in OWED.read_bytes().splitlines(keepends=True):
        if line.endswith(b":\n") and b" " not in line:
            lines = rows.setdefault(line[:-2].decode(), [])
        lines.append(line)
    return {name: b"".join(lines) for name, lines in rows.items()}


def row_runs(library, call, every):
    """Makes the runs of a row."""
    ample, _ = answer(library, call, {})
    owed = (0, call.owed, b"")
    ends = [(0, text, b"") for text in (f"{call.words[1]}:\nmemory\n".encode(), b"memory\n")]
    modes = [("one request", one, [], every), ("all requests from", all_from, ends, every), ("start of a thread", start, [], 1)]
    runs, wrong = runs_of(library, call, owed, modes)
    if ample != owed:
        wrong.append(f"{call.name}: with ample memory status {ample[0]}, {ample[1]}, {ample[2][:60]}")
    return runs, wrong


def row_calls(refusals, names):
    """Yields a call for each row, or for those with these names."""
    for name, owed in owed_rows().items():
        if not names or name in names:
            yield Call(f"row {name}", [refusals, name], threads=name in THREADED_ROWS, owed=owed)


def demo_calls(raftlog):
    """Yields calls over files of the repository."""
    item_batch = (TOP / "crates/raftlog/stdin").read_bytes()
    yield Call("batch", [raftlog, "batch", "append", "12", "1"], item_batch)
    files = [f"{seq}={seq}.log" for seq in range(1, 5)]
    for workers in range(1, 9):
        yield Call(f"demo, {workers} workers", [raftlog, "recover", "append", "2", str(workers), *files],
                   folder=TOP / "demo", threads=workers > 1)


def made_calls(raftlog, seed, inputs, folder):
    """Yields calls over random inputs, which it writes into a folder."""
    for number in range(inputs):
        case = hostile.case_of(seed, number)
        for place, (_, data) in enumerate(case.files):
            (folder / f"{number}.{place}").write_bytes(data)
        words = case.line(number)
        for workers in ["1", "2", "4"] if case.files else [None]:
            if workers:
                words[3] = workers
            yield Call(f"input {number}: {' '.join(words)}", [raftlog, *words], case.data, folder, workers not in (None, "1"))


def large_calls(raftlog, folder):
    """Yields calls over files that are so large that as many workers read them as are asked for."""
    subprocess.run([TOP / "tools/logs.py", folder, "--files", str(LARGE_FILES), "--megabytes", str(LARGE_MEGABYTES)],
                   check=True, capture_output=True)
    queue, version, *files = (folder / "args").read_text().split()
    for workers in range(1, 9):
        yield Call(f"large files, {workers} workers", [raftlog, "recover", queue, version, str(workers), *files],
                   folder=folder, threads=workers > 1, starts_alone=True)


def tried(pool, runs_of_call, library, calls, every, what):
    """Makes the runs of all calls, prints each that went wrong and how many there were, and returns whether none went wrong."""
    runs, wrong = Counter(), 0
    for work in [pool.submit(runs_of_call, library, call, every) for call in calls]:
        more, lines = work.result()
        runs, wrong = runs + more, wrong + len(lines)
        for line in lines:
            print(line, flush=True)
    print(f"{len(calls)} {what}, {runs.total()} runs, {wrong} went wrong")
    print("refused: " + ", ".join(f"{how} {count}" for how, count in runs.items()), flush=True)
    return wrong == 0


def program(path):
    """Returns the absolute path of a program, or ends this one where it isn't there."""
    if not os.access(path, os.X_OK):
        sys.exit(f"{path} isn't there: make refused-memory")
    return str(path.resolve())


def main():
    parser = argparse.ArgumentParser(description=__doc__, formatter_class=argparse.RawDescriptionHelpFormatter)
    parser.add_argument("--inputs", type=int, default=100, metavar="N", help="how many random inputs to run (default: %(default)s)")
    parser.add_argument("--seed", default="1", metavar="S", help="the seed of the inputs (default: %(default)s)")
    parser.add_argument("--jobs", type=int, default=os.cpu_count(), metavar="J", help="how many calls to run at the same time (default: %(default)s)")
    parser.add_argument("--every", type=int, default=1, metavar="K", help="refuse each K-th request only (default: %(default)s)")
    parser.add_argument("--rows-alone", action="store_true", help="make no calls of raftlog")
    parser.add_argument("--row", action="append", default=[], metavar="NAME", help="make this row alone; may be repeated")
    parser.add_argument("--raftlog", type=Path, default=TOP / "crates/raftlog/out/raftlog", metavar="PATH", help="the path of raftlog")
    parser.add_argument("--refusals", type=Path, default=TOP / "crates/raft_refusals/out/raft_refusals", metavar="PATH", help="the path of raft_refusals")
    arguments = parser.parse_args()
    every, good = arguments.every, True
    with tempfile.TemporaryDirectory() as folder, ThreadPoolExecutor(arguments.jobs) as pool:
        folder = Path(folder)
        library = str(folder / "refused_memory.so")
        subprocess.run(["cc", "-O2", "-shared", "-fPIC", "-o", library, TOP / "tools/refused_memory.c"], check=True)
        rows = [*row_calls(program(arguments.refusals), arguments.row)]
        good &= tried(pool, row_runs, library, rows, every, "rows")
        if not arguments.rows_alone:
            raftlog = program(arguments.raftlog)
            calls = [*demo_calls(raftlog), *made_calls(raftlog, arguments.seed, arguments.inputs, folder),
                     *large_calls(raftlog, folder / "large")]
            good &= tried(pool, program_runs, library, calls, every, "calls of raftlog")
    sys.exit(0 if good else 1)


if __name__ == "__main__":
    main()
