#!/usr/bin/env python3
"""Compares `raftlog recover --plain`, the program whose contract consists of the definitions themselves, with other answers.

    tools/beside_plain.py [PROGRAM]                      with the expected lines of the tests of recovery; and with what an engine has that
                                                         is opened over the same files, as `raftlog regions` prints it
    tools/hostile.py --against tools/beside_plain.py     with `raftlog recover`, over random inputs

The rows of the tests are read from the tables of raft_recover_tests. A row has batches of version 1 in base 16, each with the number of its
file, and the lines that recovery has to print, or that it has to refuse them. PROGRAM is crates/raftlog/out/raftlog by default. A line is
printed for each difference; the status is 1 where there is one.
"""
import re
import subprocess
import sys
import tempfile
from pathlib import Path

TOP = Path(__file__).resolve().parent.parent
RAFTLOG = TOP / "crates/raftlog/out/raftlog"
TABLES = TOP / "crates/raft_recover_tests/src/recovery"
MARKER = b"__\x01"
# Of several faults several workers may meet another first.
FAULTS = {"corruption", "codec", "io", "failed"}

ROW = re.compile(r"(?:const (\w+): Row = )?Row \{\n(.*?)\n *\.\.(\w+)\n *\}", re.S)
BATCH = re.compile(r'\(\s*(\d+),\s*(?:(\w+)|"([0-9a-f]*)"),?\s*\)')
TEXT = re.compile(r'const (\w+): &str =\s*"([0-9a-f]*)";')
NAMED_BATCH = re.compile(r'const (\w+): Batch = (\([^;]*\));')
LIST = re.compile(r"const (\w+): \[Batch; \d+\] = \[(.*?)\];", re.S)


def run(program, command, files, queues=None):
    """Runs a command of a program over files, given as pairs of number and bytes, and returns its status and what it printed on both
    outputs. With `queues` each file is named after an option for its queue."""
    with tempfile.TemporaryDirectory() as folder:
        words = [str(program), *command]
        for place, (seq, data) in enumerate(files):
            (Path(folder) / str(place)).write_bytes(data)
            words += [f"--{queues[place]}"] if queues else []
            words.append(f"{seq}={place}")
        done = subprocess.run(words, cwd=folder, stdin=subprocess.DEVNULL, capture_output=True)
    return done.returncode, done.stdout, done.stderr.decode()


def plainly(program, words, files):
    """Returns what the plain program answers to these arguments and files."""
    return run(program, ["recover", "--plain", *words], files)


def opened(program, queue, files):
    """Returns what an engine has that is opened over files of a queue and one empty file of the other queue, as `raftlog regions` answers."""
    other = {"append": "rewrite", "rewrite": "append"}[queue]
    return run(program, ["regions", "--format", "1"], [*files, (1, b"")], [queue] * len(files) + [other])


def has_markers(files):
    """Tests whether files may have group markers."""
    return any(MARKER in data for _, data in files)


def answer(words, _, files):
    """Returns what an input of tools/hostile.py has to give: the bytes to print, or the reasons one of which has to be given. None where
    the input isn't files; or where several workers read rewrite files with group markers, since the definitions leave the result open where
    a group overlaps others on a region."""
    if words[0] != "recover" or (words[1] == "rewrite" and words[3] != "1" and has_markers(files)):
        return None
    status, out, err = plainly(RAFTLOG, words[1:], files)
    if status == 0:
        return out
    return {err.removeprefix("raftlog: refused: ").strip()} if words[3] == "1" else FAULTS


class Tables:
    """Reads the tables of rows in the sources of the tests."""

    def __init__(self):
        self.texts = [path.read_text() for path in (TABLES / f"{name}.rt" for name in ("batches", "rows", "histories", "truncations"))]
        every = "\n".join(self.texts)
        self.bytes = {name: bytes.fromhex(digits) for name, digits in TEXT.findall(every)}
        self.batches = {name: self.batches_in(text)[0] for name, text in NAMED_BATCH.findall(every)}
        self.lists = {name: self.batches_in(text) for name, text in LIST.findall(every)}

    def batches_in(self, text):
        """Returns the batches that a list names or spells out, each with the number of its file."""
        found = []
        for part in re.finditer(rf"{BATCH.pattern}|(\w+)", text):
            seq, named, digits, whole = part.groups()
            if seq is None:
                found.append(self.batches[whole])
            else:
                found.append((int(seq), self.bytes[named] if named else bytes.fromhex(digits)))
        return found

    def rows(self):
        """Yields for each row its queue, its files, and its lines; None in place of the lines where the files have to be refused."""
        named = {"APPEND": ("append", None, None), "REWRITE": ("rewrite", None, None)}
        for name, body, base in (row.groups() for text in self.texts for row in ROW.finditer(text)):
            queue, batches, lines = named[base]
            given = re.search(r"batches: &(?:(\w+)|\[(.*?)\]),", body, re.S)
            if given:
                batches = self.lists[given.group(1)] if given.group(1) else self.batches_in(given.group(2))
            owed = re.search(r'lines: (?:None|Some\(\s*"\\\n(.*?)",?\s*\)),', body, re.S)
            if owed:
                lines = owed.group(1)
            if name:
                named[name] = (queue, batches, lines)
            files = {}
            for seq, data in batches:
                files[seq] = files.get(seq, b"") + data
            yield queue, list(files.items()), lines


def main():
    program = Path(sys.argv[1]).resolve() if len(sys.argv) > 1 else RAFTLOG
    tables = Tables()
    rows, openings, differing = list(tables.rows()), 0, 0
    in_tables = sum(len(re.findall(r"(?<!&'static )\bRow \{", text)) for text in tables.texts)
    if len(rows) != in_tables:
        sys.exit(f"{in_tables} rows are in the tables, {len(rows)} were read")
    for queue, files, lines in rows:
        seqs = [seq for seq, _ in files]
        owed = (0, lines.encode(), "") if lines is not None else (1, b"", "raftlog: refused: corruption\n")
        found = [("plainly", plainly(program, [queue, "1", "1"], files))]
        # an opening asks that files are numbered one after another, and that groups stand in rows; it cuts off what a crash may have torn
        is_asked = files and seqs == list(range(seqs[0], seqs[0] + len(seqs))) and not (queue == "rewrite" and has_markers(files))
        if lines is not None and is_asked:
            found.append(("opened", opened(program, queue, files)))
            openings += 1
        for how, gives in found:
            if gives != owed:
                differing += 1
                print(f"{how}, {queue}, {seqs}: {gives[0]}, {gives[1].decode()}{gives[2]}where this is owed: {lines}")
    print(f"{len(rows)} rows beside the plain program, {openings} openings of the same files, {differing} differ")
    sys.exit(1 if differing else 0)


if __name__ == "__main__":
    main()
