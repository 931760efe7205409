#!/usr/bin/env python3
"""Counts by valgrind's callgrind how many instructions each phase of a program takes, and prints a table:

    tools/count_phases.py engine [--times] [REGIONS BATCHES]..     (an engine over files in memory)
    tools/count_phases.py calls [--times] [BLOCKS]..               (the calls of a table)

The program is one in Rattle, tools/phases/engine.txt or calls.txt, which is run once for each shape that is given (REGIONS and BATCHES, or
BLOCKS), by default for three shapes. For an engine rust/examples/phases.rs is counted too, if there is cargo. Counts don't depend on what else
the computer does. With `--times` the programs run without callgrind, and the table has nanoseconds.

The programs are built without a proof, by tools/unproved.py; tools/unchecked.py takes their checks out, and puts the hints of the sources in.
They are built again only where a source has changed, which takes a minute of processor time each."""

import hashlib
import os
import pathlib
import shutil
import subprocess
import sys
import tempfile

import archive
import unchecked
import unproved
import unproved_program

# A crate whose libraries are those of the programs.
LIBRARIES = archive.TOP / "crates/raft_crashes"

# Has glibc copy and fill by vectors, and not by the instruction for any number of bytes, which callgrind counts once for each of them.
BY_VECTORS = "glibc.cpu.x86_rep_movsb_threshold=1000000000:glibc.cpu.x86_rep_stosb_threshold=1000000000"

# What each program is asked for where nothing is said: one region, ten times as many batches, and a hundred regions; and tables each of
# which is ten times as large as the one before.
SHAPES = {"engine": [("1", "250"), ("1", "2500"), ("100", "10")], "calls": [("100",), ("1000",), ("10000",)]}

# The head of a column.
HEADS = {"engine": "{} regions, {} batches of each", "calls": "{} blocks"}


def built(out, of, make):
    """Has `make` make the file `out`, unless it is there and was made of just these bytes. Returns its path."""
    stamp, wanted = out.with_suffix(".sum"), hashlib.sha256(of).hexdigest()
    if not out.is_file() or not stamp.is_file() or stamp.read_text() != wanted:
        stamp.unlink(missing_ok=True)
        out.parent.mkdir(exist_ok=True)
        make()
        stamp.write_text(wanted)
    return out


def tools():
    """Returns the sources of the tools that build, as bytes."""
    return b"".join((archive.TOP / f"tools/{name}.py").read_bytes() for name in ["unproved", "unchecked"])


def in_rattle(kit, name):
    """Builds a program of phases in Rattle, if need be, and returns its path."""
    out, source = archive.TOP / f"crates/raft_engine/out/phases_{name}", archive.TOP / f"tools/phases/{name}.txt"

    def make():
        with tempfile.TemporaryDirectory(prefix="phases-") as made:
            room = pathlib.Path(made)
            (room / "src").mkdir()
            main = room / "src/main.rt"
            main.write_text(source.read_text())
            unproved.make_module(kit, room, LIBRARIES, main)
            text = unchecked.without_checks(unchecked.text_of(kit, room), unchecked.hints(LIBRARIES, main))
            (room / "module.ll").write_text(text)
            unproved.compiled(kit, room, "module.ll", "module.o", "ir", "-c", *unchecked.FLAGS)
            unproved.linked(kit, room, out)

    sources = unproved_program.checksum(kit, LIBRARIES).encode()
    return built(out, sources + tools() + source.read_bytes(), make)


def in_rust(kit):
    """Builds the program of phases in Rust, if need be, and returns its path."""
    library = archive.FOLDER / "out/libraft_ffi_unchecked.a"
    sources = unproved_program.checksum(kit, archive.FOLDER).encode()
    built(library, sources + tools(), lambda: unproved.make(library, is_checked=False))
    target = os.environ.get("CARGO_TARGET_DIR", str(archive.FOLDER / "out/target"))
    names = {"RAFT_FFI_ARCHIVE": str(library), "RATTLE_HEAP_ARCHIVE": str(kit / "c/liblibc_c.a"), "CARGO_TARGET_DIR": target}
    words = ["cargo", "build", "--release", "--quiet", "--offline", "--example", "phases"]
    subprocess.run(words, cwd=archive.TOP / "rust", env={**os.environ, **names}, check=True)
    return pathlib.Path(target) / "release/examples/phases"


def counted(program, words):
    """Runs a program under callgrind. Returns what it printed, and how many instructions each phase took. callgrind writes one file for
    what comes before each phase, and one for the rest."""
    with tempfile.TemporaryDirectory(prefix="phases-") as room:
        call = ["valgrind", "--tool=callgrind", f"--callgrind-out-file={room}/out", "--dump-before=*::phase_*"]
        names = {**os.environ, "GLIBC_TUNABLES": BY_VECTORS}
        run = subprocess.run([*call, program, *words], env=names, capture_output=True, text=True)
        if run.returncode:
            sys.exit(run.stderr)
        parts = {}
        for path in pathlib.Path(room).iterdir():
            lines = path.read_text().splitlines()
            part = next(int(line.split()[1]) for line in lines if line.startswith("part: "))
            parts[part] = next(int(line.split()[1]) for line in lines if line.startswith("summary: "))
    return run.stdout, [parts[part] for part in sorted(parts)[1:]]


def phases(program, words, is_timed):
    """Returns for each phase of a program that has a name: the name, what a unit is, and how many instructions, or nanoseconds, a unit takes."""
    if is_timed:
        said = subprocess.run([program, *words], capture_output=True, text=True, check=True).stdout
        lines = [line.split("\t") for line in said.splitlines()]
        return [(name, unit, int(each)) for name, _, unit, each in lines if name]
    said, counts = counted(program, words)
    lines = [line.split("\t") for line in said.splitlines()]
    if len(lines) != len(counts):
        sys.exit(f"{len(lines)} phases, and {len(counts)} were counted")
    return [(name, unit, count // int(units)) for (name, units, unit, _), count in zip(lines, counts) if name]


def print_table(heads, columns):
    """Prints a table with a row for each phase, and a column for each run."""
    print("| " + " | ".join(heads) + " |")
    print("|" + "---|" * len(heads))
    for row in zip(*columns):
        print("| " + " | ".join([f"{row[0][0]}, per {row[0][1]}", *(f"{each:,}" for _, _, each in row)]) + " |")
    print(flush=True)


def main():
    words = [word for word in sys.argv[1:] if word != "--times"]
    name, numbers = words[0] if words else "", words[1:]
    width = len(SHAPES.get(name, [()])[0])
    if not width or len(numbers) % width or not all(word.isdigit() for word in numbers):
        sys.exit(__doc__)
    is_timed = "--times" in sys.argv[1:]
    if not is_timed and not shutil.which("valgrind"):
        sys.exit("valgrind isn't there: with --times it isn't needed")
    shapes = [tuple(numbers[at : at + width]) for at in range(0, len(numbers), width)] or SHAPES[name]
    what, kit = "ns" if is_timed else "instructions", archive.kit()
    program = in_rattle(kit, name)
    heads = [f"{what} in Rattle", *(HEADS[name].format(*shape) for shape in shapes)]
    print_table(heads, [phases(program, shape, is_timed) for shape in shapes])
    if name == "engine" and shutil.which("cargo"):
        print_table([f"{what} in Rust", "100 regions, 20 batches of each"], [phases(in_rust(kit), [], is_timed)])


if __name__ == "__main__":
    main()
