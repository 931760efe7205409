#!/usr/bin/env python3
"""Proves `raft_ffi` and builds its archive: `tools/archive.py [libraft_ffi.a]`, by default crates/raft_ffi/out/libraft_ffi.a.

It uses the libraries below that `rt ci` has proved and left in `out/`; `rt lib` would prove them again. It fails where one of them isn't
there. `raft_ffi` is proved by one job, since each of several jobs would have to read all libraries."""

import os
import pathlib
import subprocess
import sys

TOP = pathlib.Path(__file__).resolve().parent.parent
FOLDER = TOP / "crates/raft_ffi"


def kit():
    """Returns the folder of the toolchain: the one with the page that `rt doc` prints."""
    page = subprocess.run([os.environ.get("RT", "rt"), "doc"], check=True, capture_output=True, text=True)
    return pathlib.Path(page.stdout.strip()).parent


def main():
    if len(sys.argv) > 2:
        sys.exit(__doc__)
    archive = pathlib.Path(sys.argv[1] if len(sys.argv) == 2 else FOLDER / "out/libraft_ffi.a").absolute()
    sys.dont_write_bytecode = True
    sys.path.insert(0, str(kit() / "bin"))
    import rtlib

    os.chdir(FOLDER)
    crate = rtlib.Crate(str(FOLDER), str(TOP), {})
    for library in crate.below():
        if not os.path.isdir(library.rlib):
            sys.exit(f"{library.name} isn't built: run rt ci first")
    archive.parent.mkdir(parents=True, exist_ok=True)
    sys.exit(crate.compile(["--jobs", "1"], str(archive)))


if __name__ == "__main__":
    main()
