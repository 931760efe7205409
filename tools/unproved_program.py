#!/usr/bin/env python3
"""Builds a program without a proof, with the checks of `rt try`: `tools/unproved_program.py CRATE`, for example `.. raftlog`.

The program is crates/CRATE/out/CRATE_unproved. It is built again only where a source of the crate, or of a crate below it, has changed.
tools/unproved.py says how it is had from the toolchain. The last line that is printed has its path, and that it has no proof."""

import hashlib
import os
import pathlib
import subprocess
import sys
import tempfile

import archive
import unproved


def checksum(kit, folder):
    """Returns a checksum of the kit and of all sources of the crate in `folder` and of those below it."""
    sys.path.insert(0, str(kit / "bin"))
    import rtlib

    os.chdir(folder)
    crate = rtlib.Crate(str(folder), str(archive.TOP), {})
    names = [folder, *(pathlib.Path(it.folder) for it in crate.below())]
    summed = hashlib.sha256((kit / "KIT-ID").read_bytes() if (kit / "KIT-ID").is_file() else b"")
    for name in sorted(path for it in names for path in it.glob("src/**/*.rt")):
        summed.update(os.fsencode(name.relative_to(archive.TOP)) + b"\0" + name.read_bytes())
    return summed.hexdigest()


def main():
    if len(sys.argv) != 2 or not (archive.TOP / "crates" / sys.argv[1] / "src/main.rt").is_file():
        sys.exit(__doc__)
    name, kit = sys.argv[1], archive.kit()
    folder = archive.TOP / "crates" / name
    out, stamp = folder / f"out/{name}_unproved", folder / f"out/{name}_unproved.sum"
    out.parent.mkdir(exist_ok=True)
    wanted = checksum(kit, folder)
    if not out.is_file() or not stamp.is_file() or stamp.read_text() != wanted:
        stamp.unlink(missing_ok=True)
        with tempfile.TemporaryDirectory(prefix="unproved-") as made:
            room = pathlib.Path(made)
            unproved.make_module(kit, room, folder, folder / "src/main.rt")
            unproved.compiled(kit, room, "module.bc", "module.o", "ir", "-O1", "-c")
            unproved.linked(kit, room, out)
        stamp.write_text(wanted)
    print(f"{os.path.relpath(out, archive.TOP)}: a program without a proof")


if __name__ == "__main__":
    main()
