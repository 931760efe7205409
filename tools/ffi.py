#!/usr/bin/env python3
"""Compares the declarations in rust/src/sys.rs and rust/src/sys/ with the exports of crates/raft_ffi: names, parameters, results, and the
fields of the structs that are passed: `tools/ffi.py [libraft_ffi.a]`. Where an archive is named it also checks that the archive calls no
outside functions but the expected ones. It prints each difference, and fails where there is one."""

import pathlib
import re
import subprocess
import sys

TOP = pathlib.Path(__file__).resolve().parent.parent
EXPORTS = TOP / "crates/raft_ffi/src"
DECLARATIONS = [TOP / "rust/src/sys.rs", *sorted((TOP / "rust/src/sys").glob("*.rs"))]

# A type that crosses is a handle, or has another name in Rust, where the plain name is that of the safe type.
IN_RUST = {
    "Context": "Handle",
    "Tables": "Handle",
    "Items": "Handle",
    "Batch": "Handle",
    "Engine": "Handle",
    "Reader": "Handle",
    "OrderHead": "OrderNumbers",
    "Place": "PlaceNumbers",
    "Entry": "EntryNumbers",
    "Summary": "SummaryNumbers",
    "Tail": "TailNumbers",
}

# What the archive may call: C's functions on memory, the text of a system error, and the heap.
ALLOWED = {
    "memcpy",
    "memmove",
    "memset",
    "__xpg_strerror_r",
    "rattle_alloc",
    "rattle_realloc",
    "rattle_dealloc",
}


def without_comments(text):
    """Returns a text without its `//` comments."""
    return re.sub(r"//[^\n]*", "", text)


def parameters(text):
    """Returns the name and the type of each parameter in a list."""
    found = [part.split(":", 1) for part in text.split(",") if part.strip()]
    return [(name.strip(), " ".join(kind.split())) for name, kind in found]


def in_rust(kind):
    """Returns the name that a type has in rust/."""
    return IN_RUST.get(kind, kind)


def passed(name, kind):
    """Returns the parameters that Rust has for one parameter of an export: none for an allocator, a pointer and a length for a slice."""
    if kind == "Global":
        return []
    for begin, pointer in (("&mut [", "*mut"), ("&[", "*const")):
        if kind.startswith(begin):
            item = kind[len(begin) : -1]
            return [(name, f"{pointer} {in_rust(item)}"), (name + "_len", "usize")]
    if kind.startswith("&mut "):
        return [(name, f"*mut {in_rust(kind[5:])}")]
    return [(name, in_rust(kind))]


def heads():
    """Yields for each export its module, its name, its parameters and its result."""
    head = re.compile(
        r"#\[unsafe\(no_mangle\)\]\s*pub extern \"C\" fn (\w+)\(([^)]*)\)\s*(?:-> (\w+))?"
    )
    for path in sorted(EXPORTS.glob("*.rt")):
        for name, inside, result in head.findall(without_comments(path.read_text())):
            yield path.stem, name, parameters(inside), result


def exports():
    """Returns for each export the parameters and the result that Rust has to declare, by its name."""
    found = {}
    for _, name, inside, result in heads():
        wanted = [pair for kind in inside for pair in passed(*kind)]
        found[name] = (wanted, in_rust(result))
    return found


def declarations(text):
    """Returns the parameters and the result of each function that Rust declares, by its name."""
    head = re.compile(r"fn (\w+)\(([^)]*)\)\s*(?:-> (\w+))?;")
    return {
        name: (parameters(inside), result)
        for block in re.findall(r'unsafe extern "C" {(.*?)\n}\n', text, re.S)
        for name, inside, result in head.findall(block)
    }


def structs(text):
    """Returns the fields of each struct with C's layout, in order, without ghost fields and those that have no bytes."""
    head = re.compile(
        r"#\[repr\(C\)\]\s*(?:#\[derive\([^)]*\)\]\s*)?(?:pub(?:\((?:super|crate)\))? )?struct (\w+) \{(.*?)\n\}", re.S
    )
    found = {}
    for name, inside in head.findall(without_comments(text)):
        lines = [line.strip().rstrip(",") for line in inside.splitlines()]
        lines = [re.sub(r"^pub(\((super|crate)\))? ", "", line) for line in lines]
        fields = [line.split(": ", 1) for line in lines if ": " in line]
        found[in_rust(name)] = [
            (field, in_rust(kind))
            for field, kind in fields
            if not field.startswith("ghost ") and kind != "Global"
        ]
    return found


def shown(call):
    """Returns the signature of a function as a text."""
    wanted, result = call
    inside = ", ".join(f"{name}: {kind}" for name, kind in wanted)
    return f"({inside})" + (f" -> {result}" if result else "")


def differences(kind, wanted, found, show):
    """Yields a line for each difference between the functions, or the structs, that the library has and those that Rust has."""
    for name in sorted(wanted.keys() | found.keys()):
        if name not in found:
            yield f"{kind} {name}: Rust doesn't declare it"
        elif name not in wanted:
            yield f"{kind} {name}: the library has none"
        elif wanted[name] != found[name]:
            yield f"{kind} {name}: the library has {show(wanted[name])}, Rust {show(found[name])}"


def undefined(archive):
    """Returns the symbols that an archive uses and doesn't define."""
    lines = subprocess.run(
        ["nm", "-u", archive], check=True, capture_output=True, text=True
    ).stdout.splitlines()
    defined = subprocess.run(
        ["nm", "--defined-only", archive], check=True, capture_output=True, text=True
    ).stdout.split()
    names = {line.split()[1] for line in lines if len(line.split()) == 2}
    return names - set(defined)


def main(words):
    rust = "\n".join(without_comments(path.read_text()) for path in DECLARATIONS)
    library = {}
    for path in sorted(EXPORTS.glob("*.rt")):
        library.update(structs(path.read_text()))
    # the structs of the heap's shim are no part of an export
    plain = {name: kind for name, kind in structs(rust).items() if name != "Tried"}
    wanted = exports()
    found = [
        *differences("fn", wanted, declarations(rust), shown),
        *differences("struct", library, plain, str),
    ]
    for archive in words:
        calls = undefined(archive)
        found += [f"{archive} calls {name}" for name in sorted(calls - ALLOWED)]
    if not wanted:
        found.append("no export was found")
    print("\n".join(found) if found else f"rust/src/sys.rs and sys/ declare the {len(wanted)} exports as they are")
    return 1 if found else 0


if __name__ == "__main__":
    sys.exit(main(sys.argv[1:]))
