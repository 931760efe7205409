#!/usr/bin/env python3
"""Makes the page of all calls: what the four crates that users import from have, and raft_files, raft_engine, raft_opening and raft_folder.
Each call is listed with its signature and the first sentence of its doc, each type also with its public fields or variants.

    calls.py            writes docs/CALLS.md
    calls.py --check    fails where that page isn't what the sources say now

An item is listed once, under the first of these crates that has it, with its module where it isn't at the crate's root. Two items of one name
are both listed, as `Error` and `codec::Error` are. Laws, which compute nothing, are listed by name alone: docs/DEFINITIONS.md says what they
state. Short neighbors share a line. An item under `#[doc(hidden)]`, where it is defined or where its own crate re-exports it, is left out: it
is public for other crates of this repository alone.
"""

import itertools
import re
import sys
from pathlib import Path

TOP = Path(__file__).resolve().parent.parent
PAGE = TOP / "docs/CALLS.md"
USERS_CRATES = ("raft_base", "raft_records", "raft_memtable", "raft_recover", "raft_files", "raft_engine", "raft_opening", "raft_folder")

HEAD = re.compile(r"^( *)pub (?:final )?(?:const |unsafe )*(fn|struct|enum|trait|const|type) (\w+)", re.M)
METHOD = re.compile(r"^    (?:pub )?(?:final )?fn (\w+)", re.M)
IMPL = re.compile(r"^impl(?:<[^{}]*?>)? (\w+)(?:<[^{}]*?>)? \{$", re.M)
USE = re.compile(r"^(?:#\[doc\((hidden)\)\]\n)?pub use ([^;]+);", re.M | re.S)
MODULE = re.compile(r"(?<!#\[doc\(hidden\)\]\n)^pub mod (\w+);", re.M)
WIDTH = 600
CLAUSE = re.compile(r"\n\s*(?:requires|ensures|ghost)\b|\s*\n?\s*\{|;")
ENDS_BLOCK = re.compile(r"^\}", re.M)


def doc_above(text, start):
    """Returns the first sentence of the doc comment above a position in a source."""
    lines = []
    for line in reversed(text[:start].rstrip("\n").split("\n")):
        if line.strip().startswith("///"):
            lines.insert(0, line.strip().removeprefix("///").strip())
        elif not line.strip().startswith("#["):
            break
    paragraph = " ".join(itertools.takewhile(bool, lines))
    sentence = re.match(r"(.*?\.)(?: [A-Z`\[]|$)", paragraph)
    return re.sub(r"\[(`[^`]+`)\](?:\([^)]*\))?", r"\1", sentence.group(1) if sentence else paragraph)


def signature(text, start):
    """Returns a function's signature without its contract, on one line. `start` is a position before its `fn`."""
    depth, at = 0, text.index("fn ", start)
    begun = at
    while True:
        char = text[at]
        if char in "([":
            depth += 1
        elif char in ")]":
            depth -= 1
        elif depth == 0 and CLAUSE.match(text, at):
            break
        at += 1
    found = " ".join(text[begun:at].split())
    found = re.sub(r",? where .*", "", found)
    found = found.replace("( ", "(").replace(", )", ")").replace("< ", "<").replace(", >", ">")
    return found.replace("<, ", "<")


def reexports(text, hidden=False):
    """Yields the path and the name of each re-export by `pub use`: of those that readers see, or, with `hidden`, of those under `#[doc(hidden)]`."""
    for mark, use in USE.findall(text):
        if bool(mark) != hidden:
            continue
        path, _, names = " ".join(use.split()).partition("{")
        if names:
            for name in names.rstrip("} ").split(","):
                if name.strip():
                    yield path.rstrip(":"), name.strip()
        else:
            path, _, name = path.rpartition("::")
            yield path, name


class Crate:
    """Finds the public names of a crate, and what each is."""

    def __init__(self, name):
        self.name = name
        self.folder = TOP / "crates" / name / "src"
        self.files = [path.read_text(encoding="utf-8") for path in sorted(self.folder.rglob("*.rt"))]

    def names(self, crates, folder="", at=""):
        """Yields the names that users can import from the crate, or from its module in `folder`: the crate that defines the name, the name,
        and the path of its module in the user's crate."""
        text = self.module(folder)
        for path, name in reexports(text):
            home = crates.get(path.split("::")[0], self)
            yield home.home_of(crates, name), name, at
            if home is not self:
                yield from home.names(crates, f"{name}/", f"{at}{name}::")
        for module in MODULE.findall(text):
            yield from self.names(crates, f"{folder}{module}/", f"{at}{module}::")
        for head in HEAD.finditer(text):
            if not head.group(1):
                yield self, head.group(3), at

    def module(self, folder):
        """Returns the text of the module in a folder of the crate, of the crate's root without one; an empty text where there is no such module."""
        path = self.folder / f"{folder.rstrip('/') or 'lib'}.rt"
        return path.read_text(encoding="utf-8") if path.exists() else ""

    def definition(self, name):
        """Returns the text of the file in which the crate defines a name, and the match of its head; None where the crate doesn't define it."""
        for text in self.files:
            for head in HEAD.finditer(text):
                if head.group(3) == name and not head.group(1):
                    return text, head
        return None

    def home_of(self, crates, name):
        """Returns the crate that defines a name which this one has: itself, or the one from which it re-exports the name."""
        if self.definition(name):
            return self
        for path, handed in itertools.chain.from_iterable(reexports(text) for text in self.files):
            home = crates.get(path.split("::")[0], self)
            if handed == name and home is not self:
                return home.home_of(crates, name)
        return self

    def is_internal(self, name):
        """Tests whether the crate hides a name that it defines from readers."""
        text, head = self.definition(name)
        return is_hidden(text, head.start()) or any(name == hidden for _, hidden in reexports(self.module(""), hidden=True))

    def is_law(self, name):
        """Tests whether a name that the crate defines is a law."""
        text, head = self.definition(name)
        return head.group(2) == "fn" and is_law(text, head.start())

    def lines_of(self, name, path):
        """Yields the lines for a name that the crate defines. `path` is the module that users import it from, empty for the crate's root."""
        text, head = self.definition(name)
        kind, imported = head.group(2), f" (import `{path}{name}`)" if path else ""
        what = doc_above(text, head.start())
        if kind == "fn":
            yield f"- `{signature(text, head.start())}`{imported}: {what}"
            return
        yield f"- **`{name}`** ({kind}){imported}: {what}{parts_of(kind, text, head)}"
        if kind == "trait" and not text[head.start():text.index("\n", head.start())].endswith("{}"):
            yield from self.methods(text[head.start():ENDS_BLOCK.search(text, head.start()).start()], METHOD)
        for other in self.files:
            for impl in IMPL.finditer(other):
                if impl.group(1) == name:
                    yield from self.methods(other[impl.start():ENDS_BLOCK.search(other, impl.start()).start()], HEAD)

    def methods(self, text, pattern):
        """Yields a line for each method that a pattern finds in a text, but for laws and hidden ones."""
        for method in pattern.finditer(text):
            if not is_law(text, method.start()) and not is_hidden(text, method.start()):
                yield f"  - `{signature(text, method.start())}`: {doc_above(text, method.start())}"


def parts_of(kind, text, head):
    """Returns a sentence with the public fields of a struct or the variants of an enum; an empty text where there are none."""
    begun = head.end()
    if kind not in ("struct", "enum") or ";" in text[begun:text.index("\n", begun)]:
        fields = re.match(r"[^\n;]*\((pub [^;]*)\);", text[begun:]) if kind == "struct" else None
        return f" Field: `{fields.group(1).removeprefix('pub ')}`." if fields else ""
    body = text[text.index("{", begun) + 1:ENDS_BLOCK.search(text, begun).start()]
    body = re.sub(r"^\s*(//|#\[).*\n", "", body, flags=re.M)
    found, depth, part = [], 0, ""
    for char in body:
        depth += (char in "({[<") - (char in ")}]>")
        if char == "," and depth == 0:
            found.append(" ".join(part.split()))
            part = ""
        else:
            part += char
    found.append(" ".join(part.split()))
    if kind == "struct":
        found = [part.removeprefix("pub ") for part in found if part.startswith("pub ")]
    found = [re.sub(r", \}", " }", part) for part in found if part]
    words = {"struct": ("Field", "Fields"), "enum": ("Variant", "Variants")}[kind]
    return f" {words[len(found) > 1]}: {', '.join(f'`{part}`' for part in found)}." if found else ""


def is_law(text, start):
    """Tests whether the body of a function is empty: then its contract is a law."""
    body = re.compile(r"^( *)\{\}?$|\{\}$|^( *)\{$", re.M).search(text, start)
    return bool(body) and body.group(0).strip() == "{}"


def is_hidden(text, start):
    """Tests whether an attribute above a position hides it from readers."""
    lines = (line.strip() for line in reversed(text[:start].rstrip("\n").split("\n")))
    return "#[doc(hidden)]" in itertools.takewhile(lambda line: line.startswith("#["), lines)


def packed(lines):
    """Returns the lines, with short neighbors joined into one: functions, methods, and a type with its only line of methods."""
    lines = packed_calls(lines)
    out = []
    for line, after in zip(lines, [*lines[1:], ""]):
        is_only = line.startswith("  - ") and out[-1].startswith("- **") and not after.startswith("  - ")
        if is_only and len(out[-1]) + len(line) <= WIDTH:
            out[-1] = f"{out[-1]} · {line[4:]}"
        else:
            out.append(line)
    return out


def packed_calls(lines):
    """Returns the lines, with neighbors joined that aren't types with methods, as long as the line isn't longer than WIDTH."""
    out, indent = [], None
    for line in lines:
        begun = re.match(r" *- (?=`|\*\*`\w+`\*\* \((?:const|type)\))", line)
        if begun and indent == begun.group(0) and len(out[-1]) + len(line) <= WIDTH:
            out[-1] = f"{out[-1]} · {line[begun.end():]}"
        else:
            out.append(line)
        indent = begun.group(0) if begun else None
    return out


def page():
    """Returns the text of the page, and how many items it has."""
    crates = {path.name: Crate(path.name) for path in (TOP / "crates").iterdir() if (path / "src/lib.rt").exists()}
    listed, lines = set(), [
        "# All calls", "",
        "What the four crates that users import from, and the engine's crates have, each with its signature and its first sentence. A name is",
        "imported from the crate's root (`use raft_records::LogBatch;`) unless its module is named. `make calls` writes this page from the sources.",
        "What exactly a call does, and what it asks of its caller (`requires`), is said by its contract, which stands with it in `crates/`. Laws are",
        "functions that compute nothing: their contracts are facts. [DEFINITIONS.md](DEFINITIONS.md) has those that say a promise; others say what their names do.", "",
    ]
    for user in USERS_CRATES:
        lines += [f"## `{user}`", ""]
        names = [(home, name, path) for home, name, path in crates[user].names(crates) if home.definition(name)]
        paths, laws = {}, []
        for home, name, path in names:
            paths[home, name] = min(path, paths.get((home, name), path), key=len)
        for (home, name), path in paths.items():
            if (home, name) in listed or home.is_internal(name):
                continue
            listed.add((home, name))
            if home.is_law(name):
                laws.append(f"`{path}{name}`")
            else:
                lines += home.lines_of(name, path)
        lines += [f"- Laws: {', '.join(laws)}."] if laws else []
        lines.append("")
    return "\n".join(packed(lines)), sum(bool(re.match(r" *- ", line)) for line in lines)


def main():
    made, count = page()
    if "--check" in sys.argv[1:]:
        if not PAGE.exists() or PAGE.read_text(encoding="utf-8") != made:
            sys.exit("docs/CALLS.md isn't what the sources say: run `make calls`")
    else:
        PAGE.write_text(made, encoding="utf-8")
    print(f"docs/CALLS.md: {count} items")


if __name__ == "__main__":
    main()
