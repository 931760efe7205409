#!/usr/bin/env python3
"""Makes the pages of what a reader has to believe: the definitions that the proved clauses name.

    believe.py            writes docs/BELIEVE.md and docs/BELIEVE_ENGINE.md
    believe.py --check    fails where one of them isn't what the definitions say now

It follows the names in the clauses of `recover`, and in those of the engine's theorem, to the definitions in `specs/`, from those to the
names that they use, and so on. The pages list what it met, each definition after those that it uses. Names of std, and types of the code,
are listed by name alone. On the engine's page some names aren't followed, each for a reason that the page gives (`JOINTS`, `HANDED_ON`).
"""

import re
import sys

from definitions import TOP, Reading, Root, specs_of

WIDTH = 150
RECOVERY, ENGINE = TOP / "docs/BELIEVE.md", TOP / "docs/BELIEVE_ENGINE.md"
FILE_CALLS = ("append", "rotate", "sync", "delete_oldest", "truncate", "read")

# What the engine's page begins with: what is promised, and the calls whose clauses say it, some of them by these clauses alone.
PROMISES = [
    ("What lasts of an engine, whenever the machine crashes", [("raft_engine", "src/engine.rt", "nothing_synced_is_lost")]),
    ("What is noted of the asks of its files, also where a call of them fails", [("raft_files", "src/engine_files.rt", call, ("ok", "err")) for call in FILE_CALLS]),
    ("What is written and synced", [("raft_engine", "src/engine.rt", "write", ("ok",)), ("raft_engine", "src/engine.rt", "sync", ("ok",)), ("raft_engine", "src/restarts.rt", "synced_batches_last")]),
    ("What is found again of the files that a crash leaves", [("raft_engine", "src/restarts.rt", "what_is_left_is_opened")]),
    ("The same over any number of restarts", [("raft_engine", "src/lives.rt", law) for law in ("synced_batches_stay_synced", "written_entries_are_found")]),
    ("What is read", [("raft_engine", "src/engine/reading.rt", "get_entry", ("only", "ok", "contents")), ("raft_engine", "src/engine/reading.rt", "fetch_entries_to", ("only", "ok", "unchanged"))]),
]

# Names that join two clauses: what one of them gives, the other one takes. What such a name says needn't be known: the two together
# say the same whatever it is. Each with the call of which the clauses lead to it, beside the law on the page.
JOINTS = {
    "raft_engine.specs.Opened.IsOpened": ("raft_engine", "src/engine.rt", "open"),
    "raft_engine.specs.Unopened.IsOpeningRefusal": ("raft_engine", "src/engine.rt", "open"),
    "raft_engine.specs.Unopened.AreUnrecoveredAs": ("raft_engine", "src/engine.rt", "open"),
    "raft_engine.specs.Unopened.AreUngroupedAs": ("raft_engine", "src/engine/over.rt", "open_over"),
    "raft_recover.specs.Recovery.AreBothRecovered": ("raft_recover", "src/recovery.rt", "recover_both"),
}

# Facts that further laws go on with, and that add nothing to what the page says to users.
OPENS = "the clause `opens` of `IsFoundByRestarts` has what follows"
HANDED_ON = {
    "raft_engine.specs.Lasting.AreFoundIn.rows": f"each group stands in a row, as `open` asks; {OPENS}",
    "raft_engine.specs.Lasting.IsLastingAfter.put": "which acts put which batches; `moments_go_on` says what follows",
    "raft_engine.specs.Lasting.IsLastingAfter.of_version": f"no last file is of the other version; {OPENS}",
    "raft_engine.specs.Lasting.IsLastingAfter.sealed": f"the entry blocks of a last rewrite file are sound; {OPENS}",
    "raft_engine.specs.Lasting.IsLastingAfter.ends": "entries end within their blocks; `WrittenEntriesAreFound` has what follows",
    "raft_engine.specs.Lasting.IsLastingAfter.joined": "rewritten entries join the appended ones; `own_files_are_told_nothing` says what follows",
    "raft_engine.specs.Restarts.AreOpenable.accepted": f"which files are accepted; {OPENS}",
    "raft_engine.specs.Restarts.AreOpenable.readable": f"that they can be read; {OPENS}",
    "raft_engine.specs.Restarts.HaveGroupsInRows": f"each group stands in a row; {OPENS}",
    "raft_engine.specs.WrittenBatch.IsOneMore.asked": "what a write asks; `SyncedBatchesLast` has what follows",
    "raft_engine.specs.WrittenBatch.IsOneMore.held": "the append files hold the batch behind the others; `SyncedBatchesLast` has what follows",
    "raft_engine.specs.WrittenBatch.IsOneMore.applied": "what the tables become; `IsLasting` says which records they have",
    "raft_engine.specs.WrittenBatch.IsOneMore.untold": "what the rewrite queue is told later; nothing on this page speaks of it",
    "raft_engine.specs.Reads.AreReadByBlocks.once": "how many blocks are read; it says nothing of the bytes",
}

# What the engine's other calls say, of which the page counts the definitions alone.
OTHERS = [
    ("what a write changes", [("raft_engine", "src/engine.rt", "write", ("ok",))]),
    ("what an opening finds, asks and cuts off", [("raft_engine", "src/engine.rt", "open_telling", ("ok", "recovered", "damaged", "accepted"))]),
    ("why an opening is refused, and what it leaves then", [("raft_engine", "src/engine.rt", "open_telling", ("err",))]),
    ("what moves, and which files are deleted", [
        ("raft_engine", "src/engine/rewrite.rt", "rewrite", ("ok",)),
        ("raft_engine", "src/engine/again.rt", "rewrite_again", ("ok",)),
        ("raft_engine", "src/engine.rt", "purge_expired_files", ("ok",)),
        ("raft_engine", "src/engine/again.rt", "purge_rewrite_files", ("ok",)),
    ]),
]

# Where two definitions of the page say one thing, and the laws that lead from one to the other.
LEVELS = [
    "- **Acts and deeds.** What is proved of an engine is proved by deeds (`Deed`, `MayStand`, `IsLeft` and `IsSafe` of `raft_engine_laws`), of batches in place of bytes. None of these is here, but the filter `in_files_from`: what a crash leaves is said of acts alone (`Disk`), and laws lead from there to the deeds (`asks_do_deeds`, `files_that_are_left_hold_what_may_be_left`).",
    "- **Torn and cut.** `FilesHoldTorn` says of files with a torn tail what `FilesHold` says of them once they are cut (`AreCut`), by the clauses `cut` and `uncut` of the law `torn_tails_are_found`: who believes the one needn't read the other.",
    "- **Readings and openings.** `AreFoundIn` speaks of every reading of both queues, `RestartsFind` of every engine that is opened and every recovery. The second follows from the first (`restarts_find_what_lasts`), and `IsKeptByRestarts` has `IsLasting` as its first field.",
    "- **Two disks.** `MayStandUnordered`, and what names it, is of a disk that writes pages in any order; for one that writes in order it may be passed over.",
]

HEAD = "Made by `tools/believe.py` (`make believe`); the full check refuses a page that is stale."
SHOWN = [
    "Below they are shown as they",
    "stand in `specs/`, each file after those that it uses, with line numbers; each definition has its comment above it or, where both are short, behind its",
    "first line.",
]


def in_order(keys, needs, place):
    """Returns the keys so that each comes after those that it needs, and otherwise in the order of `place`. `needs` has for each key the
    keys that it needs."""
    done, out = set(), []

    def put(key, above):
        if key in done or key in above:
            return
        for other in sorted(needs.get(key, ()), key=place):
            if other in keys:
                put(other, above | {key})
        done.add(key)
        out.append(key)

    for key in sorted(keys, key=place):
        put(key, frozenset())
    return out


def type_line(crate, place, name):
    """Returns the file and the line in which the module `place` of a crate declares a type."""
    for path in sorted((TOP / "crates" / crate / "src").rglob("*.rt")):
        module = "/".join(path.relative_to(TOP / "crates" / crate / "src").with_suffix("").parts)
        if module != place:
            continue
        for at, line in enumerate(path.read_text().splitlines(), 1):
            if re.match(rf"pub(\(crate\))? (struct|enum|type) {name}\b", line):
                return path, at
    raise SystemExit(f"no type {name} in {crate}/{place}")


def link(path, at=None):
    """Returns the path from docs/ to a file, with the anchor of a line."""
    short = path.relative_to(TOP)
    return f"../{short}" + (f"#L{at}" if at else "")


def wrapped(text, width=WIDTH):
    """Returns the lines of a text that is wrapped at a width."""
    lines, line = [], ""
    for word in text.split(" "):
        if line and len(line) + 1 + len(word) > width:
            lines.append(line)
            line = word
        else:
            line = f"{line} {word}".strip()
    return [*lines, line]


def shown(found):
    """Returns the lines of a definition with their numbers, as code. A comment of one line is put behind the definition's first line, if
    both are short."""
    first, lines = found.line, list(found.lines)
    if len(lines) - len(found.code) == 1 and lines[0].startswith("--") and len(lines[0]) + len(lines[1]) <= WIDTH:
        lines[:2] = [f"{lines[1]}  {lines[0]}"]
        first += 1
    return [f"    {number:4} {text}" for number, text in enumerate(lines, first)]


class Listing:
    """Lists what a reading met, but for what another reading, that of another page, met too."""

    def __init__(self, reading, besides=None):
        self.reading = reading
        self.crates, self.files = reading.crates, reading.files
        known = besides.met.keys() if besides else ()
        self.keys = [key for key in reading.met if key not in known]
        self.given = reading.given - (besides.given if besides else set())
        self.types = reading.types - (besides.types if besides else set())
        self.by_file = {}
        for key in self.keys:
            self.by_file.setdefault(key[0], []).append(key)
        self.modules = self.files_in_order()

    def files_in_order(self):
        """Returns the modules by crate, lowest first, each after those of its crate that it needs."""
        needs = {}
        for key, others in self.reading.needs.items():
            needs.setdefault(key[0], set()).update(other[0] for other in others if other[0] != key[0])

        def place(module):
            return self.crates.index(self.files[module].crate), module

        files = in_order(set(self.by_file), needs, place)
        return sorted(files, key=lambda module: place(module)[0])

    def size(self):
        """Returns in words how many definitions are listed, and how many lines of code they have."""
        return f"{len(self.keys)} definitions, {sum(len(self.reading.met[key].code) for key in self.keys)} lines"

    def contents(self):
        """Returns the lines of a list of contents: each crate with its files."""
        by_crate = {}
        for module in self.modules:
            file = self.files[module]
            by_crate.setdefault(file.crate, []).append(f"[{file.path.stem}](#{file.crate}-{file.path.stem.lower()})")
        return [f"- `{crate}`: " + ", ".join(named) for crate, named in by_crate.items()]

    def words(self, where=""):
        """Returns the lines that name words of libraries, and types of the code. `where` is put behind the sentences that introduce them."""
        out = ["", "## Words of std and of the kit's libraries", "", f"They come with the toolchain, and are listed here by name alone{where}."]
        for given in sorted({crate for crate, _ in self.given}, key=lambda crate: (crate != "std", crate)):
            listed = sorted((name for crate, name in self.given if crate == given), key=lambda n: (n.strip("◌").lower(), n))
            out += ["", *wrapped(f"Of `{given}`: " + ", ".join(f"`{name}`" for name in listed) + ".")]
        named = {}
        for crate, place, name in sorted(self.types, key=lambda t: (self.crates.index(t[0]), t[1:])):
            named.setdefault(crate, []).append(f"[`{name}`]({link(*type_line(crate, place, name))})")
        out += ["", "## Types of the code", "", f"Plain enums and structs, whose fields the definitions name{where}.", ""]
        return [*out, *(f"- of `{crate}`: " + ", ".join(types) for crate, types in named.items()), ""]

    def definitions(self):
        """Returns the lines that show all definitions, file by file."""
        out = []
        for module in self.modules:
            file = self.files[module]
            out.append(f"## [{file.crate} {file.path.stem}]({link(file.path)})")
            for key in sorted(self.by_file[module], key=lambda key: self.reading.met[key].line):
                out += shown(self.reading.met[key])
        return out


def recovery_page(listing, root):
    """Returns the text of the page of recovery, and its size in words."""
    size = f"{listing.size()} in {len(listing.modules)} files"
    out = [
        "# What a reader has to believe",
        "",
        HEAD,
        "",
        f"What is proved of recovery is the contract of [`{root.call}`]({link(root.path, root.line)}):",
        "",
        "```",
        root.clauses,
        "```",
        "",
        f"It says what it says by **{size}**, found by following names from these clauses. {SHOWN[0]}",
        SHOWN[1],
        f"{SHOWN[2]} No proof can tell whether they say what is meant. That is what a reader has to believe, and then has to believe no code.",
        f"What the engine's theorem adds is on [a page of its own]({ENGINE.name}).",
        "",
        "In the clauses, `result` and `segments` stand for plain values: what the call returns is seen as an `Accessor` (the map from",
        "region to table, the cleaned regions in order, the counts), a part of a file as a `Part` (its file, version, offset and bytes).",
        "The contracts of all other calls on them, such as those that look up a table or make a part, speak of the same values.",
        "",
        *listing.contents(),
        *listing.words(),
        *listing.definitions(),
    ]
    return "\n".join(out) + "\n", size


def promised(title, roots):
    """Returns the lines for one promise: its title, links to the calls that make it, and their clauses."""
    calls = ", ".join(f"[`{root.call}`]({link(root.path, root.line)})" for root in roots)
    named = (f"// {root.call}\n{root.clauses}" if len(roots) > 1 else root.clauses for root in roots)
    return [f"**{title}**: {calls}", "", "```", *named, "```", ""]


def passed_over(everything, page):
    """Returns the lines of a table of the names that aren't followed, each with its reason, and how large the page would be with them."""
    out = ["| not followed | why |", "|---|---|"]
    for name, call in JOINTS.items():
        root = Root(*call)
        out.append(f"| `{name.split('.')[-1]}` | joins the clauses of [`{root.call}`]({link(root.path, root.line)}) to the law |")
    for name, why in HANDED_ON.items():
        module, _, last = name.rpartition(".")
        whole = f"`{last}`" if (module, last) in page.met else f"`{last}` of `{module.split('.')[-1]}`"
        out.append(f"| {whole} | {why} |")
    return [*out, "", f"With these it would be {Listing(everything).size()}."]


def check_passed(page):
    """Ends the program where a name that isn't followed isn't met any more, or no longer joins what it should."""
    for name, call in JOINTS.items():
        module, _, last = name.rpartition(".")
        if (module, last) not in Reading(page.crates, page.files).read([Root(*call)]).met:
            raise SystemExit(f"the clauses of {call[2]} don't lead to {last}, which is to join them to a law")
        if (module, last) not in page.met:
            raise SystemExit(f"{last} is passed over, but isn't met")
    for name in HANDED_ON:
        of, _, last = name.rpartition(".")
        module, _, record = of.rpartition(".")
        found = page.met.get((module, record))
        if (of, last) not in page.met and not (found and any(line.startswith(f"  pub {last} :") for line in found.code)):
            raise SystemExit(f"{name} is passed over, but isn't met")


def added_by_others(page, recovery):
    """Returns the rows of a table that says how many definitions the clauses of other calls add to those of both pages."""
    shown = {**recovery.met, **page.met}
    out = []
    for title, calls in OTHERS:
        other = Reading(page.crates, page.files).read([Root(*call) for call in calls])
        for key in shown:
            other.met.pop(key, None)
        out.append(f"| {title} ({', '.join(f'`{call[2]}`' for call in calls)}) | {Listing(other).size()} |")
    return out


def engine_page(crates, files, recovery):
    """Returns the text of the page of the engine, and its size in words."""
    promises = [(title, [Root(*call) for call in calls]) for title, calls in PROMISES]
    roots = [root for _, several in promises for root in several]
    everything = Reading(crates, files).read(roots)
    page = Reading(crates, files, {*JOINTS, *HANDED_ON}).read(roots)
    check_passed(page)
    listing, all_of_it = Listing(page, recovery), Listing(page)
    size = f"{listing.size()} in {len(listing.modules)} files"
    out = [
        "# What a reader has to believe of the engine",
        "",
        HEAD,
        "",
        "What is [promised of an engine](../README.md#the-promises) where its calls succeed is said by these clauses (that an opening writes nothing else by `own_files_are_told_nothing`):",
        "",
        *(line for promise in promises for line in promised(*promise)),
        f"They say what they say by **{all_of_it.size()}**, found by following names from these clauses. **{size}** of them",
        f"stand here; [the page of recovery]({RECOVERY.name}) has the others. {SHOWN[0]}",
        SHOWN[1],
        f"{SHOWN[2]} No proof can tell whether they say what is meant.",
        "",
        "An engine is seen as a `KeptEngine`, and its files as the list of what was asked of them. What a crash may leave of that is said by `Disk` of `raft_files`; that a disk",
        "leaves nothing else is a premise ([in plain words](../README.md#premises-in-plain-words)). Read first [Asks](#raft_files-asks) and [Disk](#raft_files-disk), then",
        "[Records](#raft_engine_laws-records) (`live`), [Lasting](#raft_engine-lasting) and [Restarts](#raft_engine-restarts), and the others as these name them.",
        "",
        *listing.contents(),
        "",
        "## What isn't followed",
        "",
        "Some names aren't followed, since nobody has to know what they say. A name *joins* two clauses where one of them gives what the other one takes: `open` returns",
        "an engine that `IsOpened`, and the law says of each such engine which records it has. Other facts are handed on to further laws.",
        "",
        *passed_over(everything, page),
        "",
        "## Said on two levels",
        "",
        *LEVELS,
        "",
        "## What other calls add",
        "",
        "| what they say | definitions that are on neither page (a definition may count in several rows) |",
        "|---|---|",
    ]
    out += added_by_others(page, recovery) + listing.words(", but for those of the other page") + listing.definitions()
    return "\n".join(out) + "\n", f"{size}, {all_of_it.size()} in all"


def pages():
    """Yields the path of each page, its text, and its size in words."""
    crates = [line.split(":")[0].split()[0] for line in (TOP / "crates.txt").read_text().splitlines() if line and line[0] != "#"]
    files = specs_of(crates)
    root = Root("raft_recover", "src/recovery.rt", "recover")
    recovery = Reading(crates, files).read([root])
    yield RECOVERY, *recovery_page(Listing(recovery), root)
    yield ENGINE, *engine_page(crates, files, recovery)


def main(words):
    if words not in ([], ["--check"]):
        raise SystemExit(__doc__)
    for path, text, size in pages():
        name = path.relative_to(TOP)
        if not words:
            path.write_text(text)
        elif not path.exists() or path.read_text() != text:
            raise SystemExit(f"{name} isn't what the definitions say: `make believe` writes it anew")
        print(f"{name}: {size}")


main(sys.argv[1:])
