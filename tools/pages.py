#!/usr/bin/env python3
"""Checks that what the pages name is there.

    pages.py    fails where a link of a page leads to no file, heading or line; where a name in a page is nowhere in the sources (but for
                pages that have names of raft-engine); and where a recipe of docs/MAINTAINING.md names what isn't in the crates of its row
"""

import re
from itertools import product
from pathlib import Path

TOP = Path(__file__).resolve().parent.parent
PAGES = [TOP / "README.md", *sorted(TOP.glob("docs/*.md")), *sorted(TOP.glob("crates/*/*.md")), *sorted(TOP.glob("rust/*.md"))]
KINDS = (".rt", ".rs", ".antt", ".py", ".sh", ".md")

# Pages whose names aren't all of this repository: they speak of raft-engine's, of bytes, or of crates and commands that a reader makes and has.
OTHER_NAMES = {TOP / page for page in ("README.md", "docs/DIFFERENCES.md", "docs/FORMAT.md", "docs/MAINTAINING.md", "rust/README.md")}
# Names of std and of the toolchain, and of examples; and parts of names of several calls.
KNOWN = {"SendError", "Processes", "my_store", "_desc", "apply_", "_writes"}


def headings(page):
    """Returns the anchors of a page's headings, as GitHub makes them."""
    found = set()
    for title in re.findall(r"^#+ (.*)$", page.read_text(), re.M):
        text = re.sub(r"\[([^\]]*)\]\([^)]*\)", r"\1", title).replace("`", "").lower()
        found.add(re.sub(r"[^\w\- ]", "", text).replace(" ", "-"))
    return found


def text_of(page):
    """Returns the text of a page, without its blocks of code."""
    return re.sub(r"^```.*?^```|^    .*?$", "", page.read_text(), flags=re.S | re.M)


def broken_links(page):
    """Yields a line for each link of a page that leads nowhere."""
    for target in re.findall(r"\]\(([^)\s]+)\)", text_of(page)):
        if target.startswith("http"):
            continue
        path, _, anchor = target.partition("#")
        file = page.parent / path if path else page
        line = re.fullmatch(r"L(\d+)", anchor)
        if not file.exists():
            yield f"there is no file {target}"
        elif line and int(line.group(1)) > len(file.read_text().splitlines()):
            yield f"{path} has fewer lines than {anchor}"
        elif anchor and not line and anchor not in headings(file):
            yield f"there is no heading {target}"


def names_in(text):
    """Returns what stands between backticks in a text, but for commands of the Makefile."""
    return [name for name in re.findall(r"`([^`\n]+)`", text) if not name.startswith("make ")]


def spelled_out(name):
    """Returns all names that a name with braces stands for, as `{a,b}_c` does for two."""
    parts = re.split(r"\{([^}]*)\}", name)
    choices = [part.split(",") if at % 2 else [part] for at, part in enumerate(parts)]
    return ["".join(choice) for choice in product(*choices)]


class Sources:
    """The files in some folders of the repository, and the words in them."""

    def __init__(self, folders, kinds=KINDS):
        found = [path for folder in folders for path in folder.rglob("*") if path.suffix in kinds]
        self.paths = [path for path in found if not {"out", "target"} & set(path.parts)]
        self.words = {word for path in self.paths for word in re.findall(r"\w+", path.read_text())}
        self.words |= {path.stem for path in self.paths} | {path.name for folder in folders for path in folder.iterdir()}

    def has(self, name):
        """Tests whether there is a file of this name, or each word of the name is in some file."""
        if name.endswith(KINDS):
            return any(f"/{path.relative_to(TOP)}".endswith(f"/{name}") for path in self.paths)
        return all(word in self.words for word in re.findall(r"\w+", name))


def unknown_names(page, sources):
    """Yields a line for each name in a page that is nowhere in the sources."""
    words = {word for name in names_in(text_of(page)) for word in re.findall(r"[A-Za-z_]\w{3,}", name)}
    return (f"{word} stands nowhere in the sources" for word in sorted(words - sources.words - KNOWN))


def places_of(text):
    """Returns the folders that a row or a bullet is about: those of the crates that it names, and rust/ and tools/ if it names them."""
    crates = [TOP / "crates" / name for name in sorted(set(re.findall(r"`(raft_\w+|raftlog)`", text))) if (TOP / "crates" / name).exists()]
    return crates + [TOP / name for name in ("rust", "tools") if f"`{name}/" in text]


def lost_names():
    """Yields a line for each name in the recipes that is in none of the folders that its row or bullet is about."""
    recipes = re.search(r"^## Recipes$(.*?)^## ", (TOP / "docs/MAINTAINING.md").read_text(), re.S | re.M).group(1)
    for line in recipes.splitlines():
        if not line.startswith(("|", "- ")) or (places := places_of(line)) == []:
            continue
        sources = Sources(places)
        for one in (one for name in names_in(line) for one in spelled_out(name)):
            if not (TOP / one).exists() and not (TOP / "crates" / one).exists() and not sources.has(one):
                yield f"{one} isn't in {', '.join(str(place.relative_to(TOP)) for place in places)}"


def main():
    everything = Sources([TOP / "crates", TOP / "rust", TOP / "tools"], (*KINDS[:-1], ".edit", ".toml"))
    wrong = [f"{page.relative_to(TOP)}: {fault}" for page in PAGES for fault in broken_links(page)]
    wrong += [f"{page.relative_to(TOP)}: {fault}" for page in PAGES if page not in OTHER_NAMES for fault in unknown_names(page, everything)]
    wrong += [f"docs/MAINTAINING.md: {fault}" for fault in lost_names()]
    if wrong:
        raise SystemExit("\n".join(wrong))
    print(f"{len(PAGES)} pages: links lead somewhere, and what pages and recipes name is there")


main()
