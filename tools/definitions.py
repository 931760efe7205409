"""Reads the definitions in `specs/`, and finds those that others name. `believe.py` makes its pages with it."""

import re
from pathlib import Path

TOP = Path(__file__).resolve().parent.parent

NAME = r"[A-Za-z_][A-Za-z0-9_']*"
WORD = re.compile(rf"(?<![A-Za-z0-9_'.])({NAME})((?:\.{NAME})*)")
HEAD = re.compile(rf"(?:(?:abbrev|unfoldable|pub) )*(?:(record|data) )?({NAME})")
BINDERS = re.compile(rf"[({{]\s*({NAME}(?:\s+{NAME})*)\s*:|λ\s*((?:{NAME}\s+|\([^)]*\)\s*)*{NAME})\s*\.")
IMPORT = re.compile(r"(?:unfoldable )?(?:pub )?use Rattle\.([\w.◌]+?)(?:\.\{(.*?)\})?(?: as (\w+))?$", re.S)
USE = re.compile(r"(?:unfoldable )?(?:pub )?(?:use|mod) ")
STARTS = ("abbrev ", "unfoldable ", "pub ", "record ", "data ")


class Definition:
    """A definition in a file of `specs/`: its lines, with the comment above it."""

    def __init__(self, place, line, lines):
        self.place = place
        self.line = line
        self.lines = lines
        self.code = [text for text in lines if not text.startswith("--")]
        kind, self.name = HEAD.match(self.code[0]).groups()
        body = "\n".join(self.code)
        self.made = set(re.findall(rf"^  ({NAME}) :", body, re.M)) if kind == "data" else set()
        self.bound = self.bound_names(kind, body)

    def lines_but(self, passed):
        """Returns the lines of code whose names are followed: all but those of a definition or of a field of a record that is in `passed`."""
        whole = f"{self.place.module}.{self.name}"
        if whole in passed:
            return []
        lines, followed = [], True
        for line in self.code:
            field = re.match(rf"  pub ({NAME}) :", line)
            if field:
                followed = f"{whole}.{field.group(1)}" not in passed
            if followed:
                lines.append(line)
        return lines

    def bound_names(self, kind, body):
        """Returns the names that the definition itself binds: fields, parameters, and variables of patterns."""
        bound = {self.name}
        for several in BINDERS.findall(body):
            bound.update(re.findall(NAME, " ".join(several)))
        if kind == "record":
            bound.update(re.findall(rf"^  pub ({NAME}) :", body, re.M))
        for line in self.code[1:]:
            case = re.match(rf"{re.escape(self.name)} (.*?) =(?: |$)", line)
            if case:
                named = {name for name, more in WORD.findall(case.group(1)) if not more and name[0].islower()}
                bound.update(named - self.place.names.keys())
        return bound


class File:
    """A file of `specs/`: its imports and definitions."""

    def __init__(self, crate, path):
        self.crate = crate
        self.path = path
        self.module = ".".join((crate, *path.relative_to(TOP / "crates" / crate).with_suffix("").parts))
        self.names, self.modules = {}, {}
        self.own = {}
        text = path.read_text()
        lines = text.splitlines()
        self.read_imports([block for block in re.split(r"\n(?=\S)", text) if re.match(USE, block)])
        self.read_definitions(lines)

    def read_imports(self, blocks):
        """Notes what each imported name and module stands for."""
        for block in blocks:
            found = IMPORT.match(block.strip())
            if found is None:
                continue
            module, names, alias = found.groups()
            if names is None:
                self.modules[alias or module.split(".")[-1]] = module
                continue
            for name in filter(None, (word.strip() for word in names.split(","))):
                name, _, other = name.partition(" as ")
                self.names[other or name] = (module, name)

    def read_definitions(self, lines):
        """Finds the definitions among the lines, each with the comment above it."""
        start = None
        for at, line in enumerate([*lines, ""]):
            if start is not None and (not line.strip() or USE.match(line)):
                self.add(lines, start, at)
                start = None
            elif start is not None and line.startswith(("--", *STARTS)) and not self.is_comment(lines[start:at]):
                self.add(lines, start, at)
                start = at
            elif start is None and line.strip() and line[0] != " " and not USE.match(line):
                start = at

    @staticmethod
    def is_comment(lines):
        return all(line.startswith("--") for line in lines)

    def add(self, lines, start, end):
        """Adds the definition in the lines from `start` on and before `end`, unless they are a comment alone."""
        if self.is_comment(lines[start:end]):
            return
        found = Definition(self, start + 1, lines[start:end])
        if found.name in self.own:
            raise SystemExit(f"{self.path}: {found.name} is defined twice")
        self.own[found.name] = found
        for name in found.made:
            self.own.setdefault(name, found)


class Reading:
    """Follows names from definition to definition, and keeps what it met."""

    def __init__(self, crates, files, passed=()):
        self.crates, self.files, self.passed = crates, files, passed
        self.met, self.needs = {}, {}
        self.given, self.types, self.unknown = set(), set(), set()

    def read(self, roots):
        """Follows the names in the clauses of calls, and returns itself. It ends the program where a name leads nowhere."""
        for root in roots:
            for word, more in WORD.findall(root.clauses):
                found = self.look_up(None, root.names, root.modules, word, more)
                if found:
                    self.meet(*found, root.source)
            for name in operators_in(root.clauses, root.names):
                self.meet(*root.names[name], root.source)
        if self.unknown:
            raise SystemExit("names that lead nowhere: " + ", ".join(sorted(self.unknown)))
        return self

    def file_of(self, module):
        """Returns the file of a module, also where its crate re-exports that of another one; None where there is none."""
        if module in self.files:
            return self.files[module]
        crate, _, rest = module.partition(".specs.")
        root = self.files.get(f"{crate}.specs.Lib")
        first, _, inner = rest.partition(".")
        handed = root.modules.get(first) if root else None
        if handed is None or handed == module:
            return None
        return self.file_of(handed + (f".{inner}" if inner else ""))

    def meet(self, module, name, asked):
        """Notes a name of a module, and follows it. Returns its definition; None where it has none in `specs/`. `asked` is the file that names it."""
        if module.split(".")[0] not in self.crates:
            self.given.add((module.split(".")[0], name))
        elif ".declared." in module:
            self.meet_type(module, name)
        elif (file := self.file_of(module)) is None:
            self.unknown.add(f"{asked}: {module}.{name}")
        elif name in file.own:
            self.follow(file.own[name])
            return file.own[name]
        elif name in file.names:
            return self.meet(*file.names[name], asked)
        else:
            self.unknown.add(f"{asked}: {module}.{name}")
        return None

    def meet_type(self, module, name):
        """Notes a type of the code, or the type of a variant."""
        crate, _, rest = module.partition(".specs.declared.")
        parts = rest.split(".")
        if "TheVariants" in parts:
            parts = parts[: parts.index("TheVariants")]
        place, name = (parts[:-1], parts[-1]) if len(parts) > 1 else (parts, name)
        self.types.add((crate, "/".join(place), name))

    def look_up(self, file, names, modules, word, more):
        """Returns the module and the name that a word in a file stands for; None where it isn't imported or defined there. `more` is what
        follows the word behind dots."""
        if word in modules:
            parts = more.strip(".").split(".")
            return (modules[word], parts[0]) if parts[0] else None
        if word in names:
            return names[word]
        if file is not None and word in file.own:
            return file.module, word
        return None

    def follow(self, definition):
        """Notes a definition, and follows the names in it."""
        key = (definition.place.module, definition.name)
        if key in self.met:
            return
        self.met[key] = definition
        needs = self.needs.setdefault(key, set())
        file = definition.place
        for line in definition.lines_but(self.passed):
            for word, more in WORD.findall(line):
                if word in definition.bound and word not in file.modules:
                    continue
                found = self.look_up(file, file.names, file.modules, word, more)
                if found and (other := self.meet(*found, file.path.name)) is not None:
                    needs.add((other.place.module, other.name))
            for name in operators_in(line, file.names):
                self.meet(*file.names[name], file.path.name)


def operators_in(line, names):
    """Returns those of the names that are operators which stand in a line."""
    tokens = set(re.findall(rf"{NAME}|∷|==|[^\w\s(){{}}\[\],.:=λ→∷]+", line))
    return [name for name in names if "◌" in name and tokens.issuperset(filter(None, name.split("◌")))]


class Root:
    """A call whose clauses say what is proved: all of its clauses, or those with given names."""

    def __init__(self, crate, source, call, clauses=None):
        self.path, self.source, self.call = TOP / "crates" / crate / source, source, call
        text = self.path.read_text()
        self.names, self.modules = {}, {}
        for module, listed, alias in re.findall(r"^ghost use Rattle\.([\w.]+?)(?:\.\{(.*?)\})?(?: as (\w+))?;", text, re.S | re.M):
            if not listed:
                self.modules[alias or module.split(".")[-1]] = module
            for name in filter(None, (word.strip() for word in listed.split(","))):
                name, _, other = name.partition(" as ")
                self.names[other or name] = (module, name)
        # (a method of a trait has no body, and ends its last clause with a semicolon)
        head = re.search(rf"^( *)(?:pub )?fn {call}\b.*?(?:^\1\{{|;$)", text, re.S | re.M)
        if head is None:
            raise SystemExit(f"{source}: no function {call}")
        self.line = text.count("\n", 0, head.start()) + 1
        self.clauses = self.chosen(head.group(0).rstrip("{;\n "), clauses)

    def chosen(self, text, names):
        """Returns the clauses in a function's head, those with these names if names are given, without comments."""
        clauses = re.split(r"^ *(?=(?:requires|ensures) )", text, flags=re.M)[1:]
        clauses = [re.sub(r"\n *//.*|\n *(?=\n|$)", "", clause).rstrip() for clause in clauses]
        if names is not None:
            clauses = [clause for name in names for clause in clauses if re.match(rf"\w+ {name} ", clause)]
            if len(clauses) != len(names):
                raise SystemExit(f"{self.source}: {self.call} lacks one of the clauses {', '.join(names)}")
        return "\n".join(re.sub(r"\n +", "\n    ", clause) for clause in clauses)


def specs_of(crates):
    """Returns the files of `specs/` of these crates, by module."""
    files = {}
    for crate in crates:
        for path in sorted((TOP / "crates" / crate / "specs").rglob("*.antt")):
            file = File(crate, path)
            files[file.module] = file
    return files
