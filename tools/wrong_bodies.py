#!/usr/bin/env python3
"""Tries wrong bodies: edits of a crate's source that the prover has to refuse.

    tools/wrong_bodies.py [--applies] [--name] [--folder NAME] [CRATE..] [CRATE/EDIT..]

It tries crates/CRATE/wrong-bodies/*.edit of the named crates, or of all, in a copy of the repository. CRATE/EDIT is a single one, such as
`raft_table/absorb_by_own_queue`, with or without `.edit`. It lists the edits that are not refused, and those that only a proof file refuses:
the file names a step that the wrong body took away, which says nothing of the contract. The status is 1 where an edit is not refused.

    --applies              only checks that each edit can be applied, in must-fail/ too, and proves nothing
    --folder must-fail     tries the edits of that folder in the same way
    --name                 writes into each edit that is tried the clauses that refuse it, if it names none

A line `clause: NAME ..` of an edit names clauses (`ensures` stands for one without a name). Such an edit counts as refused only if the check
leaves one of these clauses unproved of a function that the edit changes. Where --name writes no line, an invariant of a loop or a premise of
a call refuses the body. The environment variable RT names the toolchain's command, if it isn't `rt`.

A line `test: tools/..` names the test that fails where no clause refuses the body: such an edit is applied, and not tried.

Wrong bodies of different functions share a check, since a function is proved from its own body and the contracts of what it calls. An edit is
tried once more by itself if the check says nothing of it, if a function below it was refused, or if a proof file names a step that is gone.
"""
import os
import re
import shlex
import shutil
import subprocess
import sys
import tempfile

ROOT = os.path.dirname(os.path.dirname(os.path.realpath(__file__)))
RT = shlex.split(os.environ.get("RT", "rt"))
FUNCTION = re.compile(r"( *)(?:pub(?:\([a-z]+\))? )?(?:final )?(?:const )?(?:unsafe )?(?:extern \"C\" )?fn (\w+)")
VERDICT = re.compile(r"^fn (\S+): (.*)", re.M)
WAITS = re.compile(r"it (?:calls|waits for)[^;]*")
ANSWER = re.compile(r"^(?:so far: )?(?:\./)?proofs/(\S+)/\w+\.antt:\d+:\d+: error", re.M)
# goals of a function that are left, and goals whose answer is wrong
LEFT = re.compile(r"`(returns[\w-]*)` of (?:\./)?proofs/(\S+)/\w+\.antt must prove")
WRONG = re.compile(r"^(?:so far: )?(?:\./)?(proofs/(\S+)/\w+\.antt):(\d+):\d+: error", re.M)
GONE = re.compile(r"^(?:so far: )?(?:note: )?(?:\./)?proofs/(?:(\S+)/)?\w+\.antt:\d+:\d+: .*(?:has no field|is not in scope|has no `|was not admitted)", re.M)
# a message that goes on in the next line, which is indented
BROKEN = re.compile(r"\n  (?=\S)")
PLACED = re.compile(r"^(?:so far: )?(note: )?\S+:\d+:\d+: .*", re.M)
UNREAD = re.compile(r"(?:\./)?(src/\S+):(\d+):\d+: error")


class Edit:
    """A wrong body: texts that each stand once in a file of the crate, and what replaces them."""

    def __init__(self, path):
        self.path, self.name, self.pairs, self.clauses = path, os.path.basename(path).removesuffix(".edit"), [], []
        self.test = None
        file = old = None
        with open(path, encoding="utf-8") as lines:
            for line in lines.read().split("\n"):
                if line.startswith("file: "):
                    file = line.removeprefix("file: ").strip()
                elif line.startswith("clause: "):
                    self.clauses += line.split()[1:]
                elif line.startswith("test: "):
                    self.test = line.removeprefix("test: ").strip()
                elif line.startswith("old: "):
                    old = line.removeprefix("old: ")
                elif line.startswith("new:"):
                    self.pairs.append((file, old, line.removeprefix("new:").removeprefix(" ")))

    def apply(self, texts):
        """Replaces the texts in those of the crate's files. Returns None, or why that can't be done; nothing is replaced then."""
        made = dict(texts)
        if not self.pairs:
            return "it replaces nothing"
        if self.test and not os.path.isfile(f"{ROOT}/{self.test}"):
            return f"there is no test {self.test}"
        for file, old, new in self.pairs:
            found = made.get(file, "").count(old) if old else 0
            if found != 1:
                return f"`{(old or '').strip()[:60]}` stands {found} times in {file}"
            made[file] = made[file].replace(old, new)
        texts.update(made)
        return None

    def name_clauses(self, clauses):
        """Writes these clauses into the edit, unless there are none or it names some."""
        if clauses and not self.clauses:
            self.clauses = sorted(clauses)
            with open(self.path, "a", encoding="utf-8") as file:
                file.write(f"clause: {' '.join(self.clauses)}\n")

    def functions(self, texts):
        """Returns the functions that the edit changes, as pairs of file and name. The name is None for a change outside of functions."""
        return {(file, enclosing(texts[file], texts[file].index(old))) for file, old, _ in self.pairs if old in texts.get(file, "")}


def enclosing(text, at):
    """Returns the name of the function around a position in a source; None where there is none."""
    lines, row = text.split("\n"), text.count("\n", 0, at)
    for start in range(row, -1, -1):
        head = FUNCTION.match(lines[start])
        if head:
            end = next((i for i in range(start, len(lines)) if lines[i].startswith(head[1] + "}")), len(lines))
            return head[2] if row <= end else None
    return None


def module_of(file):
    """Returns the path of the module in a file of src/."""
    parts = file.removeprefix("src/").removesuffix(".rt").split("/")
    return [] if parts == ["lib"] or parts == ["main"] else parts


class Crate:
    """A copy of a crate, in which wrong bodies are tried."""

    def __init__(self, name, folder):
        self.name, self.folder, self.texts = name, folder, sources(folder)

    def check(self, edits):
        """Checks the crate with these wrong bodies in it. Returns whether the crate is proved, or None where the check didn't reach the
        prover; for each function whether it was refused for its own body, and not only for a step that its proof file misses; and what the
        check printed. Keeps in `unproved` the clauses of each function that weren't proved."""
        texts = dict(self.texts)
        for edit in edits:
            edit.apply(texts)
        for file, text in texts.items():
            write(f"{self.folder}/{file}", text)
        ran = subprocess.run([*RT, "check"], cwd=self.folder, stdin=subprocess.DEVNULL, stdout=subprocess.PIPE, stderr=subprocess.STDOUT, text=True, errors="replace")
        for file, text in self.texts.items():
            write(f"{self.folder}/{file}", text)
        answered = {(self.name, *path.split("/")) for path in ANSWER.findall(ran.stdout)}
        verdicts = {tuple(name.split("::")): verdict for name, verdict in VERDICT.findall(ran.stdout)}
        gone = {(self.name, *path.split("/")) for path in GONE.findall(BROKEN.sub(" ", ran.stdout)) if path}
        refused = {name: (is_own(verdict) or name in answered) and name not in gone for name, verdict in verdicts.items()}
        self.unproved = self.clauses_left(ran.stdout)
        reached = ran.returncode == 0 or ran.returncode == 1 and re.search(r"^logic=not-proved", ran.stdout, re.M)
        return ran.returncode == 0 if reached else None, refused, ran.stdout

    def clauses_left(self, said):
        """Returns for each function the names of its clauses that a check didn't prove, or whose proof file it refused. `said` is what the
        check printed."""
        left = {}
        for goal, path in LEFT.findall(said):
            left.setdefault((self.name, *path.split("/")), set()).add(clause_of(goal))
        for file, path, row in WRONG.findall(said):
            with open(f"{self.folder}/{file}", encoding="utf-8") as lines:
                heads = [re.match(r"(?:pub )?(returns[\w-]*)", it) for it in lines.read().split("\n")[: int(row)]]
            goal = next((it[1] for it in reversed(heads) if it), None)
            if goal:
                left.setdefault((self.name, *path.split("/")), set()).add(clause_of(goal))
        return left

    def named(self, edit, functions):
        """Returns those of the functions that the edit changes. A method is named below the module of its type, which may be the one above
        that of its file."""
        found = []
        for file, function in edit.functions(self.texts):
            path = (self.name, *module_of(file))
            for above in (path, path[:-1]):
                named = [it for it in functions if it[: len(above)] == above and it[-1] == function]
                if named:
                    break
            found += named
        return found

    def is_refused(self, edit, refused):
        """Tests whether a function that the edit changes was refused for its own body, and, if the edit names clauses, by one of these."""
        return any(refused[it] for it in self.named(edit, refused)) and (not edit.clauses or bool(self.clauses_of(edit) & set(edit.clauses)))

    def clauses_of(self, edit):
        """Returns the clauses that the last check didn't prove of the functions that the edit changes."""
        return {it for name in self.named(edit, self.unproved) for it in self.unproved[name]}


def clause_of(goal):
    """Returns the name of the clause that a goal is for; `ensures` where it has none."""
    return goal.rpartition("-clause-")[2] if "-clause-" in goal else "ensures"


def is_own(verdict):
    """Tests whether a verdict on a function says that its own body is refused, and not only a function below it."""
    said = re.sub(r"^(?:no proof|not proved)", "", verdict)
    return said != verdict and (not WAITS.search(said) or bool(WAITS.sub("", said).strip(" ;:")))


def is_by_proof_alone(said):
    """Tests whether all complaints of a check are that proof files name what the wrong body took away."""
    told = [it[0] for it in PLACED.finditer(BROKEN.sub(" ", said))]
    told = [it for it in told if ": error" in it or "note: " in it] or told
    return bool(told) and all(GONE.match(it) for it in told)


def sources(folder):
    """Returns the texts of all files in src/, specs/ and proofs/ of a crate, by their paths."""
    texts = {}
    for part in ("src", "specs", "proofs"):
        for at, _, files in os.walk(f"{folder}/{part}"):
            for name in files:
                with open(f"{at}/{name}", encoding="utf-8") as file:
                    texts[os.path.relpath(f"{at}/{name}", folder)] = file.read()
    return texts


def write(path, text):
    """Writes a file, unless it has this text already."""
    with open(path, encoding="utf-8") as file:
        if file.read() == text:
            return
    with open(path, "w", encoding="utf-8") as file:
        file.write(text)


def rounds(crate, edits):
    """Divides the edits into rounds, whose edits are checked together: no two of a round change the same function, and all can be applied.
    An edit of several functions, or of none, has a round to itself."""
    rest = list(edits)
    while rest:
        taken, seen, texts = [], set(), dict(crate.texts)
        for edit in list(rest):
            functions = edit.functions(crate.texts)
            is_single = len(functions) == 1 and all(name for _, name in functions)
            if taken and not is_single or functions & seen or edit.apply(texts):
                continue
            taken.append(edit)
            rest.remove(edit)
            seen |= functions
            if not is_single:
                break
        yield taken


def say(text):
    """Prints a line at once."""
    print(text, flush=True)


def tried(crate, edits, names):
    """Tries the edits. Returns a line for each that isn't refused, and one for each that only a proof file refuses. With `names` it writes
    into each edit the clauses that refuse it."""
    alone, rest = [], list(rounds(crate, edits))
    while rest:
        these = rest.pop(0)
        if len(these) == 1:
            alone += these
            continue
        say(f"{crate.name}: {len(these)} wrong bodies in a check")
        is_proved, refused, _ = crate.check(these)
        if is_proved is None:
            half = len(these) // 2
            rest = [these[:half], these[half:], *rest]
            continue
        for edit in these:
            if not crate.is_refused(edit, refused):
                alone.append(edit)
            elif names:
                edit.name_clauses(crate.clauses_of(edit))
    faults, by_proof = [], []
    for edit in alone:
        say(f"{crate.name}: {edit.name} by itself")
        is_proved, _, said = crate.check([edit])
        if is_proved is None:
            faults.append(f"{crate.name}/{edit.name}: the check did not reach the prover: {first_error(said)}")
        elif is_proved:
            faults.append(f"{crate.name}/{edit.name}: NOT REFUSED")
        elif is_by_proof_alone(said):
            by_proof.append(f"{crate.name}/{edit.name}: refused by a proof file alone: {first_error(said)}")
        elif edit.clauses and not crate.clauses_of(edit) & set(edit.clauses):
            faults.append(f"{crate.name}/{edit.name}: refused, and not by the clause that it names")
        elif names:
            edit.name_clauses(crate.clauses_of(edit))
    return faults, by_proof


def first_error(said):
    """Returns the first line of a check with an error, cut to 200 characters."""
    lines = said.split("\n")
    return next((it for it in lines if UNREAD.match(it)), next((it for it in lines if "error" in it), lines[-1]))[:200]


def edits_in(name, folder):
    """Returns the edits in a folder of a crate, by their names."""
    at = f"{ROOT}/crates/{name}/{folder}"
    names = sorted(os.listdir(at)) if os.path.isdir(at) else []
    return [Edit(f"{at}/{it}") for it in names if it.endswith(".edit")]


def rows_of():
    """Returns the line of each crate in crates.txt."""
    with open(f"{ROOT}/crates.txt", encoding="utf-8") as lines:
        rows = [it.split("#")[0].strip() for it in lines]
    return {re.split(r"[ :]", it)[0]: it for it in rows if it}


def libraries():
    """Returns for each crate of the repository the crates that it uses."""
    return {name: row.partition(":")[2].split() for name, row in rows_of().items()}


def with_lower(names):
    """Returns these crates and all crates of the repository below them."""
    uses, found, rest = libraries(), [], list(names)
    while rest:
        name = rest.pop()
        if name in uses and name not in found:
            found.append(name)
            rest += uses[name]
    return found


def asked_of(words):
    """Returns the crates that arguments name, each with the names of its edits that are asked for, where none stands for all; every crate
    where there are no arguments."""
    asked = {}
    for word in words:
        crate, _, edit = word.partition("/")
        if crate not in libraries():
            sys.exit(f"{crate}: crates.txt has no such crate")
        asked.setdefault(crate, set()).add(edit.removesuffix(".edit"))
    return {crate: edits - {""} if "" not in edits else set() for crate, edits in asked.items()} or {it: set() for it in libraries()}


def with_edits(asked, folders):
    """Ends the program where an edit that is asked for is in none of the folders."""
    for crate, edits in asked.items():
        found = {it.name for folder in folders for it in edits_in(crate, folder)}
        for edit in sorted(edits - found):
            sys.exit(f"{crate}/{edit}: there is no such edit in {' or '.join(folders)}/")


def applies(asked):
    """Returns a line for each edit that can't be applied."""
    faults, count = [], 0
    for name, edits in asked.items():
        texts = sources(f"{ROOT}/crates/{name}")
        for folder in ("must-fail", "wrong-bodies"):
            for edit in edits_in(name, folder):
                if edits and edit.name not in edits:
                    continue
                count += 1
                why = edit.apply(dict(texts))
                if why:
                    faults.append(f"{name}/{folder}/{edit.name}: {why}")
    say(f"{count} wrong bodies, {len(faults)} of them can't be applied")
    return faults


def main(words):
    folder = "wrong-bodies"
    if "--folder" in words:
        at = words.index("--folder")
        folder = "".join(words[at + 1 : at + 2])
        del words[at : at + 2]
        if folder not in ("must-fail", "wrong-bodies"):
            sys.exit("--folder: must-fail or wrong-bodies")
    only_looks, names = "--applies" in words, "--name" in words
    asked = asked_of([it for it in words if it not in ("--applies", "--name")])
    with_edits(asked, ("must-fail", "wrong-bodies") if only_looks else (folder,))
    faults, by_proof = applies(asked), []
    if not only_looks and not faults:
        with tempfile.TemporaryDirectory(prefix="wrong-bodies-") as room:
            copied = with_lower(asked)
            os.mkdir(f"{room}/crates")
            for name in copied:
                subprocess.run(["cp", "-a", "--reflink=auto", f"{ROOT}/crates/{name}", f"{room}/crates/"], check=True)
            with open(f"{room}/crates.txt", "w", encoding="utf-8") as lines:
                lines.writelines(f"{row}\n" for name, row in rows_of().items() if name in copied)
            shutil.copy(f"{ROOT}/HANDLES", room)
            for name, named in asked.items():
                edits = [it for it in edits_in(name, folder) if not it.test and (not named or it.name in named)]
                if edits:
                    missed, by_file = tried(Crate(name, f"{room}/crates/{name}"), edits, names)
                    faults += missed
                    by_proof += by_file
        say(f"{len(faults)} wrong bodies not refused, {len(by_proof)} refused by a proof file alone")
    for it in faults + by_proof:
        say(it)
    return 1 if faults else 0


if __name__ == "__main__":
    sys.exit(main(sys.argv[1:]))
