#!/usr/bin/env python3
"""Damages folders of log files, in one way each, and checks what `raftlog` prints of them.

    tools/folder_damage.py [PROGRAM] [--changes N] [--seed S] [--opener EXAMPLE]

Each row of tools/damage_rows.py is a folder with a change, and what `raftlog check` has to print: the file, the offset and what is wrong
there, and whether an opening refuses the files, or what it cuts off. Lines of JSON have to say the same as the text. Then come N random
changes: a flipped bit, or a file that is cut short, but not at the end of a batch. None of these folders may be called sound, and the program
has to end with one of its statuses. With --opener, `raft_example` then opens each folder, and has to refuse it, or cut it as `raftlog` has
said. PROGRAM is crates/raftlog/out/raftlog by default. A line is printed for each difference; the status is 1 where there is one.
"""
import argparse
import fcntl
import json
import os
import random
import re
import shutil
import subprocess
import sys
import tempfile
import xml.dom.minidom
from pathlib import Path

from damage_rows import APPEND, GROUP, LAST, OLDER, ROWS, TOP, Room, batch, batches, both_torn, counted, entries_of, entry_byte, first_byte, name_of, put, rewrite_torn, torn

SECONDS = 60


# ---- what is looked at

def text_of(lines):
    """Returns the lines of text that say what lines of JSON of a check say."""
    said = []
    for line in lines:
        name = line.get("queue")
        if "missing_from" in line:
            first, last = line["missing_from"], line["missing_to"]
            said.append(f"{name} file {first}: missing" if first == last else f"{name} files {first} to {last}: missing")
        elif "damage" in line:
            said.append(f"{name} file {line['file']}: {line['bytes']} bytes, {counted(line['batches'])}, read from offset 0 to {line['read']}")
            said += [f"  {name} file {line['file']} offset {damage['offset']}: {damage_text(line, damage)}" for damage in line["damage"]]
            if line["unseen"]:
                said.append(f"  {name} file {line['file']} offset {line['bytes'] - line['unseen']}: the {line['unseen']} bytes from there on weren't searched for batches")
        elif "files" in line:
            said.append(f"{name}: no files")
        elif line.get("opening") == "refused":
            said.append(f"opening: refused: {line['why']}")
        elif line.get("opening") == "opens":
            said.append(f"opening: would open, and cut {line['cut']} bytes of {name} file {line['file']} from offset {line['offset']} on: {line['why']}" if line["cut"]
                        else f"opening: would open, and cut nothing of the {name} queue")
        else:
            said.append(line["verdict"])
    return said


def damage_text(line, damage):
    """Returns the text for a place with damage in the line of a file."""
    if damage["kind"] == "batch":
        return f"no batch can be read there, {line['bytes'] - damage['offset']} bytes before the end: {damage['why']}"
    entries = f"entry {damage['first']}" if damage["first"] == damage["last"] else f"entries {damage['first']} to {damage['last']}"
    return f"{entries} of region {damage['region']} can't be read: {damage['why']}"


GROUPS = {"begins": ", an atomic group begins", "goes on": ", an atomic group goes on", "ends": ", an atomic group ends"}


def shown(digits):
    """Returns bytes, given in base 16, as a dump shows them."""
    data = bytes.fromhex(digits)
    return f'"{data.decode("ascii")}"' if all(32 <= byte <= 126 and byte != 34 for byte in data) else f"0x{digits}"


def item_text(item):
    """Returns the lines of a dump for an item and its entries."""
    what = item["what"]
    if what in ("put", "delete"):
        value = f" = {shown(item['value'])}" if "value" in item else f" {item['bytes']} bytes" if "bytes" in item else ""
        return [f"{what} {shown(item['key'])}{value}{GROUPS[item['group']] if 'group' in item else ''}"]
    if what != "entries":
        return [f"{what} {item['index']}" if "index" in item else what]
    if "first" not in item:
        return ["entries -"]
    block = f" block at {item['block']} length {item['length']}" if "block" in item else ""
    entries = [f"    {entry['index']} " + (f"unreadable: {entry['why']}" if entry["bytes"] is None else shown(entry["bytes"])) for entry in item.get("entries", [])]
    return [f"entries {item['first']}..{item['last'] + 1}{block}", *entries]


def dump_of_json(lines):
    """Returns the lines of a dump that lines of JSON say. That of an item is put behind the place of its batch."""
    said = []
    for line in lines:
        if "missing_from" in line:
            said += text_of([line])
            continue
        place = f"{line['queue']} file {line['file']} offset {line['offset']}"
        if "item" in line:
            first, *entries = item_text(line["item"])
            said += [f"{place}  region {line['region']} {first}", *entries]
        else:
            said.append(f"{place} {line['what']}: {line['why']}")
    return said


def dump_of_text(lines):
    """Returns the lines of a dump, with that of each item put behind the place of its batch."""
    said, place = [], None
    for line in lines:
        if line.startswith("  region "):
            said.append(place + line)
        elif batch := re.fullmatch(r"(\w+ file \d+ offset \d+) length \d+ items \d+", line):
            place = batch[1]
        else:
            said.append(line)
    return said


class Looker:
    """Runs raftlog, and counts the runs and those that went wrong."""

    def __init__(self, program, opener=None):
        self.program, self.opener, self.count, self.wrongs = program, opener, 0, 0

    def wrong(self, text):
        """Counts and prints something that went wrong."""
        self.wrongs += 1
        print(text)

    def open_as_said(self, about, room, said):
        """Has `raft_example` open a folder. It has to do what `raftlog` said of the folder: refuse it and change nothing, or cut off as
        many bytes and keep them in a file."""
        if not self.opener or "opening: " not in said:
            return
        before = {path.name: path.read_bytes() for path in room.path.iterdir()}
        ended = subprocess.run([self.opener, room.path], stdin=subprocess.DEVNULL, capture_output=True, text=True, timeout=SECONDS)
        self.count += 1
        refused = re.search(r"^opening: refused: (.*)$", said, re.M)
        if refused:
            after = {path.name: path.read_bytes() for path in room.path.iterdir() if path.name in before}
            if ended.returncode == 0 or after != before:
                self.wrong(f"{about}: it is opened\n{ended.stdout}{ended.stderr}")
            return
        owed = {}
        for len_, queue, seq, at in re.findall(r"^opening: would open, and cut (\d+) bytes of (\w+) file (\d+) from offset (\d+) on", said, re.M):
            name = name_of(int(seq), "raftlog" if queue == "append" else queue)
            owed[f"{name}.{at}.cut"] = before[name][int(at):]
            if len(owed[f"{name}.{at}.cut"]) != int(len_):
                self.wrong(f"{about}: {len_} bytes are said to be cut")
        kept = {path.name: path.read_bytes() for path in room.path.iterdir() if path.name.endswith(".cut")}
        # (raft_example then tears a file of its own, and opens it again)
        if any(kept.get(name) != bytes_ for name, bytes_ in owed.items()) or len(kept) > len(owed) + 1:
            self.wrong(f"{about}: it isn't cut as was said: {sorted(kept)}\n{ended.stdout}{ended.stderr}")

    def run(self, *words):
        """Runs raftlog, and returns how it ended, with what it printed."""
        return subprocess.run([self.program, *words], stdin=subprocess.DEVNULL, capture_output=True, text=True, timeout=SECONDS)

    def expect(self, about, ended, status, texts, lacks=()):
        """Counts a run. It went wrong if it ended with another status than `status`, lacks one of the texts, or has one of those in `lacks`."""
        self.count += 1
        said = ended.stdout + ended.stderr
        wrong = [text for text in texts if text not in said] + [text for text in lacks if text in said]
        if ended.returncode not in (status if isinstance(status, tuple) else (status,)) or wrong:
            self.wrongs += 1
            print(f"{about}: status {ended.returncode}, not as wanted: {wrong}\n{said}")


def look_at_rows(looker, folder):
    """Checks and dumps the folder of each row."""
    for row in ROWS:
        with tempfile.TemporaryDirectory(prefix="raft-damage-", dir=folder) as made:
            room = Room(Path(made) / "logs")
            status, texts = row(room)
            told = looker.run("check", room.path)
            looker.expect(row.__name__, told, status, texts, lacks=["\nsound\n"] if status else [])
            ended = looker.run("check", "--json", room.path)
            looker.expect(f"{row.__name__}, as JSON", ended, status, [])
            lines = [json.loads(line) for line in ended.stdout.splitlines()]
            if sorted(text_of(lines)) != sorted(told.stdout.splitlines()):
                looker.wrong(f"{row.__name__}, as JSON: {ended.stdout}")
            for words in ((), ("--values",)):
                dumped, lines = looker.run("dump", *words, room.path), looker.run("dump", *words, "--json", room.path)
                looker.count += 2
                if dumped.returncode != lines.returncode or dump_of_text(dumped.stdout.splitlines()) != dump_of_json([json.loads(line) for line in lines.stdout.splitlines()]):
                    looker.wrong(f"{row.__name__}, dumped {words} as JSON: status {lines.returncode}, of text {dumped.returncode}\n{lines.stdout}\n{dumped.stdout}")
            look_at_opening(looker, row.__name__, room, "opening: would open" in told.stdout)
            looker.open_as_said(row.__name__, room, told.stdout)


def look_at_opening(looker, about, room, accepts):
    """`regions`, `files` and `cut --dry-run` end with 0 just where an opening accepts the files; else the first two print nothing, and each says why."""
    for words in (["regions"], ["regions", "--json"], ["files"], ["files", "--json"], ["cut", "--dry-run"], ["cut", "--dry-run", "--json"]):
        ended = looker.run(*words, room.path)
        looker.count += 1
        lines = [json.loads(line) for line in ended.stdout.splitlines()] if "--json" in words else ended.stdout.splitlines()
        said = ended.stdout if words[0] == "cut" else ended.stderr
        if accepts:
            fits = ended.returncode == 0 and not ended.stderr and (words[0] != "regions" or lines)
        else:
            fits = ended.returncode == 1 and (words[0] == "cut" or not lines) and (said or ended.stderr.startswith("raftlog: "))
        if not fits:
            looker.wrong(f"{about}, {' '.join(words)}: status {ended.returncode}, though an opening {'accepts' if accepts else 'refuses'} the files\n{ended.stdout}{ended.stderr}")


def look_at_cuts(looker, folder):
    """Cuts a torn tail off: it is kept in a file, and then nothing is wrong."""
    room = Room(folder / "cut")
    _, texts = torn(room)
    *_, (at, _, end) = batches((TOP / f"demo/{LAST}.log").read_bytes())
    tail = room.file(LAST).read_bytes()[at:]
    says = f"would open, and cut {len(tail)} bytes of append file {LAST} from offset {at} on"
    looker.expect("cut without a word", looker.run("cut", room.path), 2, [])
    looker.expect("cut --dry-run", looker.run("cut", "--dry-run", room.path), 0, [says])
    looker.expect("after cut --dry-run", looker.run("check", room.path), 1, texts)
    looker.expect("cut --yes", looker.run("cut", "--yes", room.path), 0, [says, f"\ncut: {len(tail)} bytes are kept in {room.path}/{name_of(LAST)}.{at}.cut\n"])
    looker.expect("after cut --yes", looker.run("check", room.path), 0, ["\nsound\n"])
    if (room.path / f"{name_of(LAST)}.{at}.cut").read_bytes() != tail:
        looker.wrong("what was cut isn't kept")
    look_at_cut_lines(looker, folder)
    typo = folder / "typo"
    for word in ("--yes", "--dry-run"):
        looker.expect(f"cut {word} of no folder", looker.run("cut", word, typo), 1, [f"raftlog: {typo}: ", "No such file or directory"])
    if typo.exists():
        looker.wrong("a folder was made to be cut")


def look_at_cut_lines(looker, folder):
    """The same as lines of JSON."""
    room = Room(folder / "cut_lines")
    torn(room)
    *_, (at, _, _) = batches((TOP / f"demo/{LAST}.log").read_bytes())
    left = room.file(LAST).stat().st_size - at
    owed = [{"opening": "opens", "queue": "append", "cut": left, "file": LAST, "offset": at}, {"opening": "opens", "queue": "rewrite", "cut": 0}]
    kept = {"kept": f"{room.path}/{name_of(LAST)}.{at}.cut", "bytes": left}
    for words, behind in ((["--dry-run"], []), (["--yes"], [kept]), (["--dry-run"], None)):
        ended = looker.run("cut", *words, "--json", room.path)
        looker.count += 1
        said = [{name: value for name, value in json.loads(line).items() if name != "why"} for line in ended.stdout.splitlines()]
        wanted = owed + behind if behind is not None else [{**owed[1], "queue": queue} for queue in ("append", "rewrite")]
        if said != wanted or ended.returncode or ended.stderr:
            looker.wrong(f"cut {words} --json says something else: {ended.stdout}{ended.stderr}")


def look_at_selection(looker, folder):
    """A dump has what the words select, and nothing else."""
    room = Room(folder / "selection")
    first = batch(1, entries_of(1, 10, [1] * 5), put(1, b"k", b"v"), entries=b"abcde")
    second = batch(1, entries_of(2, 3, [2, 2]), entries=b"xxyy")
    room.only([[first, second]])
    at = len(first)
    heads = [f"append file 1 offset 0 length {at} items 2\n", f"append file 1 offset {at} length {len(second)} items 1\n"]
    runs = ["  region 1 entries 10..15 block at 16 length 9\n", f"  region 2 entries 3..5 block at {at + 16} length 8\n"]
    value = '  region 1 put "k" = "v"\n'
    bytes_of = {10: "a", 11: "b", 12: "c", 13: "d", 14: "e", 3: "xx", 4: "yy"}

    def entries(*indexes):
        return "".join(f'    {index} "{bytes_of[index]}"\n' for index in indexes)

    for words, owed in (([], heads[0] + runs[0] + entries(10, 11, 12, 13, 14) + value + heads[1] + runs[1] + entries(3, 4)),
                        (["--from", "12", "--to", "14"], heads[0] + runs[0] + entries(12, 13) + value),
                        (["--from", "4"], heads[0] + runs[0] + entries(10, 11, 12, 13, 14) + value + heads[1] + runs[1] + entries(4)),
                        (["--to", "11"], heads[0] + runs[0] + entries(10) + value + heads[1] + runs[1] + entries(3, 4)),
                        (["--region", "2", "--to", "4"], heads[1] + runs[1] + entries(3)),
                        (["--region", "1", "--from", "15"], heads[0] + value)):
        told, lines = looker.run("dump", "--values", *words, room.path), looker.run("dump", "--values", *words, "--json", room.path)
        looker.count += 2
        if told.stdout != owed or told.returncode or told.stderr:
            looker.wrong(f"dump --values {words} says something else: {told.stdout}{told.stderr}")
        if dump_of_json([json.loads(line) for line in lines.stdout.splitlines()]) != dump_of_text(owed.splitlines()) or lines.returncode:
            looker.wrong(f"dump --values {words} --json says something else: {lines.stdout}{lines.stderr}")


def look_at_full_outputs(looker, folder):
    """An output that takes no more is an error of its own, and nothing is cut then."""
    for words in (["check"], ["dump"], ["regions"], ["regions", "--region", "1"], ["files"], ["cut", "--dry-run"], ["cut", "--yes"]):
        for form in ([], ["--json"]):
            room = Room(folder / f"full_{'_'.join(words + form)}")
            torn(room)
            before = room.contents()
            with open("/dev/full", "wb") as full:
                ended = subprocess.run([looker.program, *words, *form, room.path], stdin=subprocess.DEVNULL, stdout=full, stderr=subprocess.PIPE, text=True, timeout=SECONDS)
            looker.count += 1
            if ended.returncode != 1 or not ended.stderr.startswith("raftlog: output: ") or ended.stderr.count("\n") != 1 or room.contents() != before:
                looker.wrong(f"{words + form} to a full output: status {ended.returncode}, {ended.stderr}")


def look_at_pipes(looker, folder):
    """What is no regular file is refused by its path, and not waited for."""
    pipe, entry = folder / "pipe", folder / "entry"
    os.mkfifo(pipe)
    entry.mkdir()
    for path in (pipe, entry):
        for words in (["check"], ["dump"], ["regions"], ["files"]):
            looker.expect(f"{words} of {path.name}", looker.run(*words, "--append", f"1={path}"), 1, [f"raftlog: {path}: it isn't a regular file\n"])
    room = Room(folder / "with_pipe")
    os.mkfifo(room.file(LAST + 1))
    for words in (["check"], ["cut", "--dry-run"], ["cut", "--yes"]):
        looker.expect(f"{words} of a folder with a pipe", looker.run(*words, room.path), 1, [f"raftlog: {room.file(LAST + 1)}: it isn't a regular file\n"])


def look_at_tails(looker, folder):
    """Cuts torn tails of either queue and of both: what was said is cut off and kept, and no other byte changes. Files that are refused
    don't change."""
    for row, endings in ((torn, ["raftlog"]), (rewrite_torn, ["rewrite"]), (both_torn, ["raftlog", "rewrite"])):
        room = Room(folder / f"tails_{row.__name__}")
        row(room)
        owed = room.contents()
        looker.expect(f"{row.__name__}, cut --dry-run", looker.run("cut", "--dry-run", room.path), 0, [])
        said = looker.run("check", room.path).stdout
        if room.contents() != owed:
            looker.wrong(f"{row.__name__}: cut --dry-run or check changes something")
        tails = re.findall(r"^opening: would open, and cut (\d+) bytes of (append|rewrite) file (\d+) from offset (\d+) on: ", said, re.M)
        for len_, queue, seq, at in tails:
            name = name_of(int(seq), "raftlog" if queue == "append" else queue)
            owed[f"{name}.{at}.cut"] = owed[name][int(at):]
            owed[name] = owed[name][:int(at)]
        looker.expect(f"{row.__name__}, cut --yes", looker.run("cut", "--yes", room.path), 0, [f".{at}.cut\n" for _, _, _, at in tails])
        if [queue for _, queue, _, _ in tails] != [{"raftlog": "append"}.get(ending, ending) for ending in endings] or room.contents() != owed:
            looker.wrong(f"{row.__name__}: it isn't cut as was said: {sorted(room.contents())}")
        looker.expect(f"{row.__name__}, after cut --yes", looker.run("check", room.path), 0, ["\nsound\n"])
    room = Room(folder / "tails_refused")
    first_byte(room)
    owed = room.contents()
    looker.expect("cut --yes of files that are refused", looker.run("cut", "--yes", room.path), 1, [f"opening: refused: Corruption: append file {LAST}, offset 0: "])
    if room.contents() != owed:
        looker.wrong("files that are refused are changed by cut --yes")


def look_at_pictures(looker, folder):
    """Draws a picture, which is a new file: nothing is written over."""
    room = Room(folder / "pictures")
    owed = room.contents()
    picture = folder / "new.svg"
    looker.expect("files --svg", looker.run("files", "--svg", picture, room.path), 0, ["append       1         1340 B |#"])
    if not picture.read_bytes().startswith(b"<svg"):
        looker.wrong("no picture is drawn")
    drawn = picture.read_bytes()
    for path in (picture, room.file(1), room.file(LAST)):
        looker.expect("files --svg of a file that is there", looker.run("files", "--svg", path, room.path), 1, [f"raftlog: {path}: ", "File exists"])
    if room.contents() != owed or picture.read_bytes() != drawn:
        looker.wrong("a picture is written over a file")


def look_at_uses(looker, folder):
    """Checks how much of each file is live, which regions need it, and the keys of a region, in files whose entries and keys are known."""
    room = Room(folder / "uses")
    room.only([[batch(1, entries_of(1, 1, [10, 20, 30, 40]), put(2, b"k1", b"v"), entries=b"a" * 100)],
               [batch(2, entries_of(1, 3, [5]), entries_of(2, 1, [7, 8], before=5), put(2, b"\x01\xff", b""), put(2, b"leader", b"n1"), entries=b"b" * 20)]],
              [[batch(1, entries_of(3, 5, [9, 9]), entries=b"c" * 18)]])
    # entries 3 and 4 of region 1 are replaced in file 2; the oldest record of region 2 is a key of file 1
    owed = [("append", 1, 30, [1, 2]), ("append", 2, 20, []), ("rewrite", 1, 18, [3])]
    lens = [room.file(seq, "raftlog" if queue == "append" else queue).stat().st_size for queue, seq, _, _ in owed]
    lines = []
    for (queue, seq, live, regions), len_ in zip(owed, lens):
        bar = f"|{'#' * (live * 40 // len_):<40}| {live * 100 // len_:>3} % live, {live} B of entries"
        held = f"; the oldest file of region{'s' if len(regions) > 1 else ''} {' '.join(map(str, regions))}" if regions else ""
        lines.append(f"{queue:<7} {seq:>6} {len_:>12} B {bar}{held}\n")
    told = looker.run("files", room.path)
    looker.expect("files", told, 0, ["".join(lines)])
    if told.stdout != "".join(lines):
        looker.wrong(f"files says something else: {told.stdout}")
    said = [json.loads(line) for line in looker.run("files", "--json", room.path).stdout.splitlines()]
    if said != [{"queue": queue, "file": seq, "bytes": len_, "live": live, "regions": regions} for (queue, seq, live, regions), len_ in zip(owed, lens)]:
        looker.wrong(f"files --json says something else: {said}")
    looker.expect("files --svg of known files", looker.run("files", "--svg", folder / "uses.svg", room.path), 0, [])
    drawn = xml.dom.minidom.parse(str(folder / "uses.svg"))
    bars = [tuple(int(bar.getAttribute(name)) for name in ("x", "y", "width")) for bar in drawn.getElementsByTagName("rect")[1:]]
    _, *texts = [text.firstChild.data for text in drawn.getElementsByTagName("text")]
    widest = max(width for _, _, width in bars)
    for at, ((queue, seq, live, regions), len_) in enumerate(zip(owed, lens)):
        whole, full = bars[2 * at:2 * at + 2]
        wide = abs(whole[2] - widest * len_ / max(lens)) < 1 and abs(full[2] - widest * live / max(lens)) < 1
        if not wide or whole[:2] != full[:2] or texts[2 * at] != f"{queue} {seq}" or not re.match(rf"{live * 100 // len_} % of {len_} bytes are live(;.* {' '.join(map(str, regions))})?$", texts[2 * at + 1]):
            looker.wrong(f"the picture has another bar or text of {queue} {seq}: {whole} {full} {texts}")
    line = "2 entries 1..3 keys 3 append 1 rewrite -\n"
    for words, keys in (([], ["0x01ff 0 bytes", '"k1" 1 bytes', '"leader" 2 bytes']), (["--values"], ['0x01ff = ""', '"k1" = "v"', '"leader" = "n1"'])):
        told = looker.run("regions", "--region", "2", *words, room.path)
        looker.count += 1
        if told.stdout != line + "".join(f"  key {key}\n" for key in keys) or told.returncode:
            looker.wrong(f"regions --region 2 {words} says something else: {told.stdout}{told.stderr}")
    said = [json.loads(line) for line in looker.run("regions", "--region", "2", "--json", room.path).stdout.splitlines()]
    pairs = [{"key": "01ff", "value": ""}, {"key": "6b31", "value": "76"}, {"key": "6c6561646572", "value": "6e31"}]
    looker.count += 2
    if said != [{"region": 2, "first": 1, "last": 2, "keys": 3, "append": 1, "rewrite": None, "pairs": pairs}]:
        looker.wrong(f"regions --region 2 --json says something else: {said}")


def look_at_closed_streams(looker, folder):
    """Closes streams of raftlog: what it prints to a closed one goes into no file."""
    for closed in range(1, 8):
        streams = " ".join(f"{stream}>&-" for stream in range(3) if closed >> stream & 1)
        for words in (["cut", "--yes"], ["cut", "--dry-run"], ["check"], ["files", "--svg", folder / f"closed{closed}.svg"]):
            room = Room(folder / f"closed{closed}_{words[0]}{len(words)}{words[-1] == '--yes'}")
            torn(room)
            before, (*_, (at, _, _)) = room.contents(), batches((TOP / f"demo/{LAST}.log").read_bytes())
            ended = subprocess.run(["sh", "-c", f'exec "$@" {streams}', "sh", looker.program, *words, room.path], stdin=subprocess.DEVNULL, capture_output=True, timeout=SECONDS)
            looker.count += 1
            name = name_of(LAST)
            cut = {**before, name: before[name][:at], f"{name}.{at}.cut": before[name][at:]}
            owed = cut if words[-1] == "--yes" and not closed & 2 else before
            lock = room.path / "LOCK"
            if ended.returncode not in (0, 1) or (closed & 2 and ended.returncode != 1) or room.contents() != owed or (lock.exists() and lock.read_bytes()):
                looker.wrong(f"{words} with {streams}: status {ended.returncode}, {sorted(room.contents())}")
            picture = words[-1]
            if words[0] == "files" and picture.exists() and not (picture.read_bytes().startswith(b"<svg") and picture.read_bytes().endswith(b"</svg>\n")):
                looker.wrong(f"{words} with {streams}: something else is in the picture")


def look_at_changes(looker, folder, count, seed):
    """Checks folders with random changes. Each bit of a file is in a header, an entry block or an item batch, all of which are checked, so
    each change has to be found."""
    rng = random.Random(seed)
    for number in range(count):
        room = Room(folder / f"change{number}")
        seq = rng.randint(1, LAST)
        size = room.file(seq).stat().st_size
        ends = {0, *(end for _, _, end in room.batches(seq))}
        if rng.random() < 0.8:
            at, bit = rng.randrange(size), rng.randrange(8)
            room.flip(seq, at, bit)
            about = f"seed {seed}, change {number}: bit {bit} of byte {at} of file {seq}"
        else:
            len_ = rng.choice([len_ for len_ in range(size) if len_ not in ends])
            room.keep(seq, len_)
            about = f"seed {seed}, change {number}: file {seq} is cut to {len_} bytes"
        looker.expect(about, looker.run("check", room.path), 1, [f"append file {seq} offset ", "\ndamaged\n"], lacks=["\nsound\n"])
        looker.expect(f"{about}, dumped", looker.run("dump", "--values", room.path), (0, 1), [])
        shutil.rmtree(room.path)


def look_at_rewrite_bytes(looker, folder):
    """A changed bit of each byte of the last rewrite file is told there."""
    room = Room(folder / "rewrite_bytes")
    room.only([APPEND], [OLDER, GROUP])
    file = room.file(2, "rewrite")
    whole = file.read_bytes()
    for at, byte in enumerate(whole):
        file.write_bytes(whole[:at] + bytes([byte ^ 1 << at % 8]) + whole[at + 1:])
        looker.expect(f"byte {at} of the last rewrite file", looker.run("check", room.path), 1, ["rewrite file 2 offset ", "\ndamaged\n"], lacks=["\nsound\n"])


def look_at_damaged(looker):
    """Dumps and checks demo/damaged. Each line of its file `lines` is a batch there, an offset at which none can be read, or the end of a
    file that can be read up to there."""
    damaged = TOP / "demo/damaged"
    files = [word for seq, name in ((1, "entry_byte"), (2, "item_byte"), (4, "sound"), (5, "torn_header"), (6, "empty"))
             for word in ("--append", f"{seq}={damaged}/{name}")]
    lines = (damaged / "lines").read_text().splitlines()
    dumped = looker.run("dump", *files)
    told = [line for line in dumped.stdout.splitlines() if not line.startswith(" ")]
    owed = [re.sub(r" left \d+ unreadable: ", " unreadable: Corruption: ", line.split(" entries ")[0]) for line in lines if not line.endswith(" end")]
    looker.count += 1
    if told != ["append file 3: missing", *owed] or dumped.returncode != 1:
        looker.wrong(f"dump of demo/damaged: status {dumped.returncode}\n{dumped.stdout}")
    checked = looker.run("check", *files)
    places = {line.strip().split(": ")[0] + (": batch" if ": no batch can be read there" in line else ": entries") for line in checked.stdout.splitlines() if line.startswith("  ") and "searched" not in line}
    owed = {line.split(" length ")[0] + ": entries" for line in lines if line.endswith(" entries broken")}
    owed |= {line.split(" left ")[0] + ": batch" for line in lines if " unreadable: " in line}
    if places != owed:
        looker.wrong(f"check of demo/damaged names other places: {places ^ owed}")
    ends = [re.fullmatch(r"append file (\d+) offset (\d+) end", line) for line in lines if line.endswith(" end")]
    ends = [f"append file {end[1]}: {end[2]} bytes, {counted(sum(line.startswith(f'append file {end[1]} ') for line in lines) - 1)}, read from offset 0 to {end[2]}\n" for end in ends]
    looker.expect("check of demo/damaged", checked, 1, [*ends, "append file 3: missing\n", "\ndamaged\n"])


def look_at_words(looker, folder):
    """Runs raftlog with all kinds of arguments, right and wrong."""
    room = Room(folder / "words")
    files = [word for seq in range(1, LAST + 1) for word in ("--append", f"{seq}={TOP}/demo/{seq}.log")]
    recovered = looker.run("recover", "append", "2", "4", *[f"{seq}={TOP}/demo/{seq}.log" for seq in range(1, LAST + 1)])
    for about, named in (("folder", [room.path]), ("files", files)):
        looker.expect(f"check of a {about}", looker.run("check", *named), 0, ["\nsound\n"])
        looker.expect(f"regions of a {about}", looker.run("regions", *named), 0, [recovered.stdout])
        looker.expect(f"files of a {about}", looker.run("files", *named), 0, ["append       1         1340 B |#", "; the oldest file of regions "])
        at, _, end = room.batches(1)[0]
        looker.expect(f"dump of a {about}", looker.run("dump", *named), 0, [f"append file 1 offset {at} length {end - at} items "])
    looker.expect("dump of a region", looker.run("dump", "--region", "1", room.path), 0, ["  region 1 "], lacks=["  region 2 "])
    looker.expect("a region without a table", looker.run("regions", "--region", "999", room.path), 1, ["raftlog: region 999: it has no table\n"])
    entry = os.open(room.path, os.O_RDONLY)
    fcntl.flock(entry, fcntl.LOCK_EX)
    looker.expect("a locked folder", looker.run("check", room.path), 1, [f"raftlog: {room.path}: another engine has the folder open\n"])
    os.close(entry)
    for words, status in ([["--help"], 0], [["--version"], 0], [["help", "--help"], 0], [["batch", "--help"], 0], [["recover", "-h"], 0], [["help", "recover"], 0],
                          [["chek", "--help"], 2], [["batch"], 2], [["recover", "append", "2", "0", "1=x"], 1], [["check", "--help"], 0], [["cut", "--version"], 0], [["check"], 2],
                          [["check", "--colour", room.path], 2], [["check", "--format", "3", room.path], 2], [["check", "--workers", "0", room.path], 2],
                          [["check", room.path, *files], 2], [["check", "--append", "x"], 2], [["check", "--append", "1="], 2], [["help"], 0],
                          [["cut", "--dry-run", "--yes", room.path], 2], [["regions", "--values", room.path], 2], [["dump", "--from", "11", "--to", "9", room.path], 2],
                          [["dump", "--region", "-1", room.path], 2], [["dump", "--workers", "2", room.path], 2]):
        looker.expect(" ".join(map(str, words)), looker.run(*words), status, [])
    for words in ([], ["chek", room.path], ["--json", "check", room.path]):
        looker.expect("no command", looker.run(*words), 2, ["raftlog batch ", "raftlog recover ", "raftlog check|regions|dump|files <folder>", "raftlog cut "])
    looker.expect("a word that isn't UTF-8", looker.run("check", os.fsencode(room.path) + b"\xff"), 2, ["raftlog: a word isn't UTF-8: ", "\nusage: raftlog "])
    if looker.opener:
        for word, status in (("--help", 0), ("--version", 2)):
            ended = subprocess.run([looker.opener, word], cwd=room.path, stdin=subprocess.DEVNULL, capture_output=True, text=True, timeout=SECONDS)
            looker.expect(f"raft_example {word}", ended, status, [])
            if (room.path / word).exists():
                looker.wrong(f"raft_example {word} makes a folder")
    for word in ("dump", "regions"):
        looker.expect(f"{word} of a region that isn't there", looker.run(word, "--region", "99", room.path), 1, ["raftlog: region 99: "])
    looker.expect("check of a file", looker.run("check", room.file(1)), 1, [f"raftlog: {room.file(1)}: it is a file: "])
    entry_byte(room)
    looker.expect("dump of an entry that can't be read", looker.run("dump", room.path), 0, [])
    looker.expect("dump --values of it", looker.run("dump", "--values", room.path), 1, [])
    lines = [json.loads(line) for line in looker.run("dump", "--values", "--json", room.path).stdout.splitlines()]
    lost = [entry for line in lines for entry in line.get("item", {}).get("entries", []) if entry["bytes"] is None]
    if not lost or any(entry.get("why") != "the entry block doesn't stand in the file, or its checksum doesn't hold" for entry in lost):
        looker.wrong(f"dump --values --json of it: {lost}")


def main():
    words = argparse.ArgumentParser(description=__doc__.splitlines()[0])
    words.add_argument("program", type=Path, nargs="?", default=TOP / "crates/raftlog/out/raftlog", help="the path of raftlog")
    words.add_argument("--changes", type=int, default=200, metavar="N", help="how many random changes to make (default: %(default)s)")
    words.add_argument("--seed", type=int, default=1, metavar="S", help="the seed of the random changes (default: %(default)s)")
    words.add_argument("--opener", type=Path, metavar="EXAMPLE", help="the path of raft_example, which then opens each folder")
    asked = words.parse_args()
    looker = Looker(asked.program.resolve(), asked.opener and asked.opener.resolve())
    with tempfile.TemporaryDirectory(prefix="raft-damage-") as made:
        folder = Path(made)
        look_at_rows(looker, folder)
        look_at_cuts(looker, folder)
        look_at_tails(looker, folder)
        look_at_selection(looker, folder)
        look_at_full_outputs(looker, folder)
        look_at_pipes(looker, folder)
        look_at_pictures(looker, folder)
        look_at_uses(looker, folder)
        look_at_closed_streams(looker, folder)
        look_at_damaged(looker)
        look_at_words(looker, folder)
        look_at_rewrite_bytes(looker, folder)
        look_at_changes(looker, folder, asked.changes, asked.seed)
    print(f"{looker.count} runs of raftlog, {looker.wrongs} different")
    return 1 if looker.wrongs else 0


if __name__ == "__main__":
    sys.exit(main())
