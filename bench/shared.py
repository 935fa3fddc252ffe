#!/usr/bin/env python3
"""Random scripts of many databases in one catalog file, and duplicates of them, each beside what it must be:
    bench/shared.py PROGRAM [SEED [COUNT]]
PROGRAM is the program as it was built; COUNT rounds (10) are tried, of the seeds from SEED (0) on. A round has three databases in one catalog
file, of the numbers 0, 7 and 4294967295, whose sessions come in any order: writes, backups of each kind, archived logs, retention, RESETLOGS,
host mishaps. In each fourth round number 0 is old.catalog of rm_test_outside, with the objects that its script makes.
- Each session is run once more, of a database with a file and a folder of its own: the same replies, objects byte for byte, and records but for
  their moments. By python's sqlite3 no row of another number changed, and no file in another folder did.
- Between them a session asks RECOVER .. TEST for some targets of one of the databases, a duplicate among them. Of a target that is refused there a
  duplicate is refused in the same line, and changes nothing, but that `--to` may be there, with an empty lock. One that is made has new rows of its
  own number, and no other folder changes. It is restored, recovered and opened: each reply is foretold, and each block by DUMP is what TEST told.
- Duplicates are refused for each other reason, end at a put that fails and at lines that can't be written, and sessions and duplicates are begun
  in the folder of another number.
bench/faults.sh (duplicates) fails each call of a duplicate. The first thing that is wrong is told with the seed of its round, and the status is 1."""
import collections
import contextlib
import os
import random
import re
import shutil
import sqlite3
import subprocess
import sys
import tempfile
import time

from shared_scripts import ASKS, Known, Script

NUMBERS, NEW = (0, 7, 4294967295), (1, 6, 8, 255, 65536, 2147483648, 4294967294)
OLD = f"{os.path.dirname(os.path.abspath(__file__))}/../crates/rm_test_outside/data/old"
LOCK, MARK = ".rman-lock", 6
TAG = re.compile(r"TAG\d{8}T\d{6}")

Ended = collections.namedtuple("Ended", "status out err")
Target = collections.namedtuple("Target", "source incarnation until lines")


class Wrong(Exception):
    """What is not as it must be."""


def same(what, found, wanted):
    """Raises Wrong where the two differ, with the first line or name that does."""
    if found == wanted:
        return
    if isinstance(found, dict) and isinstance(wanted, dict):
        name = next(name for name in sorted({*found, *wanted}) if found.get(name) != wanted.get(name))
        same(f"{what}, {name}", found.get(name), wanted.get(name))
    if isinstance(found, list) and isinstance(wanted, list):
        place = next((at for at, (one, other) in enumerate(zip(found, wanted)) if one != other), min(len(found), len(wanted)))
        raise Wrong(f"{what}, line {place + 1}: found {found[place : place + 2]}, wanted {wanted[place : place + 2]}")
    raise Wrong(f"{what}: found {found!r}, wanted {wanted!r}")


def files_of(folder):
    """What stands in a folder, byte for byte: None for what is no file. Nothing where there is no folder."""
    if not os.path.isdir(folder):
        return {}
    return {entry.name: open(entry.path, "rb").read() if entry.is_file() else None for entry in os.scandir(folder)}


def objects_of(folder):
    return {name: content for name, content in files_of(folder).items() if name != LOCK}


def rows_of(catalog):
    """The table of a catalog file by number: the bodies by kind and id. A copy of the file is read, so that nothing in it changes."""
    if not os.path.exists(catalog):
        return {}
    with tempfile.TemporaryDirectory() as folder:
        for end in ("", "-wal"):
            if os.path.exists(catalog + end):
                shutil.copy(catalog + end, f"{folder}/catalog{end}")
        it = sqlite3.connect(f"{folder}/catalog")
        same("integrity_check", it.execute("PRAGMA integrity_check").fetchall(), [("ok",)])
        rows = collections.defaultdict(dict)
        for number, kind, key, body in it.execute("SELECT number, kind, id, body FROM record"):
            rows[number][kind, key] = body
        it.close()
    return dict(rows)


def without_moments(rows, began):
    """Records that are the same at another moment: without the marks, and with moments from that second on as zeros."""

    def without(body):
        seconds = re.finditer(rb"(?=\0\0\0\0(....))", body, re.DOTALL)
        places = [at.start() for at in seconds if began <= int.from_bytes(at[1], "big") <= time.time()]
        for place in places:
            body = body[:place] + bytes(8) + body[place + 8 :]
        return body

    return {key: without(body) for key, body in rows.items() if key[0] != MARK}


class Place:
    """A database as the program is given it: a catalog file, a folder and a number, which may be left out where it is 0."""

    def __init__(self, program, catalog, folder, number=None):
        self.program, self.catalog, self.folder, self.number = program, catalog, folder, number

    def run(self, script):
        words = ["--store", self.folder, "--catalog", self.catalog]
        words += [] if self.number is None else ["--database", str(self.number)]
        return begin(self.program, words, script)


def begin(program, words, script="", output=subprocess.PIPE):
    """How the program ended with these words. One that takes two minutes is wrong."""
    try:
        done = subprocess.run([program, *words], input=script, stdout=output, stderr=subprocess.PIPE, text=True, check=False, timeout=120)
    except subprocess.TimeoutExpired as why:
        raise Wrong(str(why)) from why
    return Ended(done.returncode, (done.stdout or "").splitlines(), done.stderr)


class Database:
    """One of the databases: in the catalog file of all, in one of its own, and what its replies told."""

    def __init__(self, number, shared, alone=None):
        self.number, self.shared, self.alone, self.known = number, shared, alone, Known()


class Round:
    """What one seed tries, in a folder of its own."""

    def __init__(self, program, seed, room, tally):
        self.program, self.rng, self.room, self.tally, self.began = program, random.Random(seed), room, tally, int(time.time())
        self.catalog, self.last, self.copies, self.folders = f"{room}/catalog", "", [], 0
        self.databases = {number: Database(number, self.place(number), self.place_alone(number)) for number in NUMBERS}
        if seed % 4 == 3:
            self.take_old()
            self.duplicates(self.databases[0])

    def place(self, number):
        said = None if number == 0 and self.rng.random() < 0.5 else number
        return Place(self.program, self.catalog, f"{self.room}/objects_{number}", said)

    def place_alone(self, number):
        return Place(self.program, f"{self.room}/alone_{number}", f"{self.room}/alone_objects_{number}")

    def take_old(self):
        """Number 0 is a catalog of before, with the objects that its script makes today."""
        asks = "\n".join(["LIST BACKUP;", "LIST COPY;", "LIST ARCHIVELOG ALL;", "SHOW ALL;", "VALIDATE ALL;", "RECOVER DATABASE TEST;", *ASKS])
        made = Place(self.program, f"{self.room}/made", f"{self.room}/made_objects")
        with open(f"{OLD}.rman", encoding="utf-8") as script:
            same("the script of the old catalog", made.run(script.read()).status, 0)
        first = self.databases[0]
        for place in (first.shared, first.alone):
            shutil.copy(f"{OLD}.catalog", place.catalog)
            shutil.copytree(made.folder, place.folder, ignore=shutil.ignore_patterns(".rman-lock"))
        wanted = [TAG.sub("TAG", line) for line in made.run(asks).out]
        for place in (first.shared, first.alone):
            found = place.run(asks)
            same("the old catalog", [TAG.sub("TAG", line) for line in found.out], wanted)
        first.known.threads = 2
        first.known.take(found.out)
        self.tally["old catalogs"] += 1

    def state(self):
        """The rows by number, and the files of each folder."""
        folders = [entry.name for entry in os.scandir(self.room) if entry.is_dir()]
        return rows_of(self.catalog), {name: files_of(f"{self.room}/{name}") for name in folders}

    def hold_others(self, what, before, number=None, folder=None):
        """Holds that nothing changed but the rows of this number and the files of this folder. Returns the state."""
        after, name = self.state(), folder and os.path.basename(folder)
        same(f"{what}: rows of other numbers", *({n: rows for n, rows in state[0].items() if n != number} for state in (after, before)))
        same(f"{what}: other folders", *({n: files for n, files in state[1].items() if n != name} for state in (after, before)))
        return after

    def hold_all(self, what, before, may_be=None):
        """Holds that nothing changed, but that this folder may be there now, empty and nobody's."""
        if may_be and os.path.basename(may_be) not in before[1]:
            same(f"{what}: the folder of the duplicate", {name: it for name, it in files_of(may_be).items() if (name, it) != (LOCK, b"")}, {})
            self.hold_others(what, before, folder=may_be)
        else:
            self.hold_others(what, before)

    def session(self, database):
        """A session with statements at random, beside the same one over a file of its own."""
        script = Script(self.rng, database.known, sorted(objects_of(database.shared.folder)))
        if not database.known.targets:
            script.begin(self.rng.randrange(1, 2**32))
        text, what = script.drawn(self.rng.randint(4, 14)), f"a session of {database.number}"
        before = self.state()
        found = self.run(database.shared, text)
        after = self.hold_others(what, before, database.number, database.shared.folder)
        if found.status > 1 or found.err:
            raise Wrong(f"{what}: status {found.status}, {found.err}")
        database.known.take(found.out)
        self.tally["sessions"] += 1
        self.tally["refusals"] += sum(line.startswith("RM-") for line in found.out)
        self.tally["lines"] += len(found.out)
        if database.alone:
            self.hold_alone(what, database, text, found, after)

    def hold_alone(self, what, database, text, found, after):
        """Holds that the same session over a file of its own answers and leaves the same."""
        wanted = database.alone.run(text)
        same(f"{what}: replies", found.out, wanted.out)
        same(f"{what}: status and standard error", (found.status, found.err), (wanted.status, wanted.err))
        objects = objects_of(database.shared.folder)
        same(f"{what}: objects", objects, objects_of(database.alone.folder))
        rows = after[0].get(database.number, {}), rows_of(database.alone.catalog).get(0, {})
        same(f"{what}: records", *(without_moments(it, self.began) for it in rows))
        self.tally["objects"] += len(objects)

    def run(self, place, text):
        self.last = f"--database {place.number} --store {place.folder}\n{text}"
        return place.run(text)

    def tests(self, source):
        """What RECOVER .. TEST tells of some targets of a database, in a session that changes nothing."""
        targets = [source.known.some_target(self.rng) for _ in range(6)]
        asks = [f"DUMP DATAFILE 0 BLOCK 0; RECOVER DATABASE UNTIL SCN {until} INCARNATION {of} TEST;" for of, until in targets if until >= 0]
        before, content = self.state(), open(self.catalog, "rb").read()
        told = self.run(source.shared, "\n".join([*ASKS, *asks]))
        self.hold_all("a session that tells", before)
        same("the catalog file behind a session that tells", open(self.catalog, "rb").read(), content)
        said = "\n".join(told.out).split("RM-05: no datafile 0\n")
        source.known.take(said[0].splitlines())
        return [Target(source, of, until, lines.splitlines()) for (of, until), lines in zip(targets, said[1:], strict=True)]

    def words(self, target, number, dbid, to, others=()):
        """The words of a duplicate of a target, but for these. What is so without being said is left out now and then."""
        source = target.source
        said = {"store": source.shared.folder, "to": to, "catalog": self.catalog, "dbid": dbid, "number": number, "until": target.until}
        if source.number or self.rng.random() < 0.5:
            said["from"] = source.number
        if target.incarnation != source.known.current or self.rng.random() < 0.5:
            said["incarnation"] = target.incarnation
        if self.rng.random() < 0.5:
            said["channels"] = self.rng.randint(1, 16)
        said |= dict(others)
        return ["duplicate", *(word for name, value in said.items() for word in (f"--{name}", str(value)))]

    def make(self, words, output=subprocess.PIPE):
        self.last = " ".join(words)
        return begin(self.program, words, output=output)

    def new_place(self):
        """A number without records, and a folder that there is not."""
        numbers, taken = [*NEW, self.rng.randrange(2**32)], {*NUMBERS, *rows_of(self.catalog)}
        number = self.rng.choice([number for number in numbers if number not in taken])
        self.folders += 1
        return number, f"{self.room}/copies_{self.folders}"

    def duplicates(self, source):
        """Duplicates of targets of this database: of one that is told, and of one that is refused."""
        targets = self.tests(source)
        refused = [target for target in targets if target.lines[-1].startswith("RM-")]
        told = [target for target in targets if target not in refused]
        if refused:
            gaps = [target for target in refused if target.lines[-1].startswith("RM-08")]
            self.refused_duplicate(self.rng.choice(gaps or refused))
        if told:
            # Of two the one with more blocks: of a young database many targets have none.
            self.made_duplicate(max(self.rng.choices(told, k=2), key=lambda target: len(target.lines)))

    def refused_duplicate(self, target):
        number, to = self.new_place()
        before = self.state()
        how = self.make(self.words(target, number, 9, to))
        what = f"a duplicate of {target.source.number} at {target.until} of {target.incarnation}"
        same(what, how, Ended(1, target.lines, ""))
        self.hold_all(what, before, to)
        self.tally["gaps" if target.lines[-1].startswith("RM-08") else "targets out of range"] += 1

    def made_duplicate(self, target):
        """A duplicate of a target that is told: what it answers, what it leaves, and what comes of it."""
        number, to = self.new_place()
        dbid, copy = self.rng.randrange(1, 2**32), Copy(target)
        words = self.words(target, number, dbid, to)
        left = self.failing_put(words, to, copy) if copy.files and self.rng.random() < 0.3 else {}
        is_full, before = self.rng.random() < 0.2, self.state()
        with open("/dev/full", "w", encoding="utf-8") as full, self.now_and_then_without_lock(target.source.shared.folder):
            how = self.make(words, full if is_full else subprocess.PIPE)
        same("a duplicate", how[:2], (4, []) if is_full else (0, copy.answers(dbid)))
        same("standard error of a duplicate", how.err[:22], "rman: standard output:" if is_full else "")
        after = self.hold_others("a duplicate", before, number, to)
        self.tally["lines that are not written"] += is_full
        objects = objects_of(to)
        same("the copies", sorted(objects), sorted(f"copy_{k}" for k in copy.numbers))
        same("the copies of a duplicate whose put failed", {name: objects[name] for name in left}, left)
        same("the new number has records", bool(after[0].get(number)), True)
        self.open_duplicate(copy, number, to)

    @contextlib.contextmanager
    def now_and_then_without_lock(self, folder):
        """A folder without its lock, where it has objects: a duplicate makes one, and leaves the rest."""
        is_without = self.rng.random() < 0.2 and bool(objects_of(folder))
        if is_without:
            os.rename(f"{folder}/{LOCK}", f"{self.room}/lock")
        yield
        if is_without:
            os.rename(f"{self.room}/lock", f"{folder}/{LOCK}")

    def failing_put(self, words, to, copy):
        """The same words where a put fails, since a folder has the name of a copy. Returns the copies that it leaves."""
        at = self.rng.choice(copy.numbers)
        os.makedirs(f"{to}/copy_{at}")
        before = self.state()
        how = self.make(words)
        same("a duplicate whose put fails", how[:2], (5, []))
        same("standard error of a put that fails", how.err.startswith(f"rman: store: copy_{at}: "), True)
        self.hold_others("a duplicate whose put fails", before, folder=to)
        left = {name: content for name, content in objects_of(to).items() if content is not None}
        same("what is left by a put that fails", sorted(left), sorted(f"copy_{k}" for k in range(1, at)))
        os.rmdir(f"{to}/copy_{at}")
        if left:
            again = self.make(words)
            same("the same words once more", again[:2], (1, ["RM-13: name copy_1 is taken"]))
        shutil.rmtree(to)
        self.tally["puts that fail"] += 1
        return left

    def open_duplicate(self, copy, number, to):
        """Restores, recovers and opens a duplicate, and holds each reply to what the source told of the target."""
        database = Database(number, Place(self.program, self.catalog, to, number))
        before = self.state()
        found = self.run(database.shared, "\n".join([*copy.script(), *ASKS]))
        same("the replies of a duplicate", found.out, copy.replies())
        same("the status of a duplicate", (found.status, found.err), (0, ""))
        self.hold_others("a session of a duplicate", before, number, to)
        database.known.threads = copy.source.known.threads
        database.known.take(found.out)
        self.copies.append(database)
        self.tally["duplicates"] += 1
        self.tally["blocks"] += sum(len(blocks) for _, _, blocks in copy.files)
        if self.rng.random() < 0.5:
            self.session(database)

    def begun(self):
        """The databases that have records."""
        return [it for it in [*self.databases.values(), *self.copies] if it.known.targets]

    def refusals(self):
        """A duplicate that is refused by something else than its target, and what is begun in the folder of another number."""
        source, other = self.rng.choice(self.begun()), self.rng.choice(self.begun())
        low, high = source.known.targets[source.known.current]
        target = Target(source, source.known.current, self.rng.choice([low, high]), [])
        number, to = self.new_place()
        ways = [
            ("RM-02: no database", {"from": number, "number": self.rng.choice([number, other.number])}),
            ("RM-03: a database is there", {"number": other.number, "until": self.rng.choice([low, high + 1])}),
            ("RM-07: no incarnation 300", {"incarnation": 300}),
        ]
        line, others = self.rng.choice(ways)
        before = self.state()
        same("a refused duplicate", self.make(self.words(target, number, 9, to, others)), Ended(1, [line], ""))
        self.hold_all("a refused duplicate", before, to)
        self.tally["other refusals"] += 1
        self.slips(target, other, number)

    def slips(self, target, other, number):
        """What is begun in the folder of another number of the same file ends with 5, and changes nothing."""
        before, source, taken, to = self.state(), target.source, other.shared.folder, f"{self.room}/never"
        had = Ended(5, [], f"rman: store: {taken}: database {other.number} of this catalog had it last\n")
        own = Ended(5, [], "rman: store: the duplicate needs a folder of its own\n")
        same("a duplicate into a taken folder", self.make(self.words(target, number, 9, taken)), own if other is source else had)
        if other is not source:
            slip = Place(self.program, self.catalog, taken, source.number)
            same("a session in a taken folder", self.run(slip, "LIST BACKUP; CREATE DATABASE;"), had)
            same("a duplicate out of a taken folder", self.make(self.words(target, number, 9, to, {"store": taken})), had)
        self.hold_all("a folder that is taken", before, to)
        self.tally["folders that are taken"] += 1

    def run_all(self):
        turns = [number for number in NUMBERS for _ in range(self.rng.randint(2, 4))]
        self.rng.shuffle(turns)
        for place, number in enumerate(turns):
            self.session(self.databases[number])
            if place % 2:
                self.duplicates(self.rng.choice(self.begun()))
        self.refusals()


class Copy:
    """A duplicate of a target, by what the source told of it."""

    def __init__(self, target):
        self.source, self.until = target.source, target.until
        self.skipped = [line for line in target.lines if line.startswith("skipped ")]
        # Of each datafile its number in the source, the SCN of its creation, and the version and value of each block.
        self.files = []
        for line in target.lines[len(self.skipped) + 1 :]:
            words = line.rstrip(":").replace(":", "").split()
            if words[0] == "datafile":
                file = int(words[1])
                blocks, created = self.source.known.made[file]
                same("the blocks of a datafile", int(words[2]), blocks)
                self.files.append((file, created, [(created, "-")] * blocks))
            else:
                self.files[-1][2][int(words[1])] = int(words[3]), words[5]
        self.numbers = range(1, len(self.files) + 1)

    def answers(self, dbid):
        """What the duplicate answers."""
        named = [f"duplicated datafile {file} as {k}" for k, (file, _, _) in zip(self.numbers, self.files)]
        return [*self.skipped, *named, f"duplicated database {dbid} at {self.until}: files {len(self.files)}"]

    def script(self):
        """Statements that bring it up and ask for all that is in it."""
        dumps = [f"DUMP DATAFILE {k} BLOCK {b};" for k, (_, _, blocks) in zip(self.numbers, self.files) for b in range(len(blocks))]
        opening = ["RECOVER DATABASE TEST;", "RESTORE DATABASE;", "RECOVER DATABASE;", "ALTER DATABASE OPEN RESETLOGS;"]
        return [*opening, *dumps, "LIST COPY;", "SHOW ALL;", "VALIDATE ALL;"]

    def replies(self):
        """What they, and ASKS, are answered."""
        until, count = self.until, len(self.files)
        lines = [f"until {until} of incarnation 1: files {count}"]
        for k, (_, created, blocks) in zip(self.numbers, self.files):
            written = [(b, version, value) for b, (version, value) in enumerate(blocks) if version > created]
            lines.append(f"datafile {k}: {len(blocks)} blocks, {len(written)} written")
            lines += [f"block {b} version {version} value {value}" for b, version, value in written]
        lines += [f"datafile {k} from {k} at {until}" for k in self.numbers]
        lines += [f"recovered until {until} of incarnation 1: files {count}", f"opened incarnation 2 at {until}"]
        for k, (_, _, blocks) in zip(self.numbers, self.files):
            lines += [f"datafile {k} block {b} version {version} value {value}" for b, (version, value) in enumerate(blocks)]
        lines += [f"copy {k} datafile {k} level 0 checkpoint {until} high {until} available tag DUPLICATE" for k in self.numbers]
        lines += ["retention redundancy 1", "parallelism 1", "tracking off", f"{count} checked, 0 bad"]
        made = [(k, len(blocks), created) for k, (_, created, blocks) in zip(self.numbers, self.files)]
        lines += [f"datafile {k} blocks {blocks} created at {created} of incarnation 1 in place at {until}" for k, blocks, created in made]
        first = self.source.known.targets[1][0]
        return [*lines, f"incarnation 1 parent 0 reset at {first} end {until} parent", f"incarnation 2 parent 1 reset at {until} end {until} current"]


def main(program, seed="0", count="10"):
    tally, began = collections.Counter(), time.time()
    for seed in range(int(seed), int(seed) + int(count)):
        with tempfile.TemporaryDirectory() as room:
            one = Round(os.path.abspath(program), seed, room, tally)
            try:
                one.run_all()
            except (Wrong, LookupError, ValueError) as why:
                print(f"round {seed}: {why!r}\nbehind: {one.last.replace(room, '.')}")
                return 1
        tally["rounds"] += 1
    print(", ".join(f"{number} {what}" for what, number in tally.items()) + f"; {time.time() - began:.0f} s")
    return 0


if __name__ == "__main__":
    sys.exit(main(*sys.argv[1:]))
