#!/usr/bin/env python3
"""The parts of bench/faults.sh, which says what they try and calls this:
    bench/faults.py PROGRAM LIBRARY ROOM PART [NUMBER]
PROGRAM is the program as it was built, LIBRARY bench/faults.c as it was built, ROOM an empty folder that everybody may enter."""
import collections
import os
import random
import re
import resource
import shutil
import signal
import sqlite3
import subprocess
import sys
import time

from faults_disk import calls_of, left_by

SESSIONS = [
    """CREATE DATABASE THREADS 2;
CREATE DATAFILE BLOCKS 8;
CREATE DATAFILE BLOCKS 4;
WRITE DATAFILE 1 BLOCK 0 VALUE 'a';
WRITE THREAD 2 DATAFILE 2 BLOCK 1 VALUE 'b';
BACKUP INCREMENTAL LEVEL 0 DATABASE TAG base;
BACKUP INCREMENTAL LEVEL 1 FOR RECOVER OF COPY WITH TAG roll DATABASE;
WRITE DATAFILE 1 BLOCK 2 VALUE 'c';""",
    """LIST BACKUP;
WRITE DATAFILE 1 BLOCK 0 VALUE 'd';
BACKUP INCREMENTAL LEVEL 1 DATABASE TAG night;
ALTER SYSTEM ARCHIVE LOG CURRENT;
WRITE DATAFILE 2 BLOCK 3 VALUE 'e';
BACKUP INCREMENTAL LEVEL 1 FOR RECOVER OF COPY WITH TAG roll DATABASE;
RECOVER COPY OF DATABASE WITH TAG roll;
BACKUP ARCHIVELOG ALL;
WRITE THREAD 2 DATAFILE 1 BLOCK 7 VALUE 'f';
ALTER SYSTEM ARCHIVE LOG CURRENT;
WRITE DATAFILE 2 BLOCK 0 VALUE 'g';""",
    """SHUTDOWN;
RESTORE DATABASE UNTIL SCN 8;
RECOVER DATABASE UNTIL SCN 8;
ALTER DATABASE OPEN RESETLOGS;
WRITE DATAFILE 1 BLOCK 5 VALUE 'h';
BACKUP DATABASE TAG after;
CROSSCHECK BACKUP;
WRITE THREAD 2 DATAFILE 2 BLOCK 2 VALUE 'i';
ALTER SYSTEM ARCHIVE LOG CURRENT;
CHANGE BACKUP 1 KEEP FOREVER;
DELETE OBSOLETE;
VALIDATE ALL;
WRITE DATAFILE 1 BLOCK 1 VALUE 'j';""",
    """ALTER DATABASE ENABLE BLOCK CHANGE TRACKING;
BACKUP AS BACKUPSET INCREMENTAL LEVEL 0 DATABASE FILESPERSET 2 TAG sets;
WRITE DATAFILE 1 BLOCK 2 VALUE 'k';
ALTER SYSTEM ARCHIVE LOG CURRENT;
ALTER DATABASE DISABLE THREAD 2;
WRITE DATAFILE 2 BLOCK 1 VALUE 'l';
ALTER DATABASE ENABLE THREAD 2;
BACKUP INCREMENTAL LEVEL 1 DATABASE FILESPERSET 2 TAG sets DURING { WRITE THREAD 2 DATAFILE 2 BLOCK 3 VALUE 'm'; };
HOST CORRUPT DATAFILE 1 BLOCK 2;
BLOCKRECOVER CORRUPTION LIST DURING { WRITE DATAFILE 1 BLOCK 4 VALUE 'n'; };
ALTER SYSTEM ARCHIVE LOG CURRENT;
BACKUP DATABASE FILESPERSET 2 TAG last;
CHANGE BACKUP 1 UNAVAILABLE;
CROSSCHECK BACKUP;
DELETE OBSOLETE;
WRITE THREAD 2 DATAFILE 1 BLOCK 6 VALUE 'o';""",
]
# After so many transactions the log of the catalog file is brought into it.
LONG = "".join(f"WRITE DATAFILE 1 BLOCK {place % 8} VALUE 'w{place}';" for place in range(520))
FILES = {1: 8, 2: 4}
TARGETS = [(incarnation, scn) for incarnation in (1, 2) for scn in range(2, 13)] + [(2, scn) for scn in range(13, 19)]

# What the next session is asked, and by what one behind it goes on.
ASKS = "\n".join(
    ["LIST INCARNATION; LIST BACKUP; LIST COPY; LIST ARCHIVELOG ALL; SHOW ALL; REPORT SCHEMA; REPORT OBSOLETE; REPORT NEED BACKUP;"]
    + [f"DUMP DATAFILE {file} BLOCK {block};" for file, count in FILES.items() for block in range(count)]
    + ["VALIDATE ALL; RECOVER DATABASE TEST;"]
    + [f"RECOVER DATABASE UNTIL SCN {scn} INCARNATION {incarnation} TEST;" for incarnation, scn in TARGETS]
)
GOES_ON = """STARTUP FORCE MOUNT; RESTORE DATABASE; RECOVER DATABASE; ALTER DATABASE OPEN RESETLOGS;
CREATE DATAFILE BLOCKS 2; WRITE DATAFILE 1 BLOCK 3 VALUE 'on'; ALTER SYSTEM ARCHIVE LOG CURRENT; BACKUP DATABASE TAG on;
VALIDATE ALL; RECOVER DATABASE TEST;"""

# How a session ends whose device failed, or was another's, and what standard error says.
DEVICES = {5: "rman: store: ", 6: "rman: (catalog|control): ", 7: "rman: memory ran out"}
# Ways of bench/faults.c: at a full disk and a dead one the later calls fail too.
WAYS = ["eio", "enospc", "eintr", "dead", "full"]
WAYS_OF_WRITES = [*WAYS, "half", "torn"]
NOBODY = 65534
AT_ONCE = 2

Ended = collections.namedtuple("Ended", "status out err")


class Folder:
    """A folder that has a store and a catalog. A state of it has what stands under each path: bytes, or None for a folder."""

    name, empty = "", {}

    def __init__(self, path, program, library):
        self.path, self.program, self.library = path, program, library
        self.log = f"{path}.log"

    def clear(self):
        os.makedirs(self.path, exist_ok=True)
        os.chmod(self.path, 0o755)
        for entry in os.scandir(self.path):
            shutil.rmtree(entry.path) if entry.is_dir() else os.unlink(entry.path)

    def put(self, state):
        self.clear()
        self.add(state)

    def add(self, state):
        for name in sorted(state):
            if state[name] is None:
                os.makedirs(f"{self.path}/{name}", 0o700, exist_ok=True)
            else:
                with open(os.open(f"{self.path}/{name}", os.O_WRONLY | os.O_CREAT, 0o600), "wb") as file:
                    file.write(state[name])

    def take(self):
        state = {}
        for top, folders, files in os.walk(self.path):
            at = os.path.relpath(top, self.path)
            state.update({os.path.normpath(f"{at}/{name}"): None for name in folders})
            for name in files:
                with open(f"{top}/{name}", "rb") as file:
                    state[os.path.normpath(f"{at}/{name}")] = file.read()
        return state

    def begin(self, script, store="objects", catalog="catalog", **how):
        """A session, of which that call meets a fault in that way, by as many channels as CHANNELS says, if it is set."""
        channels = ["--channels", os.environ["CHANNELS"]] if "CHANNELS" in os.environ else []
        return self.start(["--store", f"{self.path}/{store}", "--catalog", f"{self.path}/{catalog}", *channels], script, **how)

    def start(self, words, script, number=0, way="", log=None, room=None, **how):
        """The program with these words. Calls are counted on files in the room, which is all, where it is not said."""
        told = {"FAULTS_ROOM": room or self.path, "FAULTS_AT": str(number), "FAULTS_WAY": way, "FAULTS_LOG": log or "", "LD_PRELOAD": self.library}
        stdin = subprocess.PIPE if script is None else open_text(script)
        words = [self.program, *words]
        begun = subprocess.Popen(words, stdin=stdin, stdout=subprocess.PIPE, stderr=subprocess.PIPE, env=os.environ | told, **how)
        if script is not None:
            stdin.close()
        return begun

    def run(self, script, **how):
        return ended(self.begin(script, **how))

    def finds(self, **how):
        """What the next session tells of all that there is, and what comes of the one by which it goes on. Warnings are left out."""
        found = self.run(ASKS, **how), self.run(GOES_ON, **how)
        return tuple(Ended(one.status, one.out, without_warnings(one.err)) for one in found)


class Controlled(Folder):
    """A folder that has a control file too, and its catalog in a folder of its own."""

    name, empty = "with a control file, ", {"far": None}

    def start(self, words, script, **how):
        there = {f"{self.path}/catalog": f"{self.path}/far/catalog"}
        return super().start([*(there.get(word, word) for word in words), "--control", f"{self.path}/near"], script, **how)


def open_text(text):
    """A file to be read that has this text."""
    read, write = os.pipe()
    os.write(write, text.encode())
    os.close(write)
    return open(read, "rb")


def ended(begun, script=None):
    """How a session ended. One that takes 60 s counts as stopped by a signal."""
    try:
        out, err = begun.communicate(script and script.encode(), timeout=60)
    except subprocess.TimeoutExpired:
        begun.kill()
        out, err = begun.communicate()
        return Ended(-signal.SIGALRM, out, "it did not end within 60 s")
    return Ended(begun.returncode, out, err.decode())


def without_warnings(err):
    return "".join(line for line in err.splitlines(True) if not line.startswith("rman: warning: "))


class History:
    """What replies tell: the records that are there, and up to which SCN all is in backups and archived logs."""

    def __init__(self):
        self.changes, self.created, self.listed, self.copies = {}, {}, set(), {}
        self.safe = (1, 1)

    def take(self, statement, reply):
        if statement.startswith("LIST"):
            return
        for line in reply.splitlines():
            self.take_line(statement, line)

    def take_line(self, statement, line):
        words = line.split()
        if write := re.fullmatch(r"WRITE .*DATAFILE (\d+) BLOCK (\d+) VALUE '(.*)'", statement):
            self.changes[int(words[1])] = (int(write[1]), int(write[2]), write[3].encode().hex())
        elif words[0] == "thread" and words[2] == "scn":
            write = re.search(rf"WRITE (?:THREAD {words[1]} )?DATAFILE (\d+) BLOCK (\d+) VALUE '(.*?)'", statement)
            self.changes[int(words[3])] = (int(write[1]), int(write[2]), write[3].encode().hex())
        elif created := re.match(r"datafile (\d+) created at (\d+) with", line):
            self.created[int(created[1])] = int(created[2])
        elif words[0] in ("piece", "copy", "set", "log"):
            self.take_record(words)
        elif deleted := re.match(r"deleted (\d+)", line):
            self.listed.discard(int(deleted[1]))
        elif opened := re.match(r"opened incarnation (\d+) at (\d+)", line):
            self.safe = (int(opened[1]), int(opened[2]))
            self.changes = {scn: change for scn, change in self.changes.items() if scn < self.safe[1]}
        elif reached := re.match(r"recovered until (\d+)", line):
            self.safe = (self.safe[0], min(self.safe[1], int(reached[1])))

    def take_record(self, words):
        self.listed.add(int(words[1]))
        if words[0] == "copy":
            self.listed.discard(self.copies.get(words[3]))
            self.copies[words[3]] = int(words[1])
        if "next" in words or "checkpoint" in words:
            self.safe = (self.safe[0], max(self.safe[1], int(words[words.index("next" if "next" in words else "checkpoint") + 1])))

    def recovery(self):
        """What a recovery until that SCN tells, as a test."""
        files = [file for file in FILES if self.created.get(file, self.safe[1]) < self.safe[1]]
        lines = [f"until {self.safe[1]} of incarnation {self.safe[0]}: files {len(files)}"]
        for file in files:
            last = {block: (scn, value) for scn, (of, block, value) in sorted(self.changes.items()) if of == file and scn < self.safe[1]}
            lines.append(f"datafile {file}: {FILES[file]} blocks, {len(last)} written")
            lines += [f"block {block} version {scn} value {value}" for block, (scn, value) in sorted(last.items())]
        return "\n".join(lines) + "\n"

    def is_kept(self, found):
        asked = found[0].out.decode()
        listed = {int(line[2]) for line in re.finditer(r"^(piece|copy|set|log) (\d+) ", asked, re.M)}
        bad = not re.search(r"^\d+ checked, 0 bad$", asked, re.M) and self.created
        return not bad and listed == self.listed and (self.safe not in TARGETS or self.recovery() in asked)


class Reference:
    """A session as it goes without a fault, and what the next one finds where it stops behind each of its replies."""

    def __init__(self, folder, name, script, before):
        self.folder, self.name, self.script, self.before = folder, name, script, before
        folder.put(before)
        how = folder.run(script, log=folder.log)
        assert how.status <= 1 and not without_warnings(how.err), f"{name}: {how}"
        self.calls, self.after, self.out = list(calls_of(folder.log)), folder.take(), how.out
        assert self.left(None, "all") == self.after, "the folder is not what the calls make of it"
        self.saved = folder.finds()
        self.ends = [0] + [place + 1 for place, call in enumerate(self.calls) if call.fd == 1]
        self.replies = [b"".join(call.bytes for call in self.calls[:end] if call.fd == 1) for end in self.ends]
        self.found = {}

    def hold_to(self, history):
        """Holds what is found behind each reply to what the replies tell."""
        statements = [one.strip().rstrip(";") for one in re.findall(r"[^;{]*(?:\{[^}]*\}[^;]*)?;", self.script)]
        assert len(self.replies) == len(statements) + 1
        for place, statement in enumerate(statements):
            history.take(statement, self.replies[place + 1][len(self.replies[place]) :].decode())
            found = self.stopped(place + 1)
            assert history.is_kept(found), f"{self.name}, a stop behind {statement}: {found[0]}"
        assert history.is_kept(self.saved), f"{self.name}: {self.saved[0]}"

    def left(self, count, way, rng=None):
        """What a stop behind so many calls leaves."""
        return left_by(self.folder.path, self.before, self.calls[:count], way, rng)

    def stopped(self, answered):
        """What is found where it stops behind so many replies."""
        if answered not in self.found:
            self.folder.put(self.left(self.ends[answered], "all"))
            self.found[answered] = self.folder.finds()
        return self.found[answered]

    def answered(self, out):
        """How many statements these bytes answer; None where they are no front of the replies."""
        return self.replies.index(out) if out in self.replies else None

    def kinds(self):
        """The places of the calls, by name and file. Numbers of objects make no difference."""
        kinds = collections.defaultdict(list)
        for place, call in enumerate(self.calls):
            kinds[call.name, *(re.sub(r"\d+$", "", path) for path in call.paths)].append(place)
        return kinds

    def somewhere(self, rng):
        """Up to which call a session may come: any, or one of a kind that was drawn, so that rare ones are met as often."""
        if rng.random() < 0.5:
            return rng.randrange(len(self.calls))
        places = rng.choice(sorted(self.kinds().items()))[1]
        return rng.choice(places) + rng.randrange(2)

    def is_lost(self, how, found):
        """Why that may not be found behind a session that ended so: what it answered is done, and one statement more, or the save, may be."""
        answered = self.answered(how.out)
        if answered is None:
            return None
        last = len(self.replies) - 1
        allowed = [] if how.status == 0 else [self.stopped(count) for count in (answered, answered + 1) if count <= last]
        if answered == last:
            allowed.append(self.saved)
        if found in allowed:
            return None
        nearest = next((one for one in allowed if one[0] == found[0]), allowed[0])
        return f"status {how.status} behind {answered} statements, then {difference(nearest, found)}"

    def is_no_end(self, how, devices):
        """Why a session may not end so, where one of these devices failed."""
        answered = self.answered(how.out)
        if how.status not in (0, 3, 4, 5, 6, 7):
            return f"status {how.status}: {how.err!r}"
        if answered is None:
            return f"status {how.status}, other replies: {how.out[-200:]!r}"
        if how.status == 0:
            return None if how.out == self.out else f"status 0 behind {answered} statements"
        if how.status not in devices or not re.search(DEVICES[how.status], how.err):
            return f"status {how.status}, and standard error says {how.err!r}"
        return None


def difference(wanted, found):
    for want, have in zip(wanted, found):
        if (have.status, have.err) != (want.status, want.err):
            return f"status {have.status} and {have.err!r}, not {want.status} and {want.err!r}"
        for old, new in zip(want.out.decode().splitlines(), have.out.decode().splitlines()):
            if old != new:
                return f"{new!r}, not {old!r}"
    return "fewer or more replies"


class Tally:
    """What came of a part: how many tries, how many of each outcome, and what was bad. Of each problem three are told."""

    def __init__(self, part):
        self.part, self.tries, self.bad, self.outcomes, self.began = part, 0, 0, collections.Counter(), time.time()
        self.problems = collections.Counter()

    def add(self, outcome, what, *problems):
        problems = [problem for problem in problems if problem]
        self.tries += 1
        self.outcomes[outcome] += 1
        self.bad += bool(problems)
        for problem in problems:
            kind = re.sub("^status .* statements, then ", "", problem)
            self.problems[kind] += 1
            if self.problems[kind] <= 3:
                print(f"BAD {self.part}: {what}: {re.sub('/[^ ]*/now/', '', problem)}", flush=True)

    def tell(self, unit):
        outcomes = ", ".join(f"{outcome} {count}" for outcome, count in sorted(self.outcomes.items()))
        print(f"{self.part}: {self.tries} {unit} ({outcomes}), {self.bad} bad, {time.time() - self.began:.0f} s", flush=True)
        return self.bad == 0


def long_session(folder, refs):
    return Reference(folder, "a long session", LONG, refs[-1].after)


def try_call(folder, ref, call, way, rng, tally):
    folder.put(ref.before)
    how = folder.run(ref.script, number=call.number, way=way, log=folder.log)
    devices = (5, 6) if way in ("dead", "full") else (5,) if "/objects" in call.paths[0] else (6,)
    what = f"{ref.name}, call {call.number}, {call.name} of {' '.join(os.path.relpath(path, folder.path) for path in call.paths)}, {way}"
    problems = [ref.is_no_end(how, devices)]
    if call.name in ("fsync", "fdatasync") and rng.random() < 0.5:
        what += ", and what was not synced is lost"
        folder.put(left_by(folder.path, ref.before, calls_of(folder.log), "least"))
    if rng.random() < 0.5:
        number, again = rng.randrange(1, 150), rng.choice(WAYS_OF_WRITES)
        what += f", then call {number} of the next session, {again}"
        asks = folder.run(ASKS, number=number, way=again)
        problems.append(asks.status not in (0, 1, 5, 6) and f"then status {asks.status} and {asks.err!r}")
    tally.add(f"status {how.status}", what, *problems, ref.is_lost(how, folder.finds()))


def part_calls(folder, refs, number, rng):
    long = long_session(folder, refs)
    calls = [(ref, call) for ref in refs for call in ref.calls if call.number]
    calls += [(long, long.calls[place]) for places in long.kinds().values() if len(places) < 20 for place in places if long.calls[place].number]
    faults = [
        (ref, call, way)
        for ref, call in calls
        for way in (WAYS_OF_WRITES if call.name in ("write", "pwrite") else WAYS)
    ]
    tally = Tally(f"{folder.name}calls")
    for fault in rng.sample(faults, number) if 0 < number < len(faults) else faults:
        try_call(folder, *fault, rng, tally)
    return tally.tell("calls that failed")


def try_cut(folder, ref, count, way, is_twice, rng, tally):
    what = f"{ref.name} behind {count} of {len(ref.calls)} calls, {way}"
    state = ref.left(count, way, rng)
    folder.put(state)
    if is_twice:
        folder.run(ASKS, log=folder.log)
        calls = list(calls_of(folder.log))
        again = rng.randrange(len(calls) + 1)
        what += f", and in the next session behind {again} of {len(calls)}"
        folder.put(left_by(folder.path, state, calls[:again], way, rng))
    answered = sum(call.fd == 1 for call in ref.calls[:count])
    how = Ended(0 if count == len(ref.calls) else -signal.SIGKILL, ref.replies[answered], "")
    tally.add(way, what, ref.is_lost(how, folder.finds()))


def way_back(folder, ref, rng):
    """The session that goes on behind a power cut; None where it does not come to its end, which a cut there tells too."""
    state = ref.left(ref.somewhere(rng), rng.choice(("least", "all", "some")), rng)
    folder.put(state)
    if folder.run(GOES_ON).status > 1:
        return None
    return Reference(folder, f"the way back behind a cut of {ref.name}", GOES_ON, state)


def part_cuts(folder, refs, number, rng):
    tally = Tally(f"{folder.name}cuts")
    refs = [*refs, long_session(folder, refs)]
    for place in range(number or 1000):
        ref = rng.choice(refs)
        ref = place % 4 == 3 and way_back(folder, ref, rng) or ref
        count = len(ref.calls) if place % 20 == 0 else ref.somewhere(rng)
        try_cut(folder, ref, count, ("least", "all", "some")[place % 3], place % 4 == 1, rng, tally)
    return tally.tell("power cuts")


def await_lock(folder):
    """Waits until the session that has this log has the folder."""
    for _ in range(1000):
        if any(call.name == "flock" and call.answer == 0 for call in calls_of(folder.log)):
            return
        time.sleep(0.01)
    raise AssertionError("the first session never has the folder")


def is_no_refusal(how, statuses):
    """Why this is not the end of a session whose devices another one has: it did nothing."""
    if how.status in statuses and not how.out and re.search(DEVICES[how.status], how.err):
        return None
    return f"the other one: status {how.status}, {how.out[:40]!r}, {how.err!r}"


def try_held(folder, ref, rng, tally, has_own):
    """One session has the folder and waits for its script; the other has a catalog of its own, or the same."""
    folder.put(ref.before)
    open(folder.log, "wb").close()
    first = folder.begin(None, log=folder.log)
    await_lock(folder)
    began = time.time()
    second = folder.run(SESSIONS[0], catalog="other") if has_own else folder.run(ASKS)
    took = time.time() - began
    how = ended(first, ref.script)
    tally.add(
        f"status {second.status}",
        f"{ref.name} and one behind it, {'two catalogs' if has_own else 'one catalog'}",
        is_no_refusal(second, (5,) if has_own else (5, 6)),
        took > AT_ONCE and f"the other one took more than {AT_ONCE} s",
        how != Ended(0, ref.out, "") and f"the first one: {how}",
        ref.is_lost(how, folder.finds()),
    )


def try_race(folder, ref, rng, tally, has_own):
    """Both begin at once, each with a call that is slow: a session, and one that asks by the same catalog, or the same script by another
    catalog over a new folder."""
    folder.put({} if has_own else ref.before)
    begun = {}
    for name in rng.sample(("one", "two"), 2):
        asks = name == "two" and not has_own
        catalog = "other" if name == "two" and has_own else "catalog"
        begun[name] = folder.begin(ASKS if asks else ref.script, number=rng.randrange(80), way="slow", catalog=catalog)
        time.sleep(rng.choice((0, 0, 0.001, 0.003, 0.03)))
    one, two = ended(begun["one"]), ended(begun["two"])
    ends = "both" if one.status < 5 and two.status < 5 else "neither" if min(one.status, two.status) >= 5 else "one"
    problems = [is_no_refusal(how, (5,) if has_own else (5, 6)) for how in (one, two) if how.status >= 5]
    problems.append(ends == "neither" and "neither has it")
    if not has_own:
        problems.append(ref.is_lost(one, folder.finds()))
    elif ends == "one":
        problems.append(ref.is_lost(one if one.status == 0 else two, folder.finds(catalog="catalog" if one.status == 0 else "other")))
    what = f"{ref.name}, both at once, {'two catalogs' if has_own else 'one catalog'}: {one.status} and {two.status}"
    tally.add(f"{ends} of a race", what, *problems)


def part_pairs(folder, refs, number, rng):
    tally = Tally("pairs")
    for place in range(number or 200):
        has_own = place % 4 >= 2
        if place % 2:
            try_race(folder, refs[0] if has_own else rng.choice(refs), rng, tally, has_own)
        else:
            try_held(folder, rng.choice(refs), rng, tally, has_own)
    return tally.tell("pairs of sessions")


def limit_files(size):
    def limit():
        signal.signal(signal.SIGXFSZ, signal.SIG_IGN)
        resource.setrlimit(resource.RLIMIT_FSIZE, (size, size))

    return limit


def fill(path, room):
    """Fills the disk, but for that many bytes."""
    with open(path, "ab") as file:
        free = os.statvfs(path).f_bavail * os.statvfs(path).f_frsize
        os.posix_fallocate(file.fileno(), 0, max(1, file.tell() + free - room))


def try_full(folder, ref, place, room, tally):
    """A session where that folder is a disk of its own that has so little room, and the next one where it has none at all, but where no
    database was made yet."""
    disk = os.path.normpath(f"{folder.path}/{place}")
    folder.clear()
    os.makedirs(disk, exist_ok=True)
    subprocess.run(["mount", "-t", "tmpfs", "-o", "size=8m,mode=755", "tmpfs", disk], check=True)
    try:
        folder.add(ref.before)
        fill(f"{disk}/.filler", room)
        how = folder.run(ref.script)
        if ref.before or how.out:
            fill(f"{disk}/.filler", 0)
        else:
            os.truncate(f"{disk}/.filler", 0)
        asks = folder.run(ASKS)
        os.unlink(f"{disk}/.filler")
        goes_on = folder.run(GOES_ON)
    finally:
        subprocess.run(["umount", disk], check=True)
    found = tuple(Ended(one.status, one.out, without_warnings(one.err)) for one in (asks, goes_on))
    what = f"{ref.name}, where {place} is a disk with {room} bytes"
    tally.add(f"status {how.status}", what, ref.is_no_end(how, (5, 6)), ref.is_lost(how, found))


def try_limited(folder, ref, size, tally):
    folder.put(ref.before)
    how = folder.run(ref.script, preexec_fn=limit_files(size))
    tally.add(f"status {how.status}", f"{ref.name}, files of {size} bytes", ref.is_no_end(how, (5, 6)), ref.is_lost(how, folder.finds()))


def part_disks(folder, refs, number, rng):
    tally = Tally("disks")
    for place in range(number or 300):
        ref = rng.choice(refs)
        if place % 3 == 0 or os.geteuid() != 0:
            try_limited(folder, ref, rng.choice((rng.randrange(600), rng.randrange(300_000))), tally)
        elif place % 3 == 1:
            try_full(folder, ref, ".", rng.randrange(150) * 4096, tally)
        else:
            try_full(folder, ref, "objects", rng.randrange(30) * 4096, tally)
    return tally.tell("full disks")


# The folder `deep` has the store of a first session alone.
RIGHTS = [("objects", mode) for mode in (0, 0o100, 0o300, 0o400, 0o500, 0o600)] + [
    (name, mode) for name in (".", "deep", "objects/.rman-lock", "objects/*", "catalog", "catalog-wal") for mode in (0, 0o400, 0o500)
]


def try_rights(folder, ref, name, mode, tally):
    """A session of a user who is not root, without rights; then with them again."""
    words = {"user": NOBODY, "group": NOBODY, "extra_groups": []} if os.geteuid() == 0 else {}
    folder.put(ref.before | ({"deep": None} if name == "deep" else {}))
    words |= {"store": "deep/objects"} if name == "deep" else {}
    if os.geteuid() == 0:
        subprocess.run(["chown", "-R", f"{NOBODY}:{NOBODY}", folder.path], check=True)
    entries = {path: os.stat(path).st_mode & 0o777 for path in paths_of(folder, name)}
    for path in entries:
        os.chmod(path, mode)
    how = folder.run(ref.script, **words)
    for path, old in entries.items():
        if os.path.exists(path):
            os.chmod(path, old)
    tally.add(f"status {how.status}", f"{ref.name}, {name} with {mode:o}", ref.is_no_end(how, (5, 6)), ref.is_lost(how, folder.finds(**words)))


def paths_of(folder, name):
    if name == "objects/*":
        at = f"{folder.path}/objects"
        return [f"{at}/{entry}" for entry in os.listdir(at) if not entry.startswith(".")] if os.path.isdir(at) else []
    path = os.path.normpath(f"{folder.path}/{name}")
    return [path] if os.path.exists(path) else []


def part_rights(folder, refs, number, rng):
    tally = Tally("rights")
    tries = [(ref, name, mode) for ref in refs for name, mode in RIGHTS if name == "." or (name == "deep") == (ref is refs[0])]
    for one in rng.sample(tries, number) if 0 < number < len(tries) else tries:
        try_rights(folder, *one, tally)
    return tally.tell("folders and files without rights")


def objects_in(folder):
    return {name for name in os.listdir(f"{folder.path}/objects") if not name.startswith(".")}


def part_many(folder, refs, number, rng):
    """A folder of so many objects: those of 64 datafiles, backed up until the records are full, and strange ones."""
    tally, number = Tally("many"), max(number or 65536, 256)
    count = min(number // 64 - 1, 1020)
    folder.put({})
    files = "CREATE DATABASE;" + "CREATE DATAFILE BLOCKS 1;" * 64 + "WRITE DATAFILE 1 BLOCK 0 VALUE 'a';"
    how = folder.run(files + "BACKUP DATABASE TAG t;" * count)
    tally.add("made", f"{64 * count} pieces", how.status != 0 and f"status {how.status}: {how.err!r}")
    strange = {f"strange_{place}" for place in range(number - len(objects_in(folder)))}
    for name in strange:
        with open(f"{folder.path}/objects/{name}", "wb") as file:
            file.write(b"strange")
    how = folder.run("VALIDATE ALL; CROSSCHECK BACKUP;")
    wanted = f"{64 * count} checked, 0 bad\n".encode() + b"".join(b"%d available\n" % (place + 1) for place in range(64 * count))
    problem = how != Ended(0, wanted, "") and f"status {how.status}: {how.out[:60]!r} {how.err!r}"
    tally.add("asked", f"{len(objects_in(folder))} objects", problem)
    how = folder.run("DELETE OBSOLETE; VALIDATE ALL;")
    wanted = f"{64 * (count - 1)} deleted\n64 checked, 0 bad\n".encode()
    problem = not how.out.endswith(wanted) and f"status {how.status}: {how.out[-60:]!r} {how.err!r}"
    tally.add("deleted", f"{number} objects", problem, not strange <= objects_in(folder) and "a strange object is gone")
    return tally.tell(f"sessions over {number} objects")


def try_closed(folder, ref, closed, tally):
    """A session without some of its standard streams: it takes no file of the folder for one."""
    folder.put(ref.before)
    how = folder.run(ref.script, preexec_fn=lambda: [os.close(number) for number in closed])
    wanted = 3 if 0 in closed else 4 if 1 in closed else 0
    with open(f"{folder.path}/objects/.rman-lock", "rb") as file:
        mark = file.read()
    problem = f"status {how.status}, not {wanted}" if how.status != wanted else ref.is_lost(how, folder.finds())
    spoiled = mark != f"{folder.path}/catalog".encode() and f"the folder's mark is {mark[:60]!r}"
    tally.add(f"status {how.status}", f"{ref.name} without the streams {closed}", problem, spoiled)


def execute(path, statements):
    """Makes or changes a database as another program does."""
    database = sqlite3.connect(path)
    database.executescript(statements)
    database.close()


# Files that are no catalog, each by what makes it of a copy of one.
NO_CATALOGS = {
    "another program's database": lambda path: (os.unlink(path), execute(path, "CREATE TABLE t (x); INSERT INTO t VALUES (1);")),
    "a table with other columns": lambda path: (os.unlink(path), execute(path, "CREATE TABLE record (number, kind, id, value);")),
    "a catalog with a row that is no record": lambda path: execute(path, "UPDATE record SET body = x'00' WHERE kind = 1;"),
    "no database": lambda path: open(path, "wb").write(b"strange" * 999),
    "a folder": lambda path: (os.unlink(path), os.mkdir(path)),
}
OBJECT_NAMES = ["piece_1", "copy_3", "set_9", "log_11", "site_5", "site_99", ".rman-lock", ".rman-new-piece_1"]


def try_unfit(folder, what, catalog, tally):
    """A session whose catalog is refused, over the folder as it stands: it ends with 6, and all files have what they had."""
    before = folder.take()
    how = folder.run(SESSIONS[0], catalog=catalog)
    after = folder.take()
    changed = [name for name in {**before, **after} if name != f"{catalog}-wal" and before.get(name, b"") != after.get(name, b"")]
    tally.add(f"status {how.status}", what, is_no_refusal(how, (6,)), changed and f"{sorted(changed)} changed")


def part_wrong(folder, refs, number, rng):
    """All of it, whatever the number."""
    tally, state = Tally("wrong"), refs[1].before
    for ref in refs[:2]:
        for closed in ([0], [1], [2], [0, 1], [0, 2], [1, 2], [0, 1, 2]):
            try_closed(folder, ref, closed, tally)
    for name in OBJECT_NAMES:
        for objects in (state, {"objects": None}):
            folder.put(objects)
            try_unfit(folder, f"a catalog objects/{name}", f"objects/{name}", tally)
    for what, make in NO_CATALOGS.items():
        for place, objects in (("a folder in use", state), ("an empty folder", {"objects": None}), ("no folder", {})):
            folder.put(objects | {"other": state["catalog"]})
            make(f"{folder.path}/other")
            try_unfit(folder, f"{what}, {place}", "other", tally)
    return tally.tell("sessions that are begun wrongly")


def part_controls(folder, refs, number, rng):
    """Of so many tries half are calls that fail, a fourth power cuts, and a fourth sessions whose catalog fails from some call on and is back for the next."""
    number, tally = number or 2000, Tally(f"{folder.name}away")
    long = long_session(folder, refs)
    for _ in range(number // 4):
        ref, call = rng.choice([*refs, long, long]), rng.randrange(1, 200)
        folder.put(ref.before)
        how = folder.run(ref.script, number=call, way="dead", room=f"{folder.path}/far")
        tally.add(f"status {how.status}", f"{ref.name}, the catalog away from its call {call} on", ref.is_no_end(how, (6,)), ref.is_lost(how, folder.finds()))
    return tally.tell("sessions whose catalog went") & part_calls(folder, refs, number // 2, rng) & part_cuts(folder, refs, number // 4, rng)


PARTS = {
    "controls": part_controls,
    "calls": part_calls,
    "cuts": part_cuts,
    "pairs": part_pairs,
    "disks": part_disks,
    "rights": part_rights,
    "many": part_many,
    "wrong": part_wrong,
}


def references(folder):
    state, history, found = folder.empty, History(), []
    for number, script in enumerate(SESSIONS):
        found.append(Reference(folder, f"session {number + 1}", script, state))
        found[-1].hold_to(history)
        state = found[-1].after
    return found


def main():
    program, library, room, part = sys.argv[1:5]
    number = int(sys.argv[5]) if len(sys.argv) > 5 else 0
    kind = Controlled if part == "controls" else Folder
    folder, seed = kind(f"{room}/now", program, library), os.environ.get("FAULTS_SEED") or str(random.randrange(2**32))
    if PARTS[part](folder, references(folder), number, random.Random(seed)):
        return 0
    print(f"{part}: the seed was {seed}")
    return 1


if __name__ == "__main__":
    sys.exit(main())
