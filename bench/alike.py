#!/usr/bin/env python3
"""Random scripts by 1, 2, 4 and 16 channels, each over a database of its own, with damaged and missing objects among what they read:
    bench/alike.py PROGRAM [SEED [COUNT]]
PROGRAM is the program as it was built; COUNT rounds (20) are tried, of the seeds from SEED (0) on. A round is sessions of random statements: writes, backups of each kind,
merges, host mishaps, losses, recoveries, RESETLOGS. Each session is run by each number of channels, which `--channels` says, or ALLOCATE CHANNEL in a RUN for each statement that
takes channels, or CONFIGURE. Each must give the same replies, status and standard error, skipped records and gaps among them, the same objects byte for byte (what is in place is
saved in them), and the same records but for their moments. No block is written while a BACKUP reads it, since its row would then depend on turns (bench/during.py tries that).
Behind each session copies of the databases have some objects turned in a byte, cut, emptied, removed or exchanged, in each the same, and are then asked and recovered: VALIDATE ALL,
tests of random targets, previews, RESTORE, RECOVER, RECOVER COPY, BACKUP ARCHIVELOG ALL and BACKUP. The first thing that differs is told with its seed, and the status is 1."""
import collections
import os
import random
import re
import shutil
import subprocess
import sys
import tempfile
import time

from shared import LOCK, Wrong, objects_of, rows_of, same, without_moments
from shared_scripts import ASKS, Known, Script

CHANNELS = (1, 2, 4, 16)
WAYS = ("said", "allocated", "configured")
# What is counted of the replies.
COUNTED = {"skipped": r"skipped ", "bad": r"\d+ (missing|damaged)", "gaps": "RM-08", "recoveries": "(recovered|until) ", "merges": r"copy .* merged", "mends": r".* mended"}
# The statements that take channels.
TAKES = re.compile(r"(BACKUP|RESTORE|RECOVER|VALIDATE|REPORT (OBSOLETE|NEED)|DELETE (NOPROMPT )?OBSOLETE)\b")
Left = collections.namedtuple("Left", "status errors replies objects records")


def spelled(script, way, channels):
    """A script with its number of channels as that way has it, each statement on the line that it had."""
    if way == "allocated":
        allocated = "ALLOCATE CHANNEL c DEVICE TYPE DISK; " * channels
        return [f"RUN {{ {allocated}{line} }}" if TAKES.match(line) else line for line in script]
    if way == "configured":
        return [f"CONFIGURE DEVICE TYPE DISK PARALLELISM {channels};", *script, "CONFIGURE DEVICE TYPE DISK PARALLELISM 1;"]
    return script


class Busy(Script):
    """A session with more backups, so that by 16 channels there are more objects than are got at a time."""

    def step(self):
        moves = [self.backup, self.backup, self.roll, self.archive]
        self.rng.choice(moves)() if self.files and self.rng.random() < 0.5 else super().step()

    def roll(self):
        self.say("BACKUP INCREMENTAL LEVEL 1 FOR RECOVER OF COPY WITH TAG roll DATABASE;")


class Side:
    """A database in a folder, which is always run by the same number of channels."""

    def __init__(self, program, folder, channels, began):
        self.program, self.folder, self.channels, self.began = program, folder, channels, began
        os.makedirs(folder, exist_ok=True)

    def run(self, script, way):
        """Runs a session, and returns how it ended and what it left."""
        words = [self.program, "--store", f"{self.folder}/objects", "--catalog", f"{self.folder}/catalog"]
        words += ["--channels", str(self.channels)] if way == "said" else []
        text = "\n".join(spelled(script, way, self.channels))
        try:
            done = subprocess.run(words, input=text, capture_output=True, text=True, check=False, timeout=300)
        except subprocess.TimeoutExpired as why:
            raise Wrong(str(why)) from why
        replies = [re.sub(r"^parallelism \d+$", "parallelism", line) for line in done.stdout.splitlines() if line != "channel allocated"]
        # A copy says on standard error that its catalog is another one than before.
        errors = [line for line in done.stderr.splitlines() if "was last used with the catalog" not in line]
        records = without_moments(rows_of(f"{self.folder}/catalog").get(0, {}), self.began)
        return Left(done.returncode, errors, replies, objects_of(f"{self.folder}/objects"), records)

    def copy(self, folder):
        """A database as this one is."""
        shutil.copytree(self.folder, folder)
        return Side(self.program, folder, self.channels, self.began)


def harm(rng, sides):
    """Some objects are changed or go, in each database the same ones in the same way. Returns how many."""
    names = sorted(objects_of(f"{sides[0].folder}/objects"))
    harmed = [name for name in names if rng.random() < (0.1 if name.startswith("site_") else rng.choice([0.1, 0.4]))]
    for name in harmed:
        way, other, share = rng.choice(["turn", "turn", "cut", "empty", "remove", "remove", "exchange"]), rng.choice(names), rng.random()
        for side in sides:
            change(f"{side.folder}/objects/{name}", f"{side.folder}/objects/{other}", way, share)
    return len(harmed)


def change(path, other, way, share):
    """Turns a byte of a file, cuts it, empties or removes it, or exchanges it with another one."""
    if not os.path.exists(path):
        return
    if way == "exchange" and other != path and os.path.exists(other):
        os.rename(path, f"{path}.part")
        os.rename(other, path)
        os.rename(f"{path}.part", other)
        return
    with open(path, "rb") as stood:
        content = bytearray(stood.read())
    at = int(share * len(content))
    os.remove(path)
    if way == "turn" and content:
        content[at] ^= 255
    if way != "remove":
        with open(path, "wb") as made:
            made.write(content if way == "turn" else content[: at if way == "cut" else 0])


def questions(rng, known):
    """Statements that read what there is, of a database that may be open or not."""

    def until():
        return rng.choice(["", f" UNTIL SCN {known.some_target(rng)[1]}"])

    incarnation, scn = known.some_target(rng)
    lines = ["VALIDATE ALL;", "RECOVER DATABASE TEST;", f"RECOVER DATABASE UNTIL SCN {scn} INCARNATION {incarnation} TEST;", f"RESTORE DATABASE{until()} PREVIEW;"]
    lines += [f"RECOVER COPY OF DATABASE WITH TAG {rng.choice(['roll', 'one'])}{until()};", "BACKUP ARCHIVELOG ALL;", f"RECOVER DATABASE{until()} TEST;"]
    rng.shuffle(lines)
    restored = rng.choice(["DATABASE", "DATABASE", f"DATAFILE {rng.choice(sorted(known.made) or [1])}"])
    lines += ["SHUTDOWN;", f"RESTORE {restored}{until()};", "RECOVER DATABASE;", f"RESTORE DATABASE{until()};", f"RECOVER DATABASE{until()};"]
    return [*lines, "ALTER DATABASE OPEN RESETLOGS;", "BACKUP DATABASE TAG after;", "VALIDATE ALL;", *ASKS]


class Round:
    """What one seed tries, in a folder of its own."""

    def __init__(self, program, seed, room, tally):
        self.rng, self.room, self.tally, self.known, self.last = random.Random(seed), room, tally, Known(), ""
        self.sides = [Side(program, f"{room}/by_{channels}", channels, int(time.time())) for channels in CHANNELS]

    def run(self, sides, script, way):
        """A session by each number of channels. Returns what each left."""
        self.last = f"{way}: " + "\n".join(script)
        first = sides[0].run(script, way)
        if first.status > 1:
            raise Wrong(f"status {first.status}: {first.errors}")
        for side in sides[1:]:
            left = side.run(script, way)
            for name, found, wanted in zip(Left._fields, left, first):
                same(f"{side.channels} channels beside {sides[0].channels}, {name}", found, wanted)
        self.tally["sessions"] += 1
        self.tally["objects"] += len(first.objects)
        for what, form in COUNTED.items():
            self.tally[what] += sum(bool(re.match(form, line)) for line in first.replies)
        return first

    def session(self):
        """A session of random statements."""
        script = Busy(self.rng, self.known, sorted(objects_of(f"{self.sides[0].folder}/objects")))
        is_new = not self.known.targets
        if is_new:
            script.begin(self.rng.randrange(1, 2**32))
        lines = script.drawn(self.rng.randint(6, 20)).splitlines()
        left = self.run(self.sides, lines, "said" if is_new else self.rng.choice(WAYS))
        self.known.take(left.replies)

    def look(self, number):
        """Questions to copies, some of whose objects are not as they were."""
        copies = [side.copy(f"{self.room}/look_{number}_{side.channels}") for side in self.sides]
        self.tally["harmed"] += harm(self.rng, copies)
        self.run(copies, questions(self.rng, self.known), self.rng.choice(WAYS))
        for side in copies:
            shutil.rmtree(side.folder)

    def run_all(self):
        for number in range(self.rng.randint(3, 6)):
            self.session()
            self.look(number)


def main(program, seed="0", count="20"):
    tally, began = collections.Counter(), time.time()
    for seed in range(int(seed), int(seed) + int(count)):
        with tempfile.TemporaryDirectory(dir="/dev/shm" if os.access("/dev/shm", os.W_OK) else None) as room:
            one = Round(os.path.abspath(program), seed, room, tally)
            try:
                one.run_all()
            except Wrong as why:
                print(f"round {seed}: {why}\nbehind {one.last}")
                return 1
        tally["rounds"] += 1
    print(", ".join(f"{number} {what}" for what, number in tally.items()) + f"; {time.time() - began:.0f} s")
    return 0


if __name__ == "__main__":
    sys.exit(main(*sys.argv[1:]))
