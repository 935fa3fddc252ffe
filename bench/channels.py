#!/usr/bin/env python3
"""BACKUP, RECOVER, RESTORE and VALIDATE ALL by 1, 2 and 4 channels, beside SHA-256 of the same bytes in one thread:
    bench/channels.py PROGRAM [ROUNDS [KERNELS]]
PROGRAM is the program as it was built, and not the script ./rman; ROUNDS is how many rounds there are (9); KERNELS is rm_bench as it was built, which tells what the kit's
sha2 takes, in whose place stands `-` without it. All lies in /dev/shm, and what a statement begins with was left by earlier sessions: four datafiles of 32,768 blocks, each
with a backup; for VALIDATE ALL of 64 pieces sixteen of them; for what was lost a log of 4,096 changes too, and the datafiles as they were restored.
A round runs each statement in a session of its own by each number of channels, beside the same session without it, which saves as much at its end. Where it can stand more than once
it stands there eight times, and a figure is of one. A figure is what the session takes more than that one, by the clock and of the processors (user and system), and how many page faults more it has; peaks of memory stand side by side (none is told below
python's own, some 22 MB). Ratios are of figures of one round, and beside them stands sha256sum of the bytes that are put or got; all are medians of the rounds. On a machine
at work those of the processors tell more, and sha256sum more than rm_bench, whose figure is the shortest of 20 by the clock. The last line of figures is what the save takes
of a session that changed one block.
Each number of channels must give the same replies, the same objects byte for byte, and the same records but for their moments: this is looked at in each round, and
what differs ends the script with status 1."""
import collections
import hashlib
import os
import re
import shutil
import statistics
import subprocess
import sys
import tempfile
import time

from shared import LOCK, Wrong, rows_of, same, without_moments

CHANNELS = (1, 2, 4)
FILES, BLOCKS = 4, 32768
# The bytes of a full piece of a datafile.
PIECE = 82 + 76 * BLOCKS

# What a child took: seconds by the clock and of the processors, page faults, and the peak of its memory in bytes.
Cost = collections.namedtuple("Cost", "wall processor faults peak")
# A statement, how often it stands in its session, the sessions that make what it begins with, and the session without it.
Subject = collections.namedtuple("Subject", "name statement times made without")
# What is measured in a round: what the kit's sha2 takes (None where it is not told), what sha256sum, the session without the statement, and that with it by channels.
Round = collections.namedtuple("Round", "sha2 digest without costs")
# How a session ended, and what it left.
Left = collections.namedtuple("Left", "replies objects records")

DATABASE = "CREATE DATABASE;" + f"CREATE DATAFILE BLOCKS {BLOCKS};" * FILES
BACKUP = "BACKUP DATABASE TAG before;"
WRITES = "".join(f"WRITE DATAFILE {1 + k % FILES} BLOCK {k * 8191 % BLOCKS} VALUE 'v{k}';" for k in range(4096))
LOST = "".join(f"HOST LOSE DATAFILE {1 + k};" for k in range(FILES)) + "STARTUP FORCE MOUNT; RESTORE DATABASE;"
# It changes the base facts alone, so that its session saves what runs, as one does whose BACKUP or RECOVER is measured.
SAVED = "CONFIGURE RETENTION POLICY TO NONE;"
SUBJECTS = [
    Subject("backup", "BACKUP DATABASE TAG now;", 8, [DATABASE + BACKUP], SAVED),
    Subject("recover", "RECOVER DATABASE;", 8, [DATABASE + BACKUP + "SHUTDOWN;"], SAVED),
    Subject("recover of what was lost", "RECOVER DATABASE;", 1, [DATABASE + BACKUP + WRITES + "ALTER SYSTEM ARCHIVE LOG CURRENT;", LOST], SAVED),
    Subject("restore", "RESTORE DATABASE;", 8, [DATABASE + BACKUP + "SHUTDOWN;"], SAVED),
    Subject("validate of 4 pieces", "VALIDATE ALL;", 8, [DATABASE + BACKUP], "SHOW ALL;"),
    Subject("validate of 64 pieces", "VALIDATE ALL;", 1, [DATABASE + BACKUP * 16], "SHOW ALL;"),
]
SAVE = Subject("save", "WRITE DATAFILE 1 BLOCK 0 VALUE 'one';", 1, [DATABASE + BACKUP], "SHOW ALL;")


def cost_of(words, stdin=subprocess.DEVNULL, stdout=subprocess.DEVNULL):
    """Runs a child, which has to end with 0, and returns what it took."""
    start = time.monotonic()
    with subprocess.Popen(words, stdin=stdin, stdout=stdout) as child:
        _, status, usage = os.wait4(child.pid, 0)
        took = time.monotonic() - start
        child.returncode = os.waitstatus_to_exitcode(status)
    if child.returncode:
        raise Wrong(f"{' '.join(words)}: status {child.returncode}")
    return Cost(took, usage.ru_utime + usage.ru_stime, usage.ru_minflt + usage.ru_majflt, usage.ru_maxrss * 1024)


def less(one, other):
    return Cost(*(a - b for a, b in zip(one, other)))


def run(program, place, script, channels, under=()):
    """Runs a session, under another program where its words are given, and returns what it took. Its replies are in a file of the place."""
    with open(f"{place}/script", "w+", encoding="utf-8") as said, open(f"{place}/replies", "wb") as replies:
        said.write(script)
        said.seek(0)
        words = ["--store", f"{place}/objects", "--catalog", f"{place}/catalog", "--channels", str(channels)]
        return cost_of([*under, program, *words], said, replies)


def digest_of(path):
    """The SHA-256 of a file, which is never whole in memory, since a child's peak would be told as at least that."""
    with open(path, "rb") as content:
        return hashlib.file_digest(content, "sha256").hexdigest()


def left_in(place, began):
    """What a session left."""
    with open(f"{place}/replies", encoding="utf-8") as replies:
        lines = replies.read().splitlines()
    objects = {entry.name: digest_of(entry.path) for entry in os.scandir(f"{place}/objects") if entry.name != LOCK}
    return Left(lines, objects, without_moments(rows_of(f"{place}/catalog")[0], began))


class Prepared:
    """What the sessions of a subject begin with, in a folder, and what they took in each round."""

    def __init__(self, program, subject, room):
        self.program, self.subject, self.began, self.rounds = program, subject, int(time.time()), []
        self.kept, self.place = f"{room}/kept", f"{room}/place"
        os.makedirs(self.place)
        for script in subject.made:
            run(program, self.place, script, 1)
        os.rename(self.place, self.kept)
        objects = [f"{self.kept}/objects/{name}" for name in os.listdir(f"{self.kept}/objects")]
        self.objects = [path for path in objects if "/site_" not in path and LOCK not in path]
        self.bytes = sum(os.path.getsize(path) for path in self.objects)

    def session(self, script, channels, under=()):
        """What a session takes over what was kept."""
        shutil.copytree(self.kept, self.place)
        return run(self.program, self.place, script, channels, under)

    def digest(self):
        """What sha256sum takes for the objects more than for nothing."""
        return less(cost_of(["sha256sum", *self.objects]), cost_of(["sha256sum", "/dev/null"]))

    def round(self, channels, sha2):
        """A round: sha256sum, the session without the statement, and that with it by each number of channels. A byte takes the kit's sha2 so long."""
        digest, without, costs, first = self.digest(), self.session(self.subject.without, 1), {}, None
        shutil.rmtree(self.place)
        for number in channels:
            costs[number] = self.session(f"{self.subject.without}\n{self.subject.statement * self.subject.times}", number)
            left = left_in(self.place, self.began)
            shutil.rmtree(self.place)
            first = first or left
            for name, found, wanted in zip(Left._fields, left, first):
                same(f"{self.subject.name} by {number} channels, {name}", found, wanted)
        self.rounds.append(Round(sha2 and sha2 * self.bytes, digest, without, costs))


def kit_digest(kernels):
    """How many seconds the kit's sha2 takes for a byte of a piece of as many blocks, as rm_bench tells it, which is ended then."""
    with subprocess.Popen([kernels, "large"], stdout=subprocess.PIPE, text=True) as running:
        is_piece = False
        for line in running.stdout:
            is_piece = is_piece or line.startswith(f"piece of {BLOCKS}: {PIECE} bytes")
            told = re.match(r"\s*SHA-256 alone: (\d+) us", line)
            if is_piece and told:
                running.kill()
                return int(told[1]) / 1e6 / PIECE
    raise Wrong(f"{kernels} tells nothing of SHA-256")


def percent(ratios):
    return f"{100 * statistics.median(ratios):.0f} %"


def beside(name, prepared, channels):
    """A figure of the rounds in ms, for one statement, and in percent of the kit's sha2 and of sha256sum."""
    rounds, times = prepared.rounds, prepared.subject.times
    figures = [(getattr(it.costs[channels], name) - getattr(it.without, name)) / times for it in rounds]
    ours = percent(figure / it.sha2 for figure, it in zip(figures, rounds)) if rounds[0].sha2 else "-"
    theirs = percent(figure / getattr(it.digest, name) for figure, it in zip(figures, rounds))
    return f"{1000 * statistics.median(figures):.1f} ms, {ours} of SHA-256, {theirs} of sha256sum"


def tell(prepared, channels):
    """The line of a statement by a number of channels."""
    rounds = prepared.rounds
    faults = statistics.median((it.costs[channels].faults - it.without.faults) / prepared.subject.times for it in rounds)
    peak, before = (statistics.median(peaks) / 1e6 for peaks in zip(*((it.costs[channels].peak, it.without.peak) for it in rounds)))
    took = f"{beside('wall', prepared, channels)}; processors {beside('processor', prepared, channels)}"
    print(f"{prepared.subject.name}, channels {channels}: {took}; {faults:.0f} page faults; peak {peak:.1f} MB, without {before:.1f} MB")


def of_whole(name, rounds):
    """What a session takes more than that without its statement, of all that it takes, in ms and in percent."""
    pairs = [(getattr(it.costs[1], name), getattr(it.without, name)) for it in rounds]
    took, whole = (1000 * statistics.median(figures) for figures in zip(*((one - other, one) for one, other in pairs)))
    return f"{took:.1f} ms of {whole:.1f} ms, {percent((one - other) / one for one, other in pairs)}"


def measure(program, rounds, kernels, room):
    """All rounds, and the lines that tell them."""
    prepared = [Prepared(program, subject, f"{room}/{number}") for number, subject in enumerate(SUBJECTS)]
    save = Prepared(program, SAVE, f"{room}/save")
    for _ in range(rounds):
        sha2 = kit_digest(kernels) if kernels else None
        for subject in prepared:
            subject.round(CHANNELS, sha2)
        save.round([1], sha2)
    for subject in prepared:
        for channels in CHANNELS:
            tell(subject, channels)
    print(f"save behind one WRITE: {of_whole('wall', save.rounds)}; processors {of_whole('processor', save.rounds)}")


def main(program, rounds="9", kernels=None):
    print(f"program {digest_of(program)[:8]}, {rounds} rounds, load {os.getloadavg()[0]:.1f} of {os.cpu_count()} processors", flush=True)
    try:
        with tempfile.TemporaryDirectory(dir="/dev/shm") as room:
            measure(os.path.abspath(program), int(rounds), kernels and os.path.abspath(kernels), room)
    except Wrong as why:
        print(f"FAILED: {why}")
        return 1
    print(f"each number of channels gave the same; load {os.getloadavg()[0]:.1f}")
    return 0


if __name__ == "__main__":
    sys.exit(main(*sys.argv[1:]))
