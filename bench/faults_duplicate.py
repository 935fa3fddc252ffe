#!/usr/bin/env python3
"""The part `duplicates` of bench/faults.sh, which says what it tries and calls this:
    bench/faults_duplicate.py PROGRAM LIBRARY ROOM [NUMBER]
with the words of bench/faults.py."""
import os
import random
import re
import sys

from faults import ASKS, DEVICES, WAYS, WAYS_OF_WRITES, Folder, Tally, difference, ended, references, without_warnings
from faults_disk import calls_of, left_by

UNTIL, NUMBER = 18, 7


class Duplicate:
    """A duplicate of a database, as it is made without a fault, and what is found before it and behind it."""

    def __init__(self, folder, before):
        self.folder, self.before = folder, before
        self.words = ["duplicate", *self.places(), "--dbid", "7", "--number", str(NUMBER), "--until", str(UNTIL)]
        self.look()
        assert f"until {UNTIL} of incarnation 1: files 2".encode() in self.found[1].out, self.found[1]

    def places(self):
        return [word for name, path in (("store", "objects"), ("to", "copies"), ("catalog", "catalog")) for word in (f"--{name}", f"{self.folder.path}/{path}")]

    def look(self):
        """What these words do without a fault."""
        self.folder.put(self.before)
        self.without = self.finds()
        self.folder.put(self.before)
        self.made = self.make(log=self.folder.log)
        assert self.made.status == 0 and not without_warnings(self.made.err), self.made
        self.calls, self.after = list(calls_of(self.folder.log)), self.folder.take()
        assert self.left(None, "all") == self.after, "the folders are not what the calls make of them"
        self.found = self.finds()
        assert self.found[0] == self.without[0] and self.found[1] != self.without[1], difference(self.without, self.found)

    def make(self, **how):
        return ended(self.folder.start(self.words, "", **how))

    def left(self, count, way, rng=None):
        return left_by(self.folder.path, self.before, self.calls[:count], way, rng)

    def finds(self):
        """What the source tells, and what the duplicate's number does: of a folder of copies of which no session was yet."""
        source = self.folder.run(ASKS)
        with_number = ["--store", f"{self.folder.path}/copies", "--catalog", f"{self.folder.path}/catalog", "--database", str(NUMBER)]
        number = ended(self.folder.start(with_number, ASKS))
        return tuple(one._replace(err=without_warnings(one.err)) for one in (source, number))

    def problem(self, is_made):
        """Why that may not be found. The source is as it was, and the number has all of its records or none; all where that is told."""
        found = self.finds()
        if found == self.found or found == self.without and not is_made:
            return None
        return difference(self.found if is_made else self.without, found)

    def again(self):
        """Why that may not come of the same words once more: the duplicate, or that its number or a name is taken."""
        how, is_made = self.make(), self.finds() == self.found
        lines = (b"RM-03: a database is there\n", b"RM-13: name copy_1 is taken\n", b"RM-13: name copy_2 is taken\n")
        if how.status == 0 and is_made or how.status == 1 and how.out in lines and is_made == (how.out == lines[0]):
            return None
        return f"once more: status {how.status}, {how.out[-80:]!r} {how.err!r}"


def is_no_end(duplicate, how, devices):
    """Why a duplicate may not end so, where one of these devices failed."""
    if how.status == 0:
        return how.out != duplicate.made.out and f"status 0 and {how.out!r}"
    if how.status not in devices or how.out or not re.search(DEVICES[how.status], how.err):
        return f"status {how.status}, {how.out!r} {how.err!r}"
    return None


def try_call(duplicate, call, way, rng, tally):
    folder = duplicate.folder
    folder.put(duplicate.before)
    how = duplicate.make(number=call.number, way=way, log=folder.log)
    devices = (5, 6) if way in ("dead", "full") else (5,) if "/objects" in call.paths[0] or "/copies" in call.paths[0] else (6,)
    what = f"call {call.number}, {call.name} of {' '.join(os.path.relpath(path, folder.path) for path in call.paths)}, {way}"
    if call.name in ("fsync", "fdatasync") and rng.random() < 0.5:
        what += ", and what was not synced is lost"
        folder.put(left_by(folder.path, duplicate.before, calls_of(folder.log), "least"))
    tally.add(f"status {how.status}", what, is_no_end(duplicate, how, devices), duplicate.problem(how.status == 0), duplicate.again())


def try_cut(duplicate, way, rng, tally):
    count = rng.randrange(len(duplicate.calls) + 1)
    duplicate.folder.put(duplicate.left(count, way, rng))
    is_made = any(call.fd == 1 for call in duplicate.calls[:count])
    tally.add(way, f"a cut behind {count} of {len(duplicate.calls)} calls, {way}", duplicate.problem(is_made), duplicate.again())


def try_all(duplicate, number, rng, tally):
    """Of so many tries a fourth are power cuts."""
    faults = [
        (call, way)
        for call in duplicate.calls
        if call.number
        for way in (WAYS_OF_WRITES if call.name in ("write", "pwrite") else WAYS)
    ]
    calls = number * 3 // 4
    for call, way in rng.sample(faults, calls) if 0 < calls < len(faults) else faults:
        try_call(duplicate, call, way, rng, tally)
    for place in range(number - calls or len(faults) // 3):
        try_cut(duplicate, ("least", "all", "some")[place % 3], rng, tally)


def part_duplicates(folder, number, rng):
    tally = Tally("duplicates")
    try_all(Duplicate(folder, references(folder)[-1].after), number, rng, tally)
    return tally.tell("duplicates")


def main():
    program, library, room = sys.argv[1:4]
    seed = os.environ.get("FAULTS_SEED") or str(random.randrange(2**32))
    folder = Folder(f"{room}/now", program, library)
    if part_duplicates(folder, int(sys.argv[4]) if len(sys.argv) > 4 else 0, random.Random(seed)):
        return 0
    print(f"duplicates: the seed was {seed}")
    return 1


if __name__ == "__main__":
    sys.exit(main())
