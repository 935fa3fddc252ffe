#!/usr/bin/env python3
"""Random scripts of a database with a control file and standbys, each beside what it must be:
    bench/standby.py PROGRAM [SEED [COUNT]]
PROGRAM is the program as it was built; COUNT rounds (10) are tried, of the seeds from SEED (0) on. A round has a database with a control file, whose
catalog also has the records of another number, and two standbys in folders of their own.
- Each session is run once more over a catalog file and a folder of its own: the same replies, objects byte for byte, and records but for their
  moments. The catalog then has those of the control file too. At times it is away: a session and a resync end with 6 and change nothing, sessions go on
  over the control file alone, and a resync or the next session gives it their records. By python's sqlite3 no row of the other number ever changes. A
  control file without records, with older ones or with one that breaks a rule is refused, one file as both, a file of records under the name of an
  object, the folders that a standby can't have, and a session in that of a standby.
- Sessions make increments from SCNs that lie in range and out of it, each followed by RECOVER DATABASE TEST at that moment.
- A standby is made at targets that RECOVER .. TEST tells or refuses, and rolled by increments, by those that meet it and by others, over branches and
  behind mishaps: each reply is foretold by what LIST INCARNATION and REPORT SCHEMA told, and each --dump is what TEST told at that address. Some rolls
  are killed: what is left is the standby of before or of after. Nothing of the database changes.
The first thing that is wrong is told with the seed of its round, and the status is 1."""
import collections
import os
import random
import re
import shutil
import sqlite3
import subprocess
import sys
import tempfile
import time

from shared import Ended, Place, Wrong, begin, files_of, objects_of, rows_of, same, without_moments
from shared_scripts import ASKS, Known, Script

OTHER = 7
GOES_NOT_ON = "it does not go on from the catalog's records: it is empty, older, or another database's"
ROLL = re.compile(r"roll (\d+) from (\d+) checkpoint (\d+) files (\d+) rows (\d+)")
PARENTS = re.compile(r"incarnation (\d+) parent (\d+) reset at (\d+) end \d+ \w+")
SCHEMA = re.compile(r"datafile \d+ blocks \d+ created at .*")

# An increment: what its line said, its incarnation, the state behind it, the datafiles by number with blocks and creation, and its bytes.
Increment = collections.namedtuple("Increment", "number start checkpoint incarnation state made content")


def state_of(lines):
    """What lines of RECOVER .. TEST from `until` on tell: of each datafile its number of blocks, and of each written block its version and value."""
    state = {}
    for line in lines[1:]:
        words = line.replace(":", "").split()
        if words[0] == "datafile":
            state[int(words[1])] = int(words[2]), {}
        else:
            state[max(state)][1][int(words[1])] = int(words[3]), words[5]
    return state


def values(state):
    """The values of all blocks of a state that are not zero."""
    return {(file, block): value for file, (_, written) in state.items() for block, (_, value) in written.items() if value != "-"}


class Standby:
    """A standby in a folder, by what was told of it."""

    def __init__(self, folder):
        self.folder, self.number, self.lines, self.incarnation, self.scn, self.made = folder, 0, None, 0, 0, {}

    def becomes(self, lines, incarnation, scn, made):
        """Another one takes its place. Returns how many blocks get another content."""
        old, new = values(state_of(self.lines or [""])), values(state_of(lines))
        self.number, self.lines, self.incarnation, self.scn, self.made = self.number + 1, lines, incarnation, scn, made
        return sum(old.get(at) != new.get(at) for at in {*old, *new})

    def meets(self, increment, parents):
        """Whether the increment meets it, by the incarnations: parent and reset of each."""
        at, end = increment.incarnation, None
        while at and at != self.incarnation:
            at, end = parents[at]
        on_path = at == self.incarnation and (end is None or self.scn <= end)
        stay = all(increment.made.get(file) == it for file, it in self.made.items())
        come = all(created >= increment.start for file, (_, created) in increment.made.items() if file not in self.made)
        return bool(increment.made) and increment.start <= self.scn <= increment.checkpoint and on_path and stay and come


class Round:
    """What one seed tries, in a folder of its own."""

    def __init__(self, program, seed, room, tally):
        self.program, self.rng, self.room, self.tally, self.began = program, random.Random(seed), room, tally, int(time.time())
        self.folder, self.control, self.far = f"{room}/objects", f"{room}/control", f"{room}/far/catalog"
        self.alone = Place(program, f"{room}/alone", f"{room}/alone_objects")
        self.known, self.parents, self.increments, self.last = Known(), {}, {}, ""
        self.standbys = [Standby(f"{room}/standby_{name}") for name in "ab"]
        os.mkdir(f"{room}/far")
        other = Place(program, self.far, f"{room}/other_objects", OTHER)
        same("the other number", other.run("CREATE DATABASE DBID 9; CREATE DATAFILE BLOCKS 2; WRITE DATAFILE 1 BLOCK 0 VALUE 'x';").status, 0)
        self.other = rows_of(self.far)[OTHER]

    def begin(self, words, script=""):
        self.last = f"{' '.join(words)}\n{script}"
        return begin(self.program, words, script)

    def records(self, catalog):
        """The rows of number 0. The other number's are held."""
        rows = rows_of(catalog)
        same("the rows of the other number", rows.get(OTHER, {}), self.other if catalog == self.far else {})
        return rows.get(0, {})

    def hold_database(self, what, before):
        """Holds that nothing of the database changed."""
        same(f"{what}: objects", objects_of(self.folder), before[0])
        same(f"{what}: records", self.records(self.control), before[1])

    def database(self):
        return objects_of(self.folder), self.records(self.control)

    def session(self):
        """A session with statements at random and an increment or two, beside the same one over a file of its own."""
        script = Script(self.rng, self.known, sorted(objects_of(self.folder)))
        if not self.known.targets:
            script.begin(1)
        text = script.drawn(self.rng.randint(3, 12)).splitlines()[: -len(ASKS)]
        for _ in range(self.rng.choice([0, 1, 1, 1, 2])):
            text += [f"BACKUP INCREMENTAL FROM SCN {self.some_start(script)} DATABASE;", *ASKS, "RECOVER DATABASE TEST;"]
        text = "\n".join([*text, *ASKS])
        is_away = self.rng.random() < 0.25 and bool(self.known.targets)
        how = self.away(text) if is_away else self.both(text)
        if how.status > 1 or how.err:
            raise Wrong(f"a session: status {how.status}, {how.err}")
        wanted = self.alone.run(text)
        same("replies", how.out, wanted.out)
        same("status and standard error", (how.status, how.err), (wanted.status, wanted.err))
        same("objects", objects_of(self.folder), objects_of(self.alone.folder))
        rows = self.records(self.control), rows_of(self.alone.catalog).get(0, {})
        same("records", *(without_moments(it, self.began) for it in rows))
        self.take(how.out)
        self.tally["sessions"] += 1
        self.tally["away"] += is_away

    def some_start(self, script):
        """An SCN from which an increment is made: that of a standby, or any."""
        first = self.known.targets[1][0] if self.known.targets else script.now
        of_standbys = [it.scn for it in self.standbys if it.lines] or [first]
        return self.rng.choice([*of_standbys * 3, script.some_scn(), first, max(first - 1, 0), script.now + 9])

    def both(self, text):
        """A session over the control file and the catalog, which then have the same records."""
        how = self.begin(["--store", self.folder, "--control", self.control, "--catalog", self.far], text)
        same("the records that a catalog has behind a session", self.records(self.far), self.records(self.control))
        return how

    def away(self, text):
        """The catalog is away: nothing begins over it, and the session goes on over the control file alone."""
        os.rename(f"{self.room}/far", f"{self.room}/away")
        before = self.database()
        line = f"rman: catalog: {self.far}: No such file or directory (os error 2)\n"
        found = self.begin(["--store", self.folder, "--control", self.control, "--catalog", self.far], text)
        same("a session without its catalog", found, Ended(6, [], line))
        same("a resync without its catalog", self.begin(["resync", "--control", self.control, "--catalog", self.far]), Ended(6, [], line))
        self.hold_database("a catalog that is away", before)
        how = self.begin(["--store", self.folder, "--catalog", self.control], text)
        os.rename(f"{self.room}/away", f"{self.room}/far")
        return how

    def take(self, lines):
        """Takes the replies: what stands at the end, and each increment with the state behind it."""
        self.parents = {int(it[1]): (int(it[2]), int(it[3])) for line in lines if (it := PARENTS.fullmatch(line))}
        for place, line in enumerate(lines):
            if not (told := ROLL.fullmatch(line)):
                continue
            then = Known()
            schema = lines[place + 1 :]
            tests = next(at for at, it in enumerate(schema) if it.startswith(("until ", "RM-", "skipped ")))
            then.take(schema[:tests])
            state = [it for it in schema[tests:] if not it.startswith("skipped ")]
            ends = (at for at, it in enumerate(state) if at and (SCHEMA.fullmatch(it) or not it.startswith(("datafile ", "block "))))
            count = next(ends, len(state))
            number, start, checkpoint, files, _ = map(int, told.groups())
            made = {file: then.made[file] for file in then.on_path}
            same("the datafiles of an increment", len(made), files)
            same("an increment ends where the database is", state[0], f"until {checkpoint} of incarnation {then.current}: files {files}")
            content = objects_of(self.folder).get(f"roll_{number}")
            self.increments[number] = Increment(number, start, checkpoint, then.current, state[:count], made, content)
            self.tally["increments"] += 1
        self.known.take(lines)

    def resync(self):
        """The catalog gets the records of the control file."""
        rows, far = self.records(self.control), self.records(self.far)
        how = self.begin(["resync", "--control", self.control, "--catalog", self.far])
        same("a resync", how, Ended(0, [f"resynced {len(rows)} records"], ""))
        same("the records behind a resync", (self.records(self.control), self.records(self.far)), (rows, rows))
        self.tally["resyncs"] += 1
        self.tally["resyncs of other records"] += rows != far

    def slips(self):
        """What is refused with 6 or 5, and changes nothing."""
        self.resync()
        before = self.database()
        self.refused_control(f"{self.room}/new", GOES_NOT_ON)
        self.bad_control()
        if os.path.exists(f"{self.room}/older"):
            self.refused_control(f"{self.room}/older", GOES_NOT_ON)
        one = Ended(6, [], f"rman: catalog: {self.control}: it is the control file\n")
        same("one file as both", self.session_by(self.folder, self.control, self.control), one)
        same("one file as both", self.begin(["resync", "--control", self.control, "--catalog", self.control]), one)
        taken = f"{self.folder}/roll_99999"
        line = Ended(6, [], f"rman: control: {taken}: it lies in the folder under the name of an object\n")
        same("a control file under the name of an object", self.session_by(self.folder, taken, self.far), line)
        self.slips_of_folders()
        self.hold_database("what is refused", before)
        same("the records of the catalog behind it", self.records(self.far), before[1])
        self.tally["slips"] += 1

    def refused_control(self, control, why):
        """A session and a resync with this control file end with 6, in these words."""
        line = Ended(6, [], f"rman: control: {control}: {why}\n")
        same("a control file that is refused", self.session_by(self.folder, control, self.far), line)
        same("a resync by one that is refused", self.begin(["resync", "--control", control, "--catalog", self.far]), line)
        self.tally["refused control files"] += 1

    def bad_control(self):
        """A control file with a log that has no thread."""
        bad = f"{self.room}/bad"
        self.copy(bad)
        it = sqlite3.connect(bad)
        body = bytes.fromhex("00 00000001 00 00000001 0000000000000002 0000000000000003 0000000000000041" + "00" * 32 + "0100")
        it.execute("INSERT INTO record (number, kind, id, body) VALUES (0, 4, 4000000000, ?)", (body,))
        it.commit()
        it.close()
        self.refused_control(bad, "it has a record that breaks a rule: a session over it alone tells which")

    def copy(self, to):
        """A copy of the control file."""
        for end in ("", "-wal"):
            if os.path.exists(self.control + end):
                shutil.copy(self.control + end, to + end)

    def slips_of_folders(self):
        """Folders that a standby can't have, and a session in the folder of a standby."""
        own = Ended(5, [], "rman: store: the standby needs a folder of its own\n")
        same("a standby in the folder of its database", self.begin(self.words(self.folder, "--make", 1)), own)
        others = f"{self.room}/other_objects"
        there = self.begin(["standby", "--store", self.folder, "--to", others, "--catalog", self.far, "--make", "1"])
        same("a standby in the folder of another number", there[:2], (5, []))
        same("why it is refused", there.err.splitlines()[-1], f"rman: store: {others}: database {OTHER} of this catalog had it last")
        stood = self.standbys[0].folder
        if os.path.isdir(stood):
            why = "it has no object and was no catalog's yet, and this catalog has records"
            line = Ended(5, [], f"rman: store: {stood}: {why}\n")
            same("a session in the folder of a standby", self.session_by(stood, self.control, self.far), line)

    def session_by(self, folder, control, catalog):
        return self.begin(["--store", folder, "--control", control, "--catalog", catalog], "SHOW ALL;")

    def words(self, folder, *task):
        return ["standby", "--store", self.folder, "--to", folder, "--catalog", self.control, *map(str, task)]

    def make(self, standby):
        """A standby is made at a target that is told or refused."""
        incarnation = self.known.current
        low, high = self.known.targets[incarnation]
        until = self.rng.choice([low, high, max(low - 1, 0), high + 1, *[self.rng.randint(low, high)] * 8])
        told = self.begin(["--store", self.folder, "--catalog", self.control], "\n".join([*ASKS, f"RECOVER DATABASE UNTIL SCN {until} TEST;"]))
        same("what tells changes nothing", told.err, "")
        lines = told.out[next(at for at, it in enumerate(told.out) if it.startswith("incarnation")) :]
        lines = [it for it in lines if not it.startswith("incarnation")]
        before, stood = self.database(), files_of(standby.folder)
        how = self.begin(self.words(standby.folder, "--make", until))
        if lines[-1].startswith("RM-"):
            same("a standby that is refused", how, Ended(1, lines, ""))
            same("the folder of a standby that is refused", {**stood, ".rman-lock": b""}, files_of(standby.folder))
            self.tally["made standbys that are refused"] += 1
        else:
            skipped = [it for it in lines if it.startswith("skipped ")]
            state = lines[len(skipped) :]
            made = {file: self.known.made[file] for file in state_of(state)}
            standby.becomes(state, incarnation, until, made)
            reply = f"standby {standby.number} at {until} of incarnation {incarnation}: files {len(made)}"
            same("a standby that is made", how, Ended(0, [*skipped, reply], ""))
            self.tally["made standbys"] += 1
        self.hold_database("a standby that is made", before)
        self.hold_standby(standby)

    def hold_standby(self, standby):
        """Holds what its folder has, and what it tells."""
        names = sorted(objects_of(standby.folder))
        same("the objects of a standby", names, [f"standby_{standby.number}"] if standby.lines else [])
        wanted = Ended(0, standby.lines, "") if standby.lines else Ended(1, ["RM-12: no object standby"], "")
        same("what a standby tells", self.begin(self.words(standby.folder, "--dump")), wanted)
        self.tally["blocks"] += sum(len(written) for _, written in state_of(standby.lines or [""]).values())

    def roll(self, standby):
        """A standby is rolled by an increment: one that meets it, or any, or one that there is not."""
        meet = [number for number, it in self.increments.items() if standby.lines and standby.meets(it, self.parents)]
        number = self.rng.choice([*meet * 4, *self.increments, max(self.increments, default=0) + 1])
        increment = self.increments.get(number)
        is_there = increment and objects_of(self.folder).get(f"roll_{number}") == increment.content
        before = self.database()
        if not os.path.isdir(standby.folder):
            line = f"rman: store: {standby.folder}: No such file or directory (os error 2)\n"
            same("a roll without a folder", self.begin(self.words(standby.folder, "--roll", number)), Ended(5, [], line))
            self.tally["rolls without a folder"] += 1
            return
        if is_there and number in meet:
            self.good_roll(standby, increment)
        else:
            line = f"RM-12: no object roll_{number}"
            if is_there:
                line = "RM-12: no object standby"
                if standby.lines:
                    start = increment.start if increment.made else 0
                    line = f"RM-19: increment {number} from {start} does not meet standby at {standby.scn}"
            same("a roll that is refused", self.begin(self.words(standby.folder, "--roll", number)), Ended(1, [line], ""))
            self.tally[line.split(":", maxsplit=1)[0]] += 1
        self.hold_database("a roll", before)
        self.hold_standby(standby)

    def good_roll(self, standby, increment):
        """A roll that is to come out, at times behind one that was killed."""
        words, old = self.words(standby.folder, "--roll", increment.number), standby.lines
        if self.rng.random() < 0.3 and self.killed(words, standby, increment):
            return
        changed = standby.becomes(increment.state, increment.incarnation, increment.checkpoint, increment.made)
        reply = f"standby {standby.number} at {standby.scn} of incarnation {standby.incarnation}: files {len(standby.made)} changed {changed}"
        same("a roll", self.begin(words), Ended(0, [reply], ""))
        self.tally["rolls"] += 1
        self.tally["rolls that change nothing"] += old[1:] == standby.lines[1:]

    def killed(self, words, standby, increment):
        """A roll is killed at some moment: whether it came out all the same."""
        with subprocess.Popen([self.program, *words], stdin=subprocess.DEVNULL, stdout=subprocess.DEVNULL, stderr=subprocess.DEVNULL) as one:
            time.sleep(self.rng.random() * 0.02)
            one.kill()
        self.tally["kills"] += 1
        told = self.begin(self.words(standby.folder, "--dump"))
        if told.out == standby.lines and f"standby_{standby.number + 1}" not in objects_of(standby.folder):
            same("behind a kill", told, Ended(0, standby.lines, ""))
            return False
        # It stands. Where the old one was not taken away the next number goes on from the new one, and the old one stays.
        same("behind a kill", told, Ended(0, increment.state, ""))
        old = f"{standby.folder}/standby_{standby.number}"
        standby.becomes(increment.state, increment.incarnation, increment.checkpoint, increment.made)
        if os.path.exists(old):
            os.remove(old)
        self.tally["rolls that stood"] += 1
        return True

    def run_all(self):
        for place in range(self.rng.randint(8, 14)):
            self.session()
            if place == 3:
                self.copy(f"{self.room}/older")
            for standby in self.standbys:
                for move in self.rng.sample([self.make, self.roll, self.roll], 2 if standby.lines else 1):
                    move(standby)
            if self.rng.random() < 0.4:
                self.resync()
        self.slips()


def main(program, seed="0", count="10"):
    tally, began = collections.Counter(), time.time()
    for seed in range(int(seed), int(seed) + int(count)):
        with tempfile.TemporaryDirectory() as room:
            one = Round(os.path.abspath(program), seed, room, tally)
            try:
                one.run_all()
            except (Wrong, LookupError, ValueError, StopIteration) as why:
                print(f"round {seed}: {why!r}\nbehind: {one.last.replace(room, '.')}")
                return 1
        tally["rounds"] += 1
    print(", ".join(f"{number} {what}" for what, number in tally.items()) + f"; {time.time() - began:.0f} s")
    return 0


if __name__ == "__main__":
    sys.exit(main(*sys.argv[1:]))
