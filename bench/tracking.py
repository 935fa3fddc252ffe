#!/usr/bin/env python3
"""Random scripts with change tracking, each beside the same one without:
    bench/tracking.py [TIMES] [PROGRAM]
TIMES is how many scripts (100), PROGRAM what runs them (./rman). A script goes over several sessions and has datafiles that are made on
the way, writes, backups of each level, some of them while the database writes, lost datafiles that are restored, openings, RESETLOGS,
and ENABLE and DISABLE here and there. Without these the other run answers the same but for what is read, and leaves the same pieces,
byte for byte, save those that were read while the database wrote. And `read` is what the definition says: the blocks with a change of
the current incarnation from the greatest kept start at or below the parent's checkpoint on, and below the backup's own; or all."""
import os
import random
import re
import subprocess
import sys
import tempfile

PIECE = re.compile(r"(piece|copy) (\d+) datafile (\d+) (full|level 0|level 1 from (\d+)) checkpoint (\d+) rows (\d+) read (\d+)")


class Model:
    """What a script has done so far: the datafiles, the changes, and the kept starts of each tracked datafile."""

    def __init__(self):
        self.files, self.changes, self.starts = {}, [], {}
        self.now, self.inc, self.on = 1, 1, False
        # A branch goes back to here: no datafile was made later, no backup has a row from later, and it is on the current incarnation.
        self.low = 1

    def begin(self):
        self.starts = {file: [self.now] for file in self.files} if self.on else {}

    def create(self, blocks):
        self.files[len(self.files) + 1] = blocks
        self.now += 1
        self.low = self.now
        if self.on:
            self.starts[len(self.files)] = [self.now]

    def write(self, file, block):
        self.changes.append((self.inc, self.now, file, block))
        self.now += 1

    def wanted(self, file, parent):
        """How many blocks a level 1 reads, after the switch at its checkpoint."""
        low = max((start for start in self.starts.get(file, []) if start <= parent), default=None)
        if low is None:
            return self.files[file]
        return len({block for inc, scn, of, block in self.changes if (inc, of) == (self.inc, file) and low <= scn < self.now})

    def switch(self, file):
        if file in self.starts:
            self.starts[file] = [*self.starts[file], self.now][-8:]


class Script:
    """The statements of the sessions, made at random, and what a backup of them has to read, in order."""

    def __init__(self, rng):
        self.rng, self.model = rng, Model()
        self.sessions, self.checks, self.loose = [["CREATE DATABASE;"]], [], set()
        for _ in range(rng.randint(1, 3)):
            self.create()
        for _ in range(rng.randint(15, 60)):
            self.step()

    def say(self, *texts):
        self.sessions[-1] += texts

    def create(self):
        blocks = self.rng.randint(1, 24)
        self.say(f"CREATE DATAFILE BLOCKS {blocks};")
        self.model.create(blocks)

    def write_text(self):
        file = self.rng.choice(list(self.model.files))
        block = self.rng.randrange(self.model.files[file])
        return file, block, f"WRITE DATAFILE {file} BLOCK {block} VALUE 'v{self.rng.randint(1, 999)}';"

    def step(self):
        moves = [self.write] * 9 + [self.backup] * 6 + [self.during, self.track, self.create, self.reopen, self.lose, self.branch, self.session]
        self.rng.choice(moves)()

    def write(self):
        file, block, text = self.write_text()
        self.say(text)
        self.model.write(file, block)

    def backup(self, during=()):
        level = self.rng.choice(["LEVEL 0", "LEVEL 1", "LEVEL 1", "LEVEL 1", "LEVEL 1 CUMULATIVE"])
        files = [file for file in self.model.files if len(self.model.files) < 3 or self.rng.random() < 0.8]
        if len(self.model.files) >= 32 or not files:
            return
        asked = "DATABASE" if len(files) == len(self.model.files) else "DATAFILE " + ", ".join(map(str, files))
        more = f" DURING {{ {' '.join(text for _, _, text in during)} }}" if during else ""
        self.say(f"BACKUP INCREMENTAL {level} {asked}{more};")
        for file in files:
            self.model.switch(file)
        # What is read is told by the parent, which the reply names.
        snapshot = {file: [self.model.wanted(file, at) for at in range(self.model.now + 1)] for file in files}
        self.checks += [(file, snapshot[file], self.model.files[file], bool(during)) for file in files]
        for file, block, _ in during:
            self.model.write(file, block)
        if during:
            self.model.low = self.model.now

    def during(self):
        self.backup([self.write_text() for _ in range(self.rng.randint(1, 12))])

    def track(self):
        self.model.on = self.rng.random() < 0.8
        self.say(f"ALTER DATABASE {'ENABLE' if self.model.on else 'DISABLE'} BLOCK CHANGE TRACKING;")
        self.model.begin()

    def reopen(self):
        self.say("SHUTDOWN;", "ALTER DATABASE OPEN;")
        self.model.begin()

    def lose(self):
        file = self.rng.choice(list(self.model.files))
        self.say(f"HOST LOSE DATAFILE {file};", "SHUTDOWN;", f"RESTORE DATAFILE {file};", "RECOVER DATABASE;", "ALTER DATABASE OPEN;")
        self.model.begin()

    def branch(self):
        until = self.rng.choice([self.model.now, self.rng.randint(self.model.low, self.model.now)])
        self.say("SHUTDOWN;", f"RECOVER DATABASE UNTIL SCN {until};", "ALTER DATABASE OPEN RESETLOGS;")
        self.model.now, self.model.low = until, until
        self.model.inc += 1
        self.model.begin()

    def session(self):
        self.sessions.append([])
        self.model.begin()


def run(program, sessions, folder):
    """The replies of the sessions, over one site."""
    said = ""
    for session in sessions:
        words = [*program, "--store", f"{folder}/store", "--catalog", f"{folder}/catalog", "--channels", "3"]
        done = subprocess.run(words, input="\n".join(session), capture_output=True, text=True, check=False)
        assert done.returncode == 0, f"status {done.returncode}: {done.stdout[-300:]}{done.stderr}"
        said += done.stdout
    return said.splitlines()


def pieces(folder):
    return {name: open(f"{folder}/store/{name}", "rb").read() for name in os.listdir(f"{folder}/store") if name.startswith("piece_")}


def compare(program, seed):
    """Runs one script both ways, and returns how many blocks its level 1s read, and how many they would have read."""
    script = Script(random.Random(seed))
    plain = [[text for text in session if "TRACKING" not in text] for session in script.sessions]
    with tempfile.TemporaryDirectory() as one, tempfile.TemporaryDirectory() as other:
        tracked = [line for line in run(program, script.sessions, one) if not line.startswith("tracking")]
        untracked = run(program, plain, other)
        found, loose, read, all_blocks = iter(script.checks), set(), 0, 0
        assert len(tracked) == len(untracked), f"{len(tracked)} lines beside {len(untracked)}"
        for line, beside in zip(tracked, untracked):
            made = PIECE.fullmatch(line)
            if not made:
                assert line == beside, f"{line} beside {beside}"
                continue
            file, wanted, blocks, during = next(found)
            parent = made[5]
            want = blocks if parent is None else wanted[int(parent)]
            assert int(made[3]) == file and int(made[8]) == want, f"{line}: {want} wanted"
            if during:
                loose.add(f"piece_{made[2]}")
                continue
            assert re.sub("read .*", "", line) == re.sub("read .*", "", beside), f"{line} beside {beside}"
            if parent is not None:
                read, all_blocks = read + want, all_blocks + blocks
        assert next(found, None) is None
        mine, theirs = pieces(one), pieces(other)
        assert mine.keys() == theirs.keys()
        for name in mine.keys() - loose:
            assert mine[name] == theirs[name], name
    return read, all_blocks


def main(times="100", *program):
    read, blocks = 0, 0
    for seed in range(int(times)):
        try:
            found = compare(program or ["./rman"], seed)
        except AssertionError as why:
            sys.exit(f"script {seed}: {why}")
        read, blocks = read + found[0], blocks + found[1]
    print(f"{times} scripts: their level 1s, but those while the database wrote, read {read} of {blocks} blocks")


main(*sys.argv[1:])
