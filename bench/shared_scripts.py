"""Statements of a database, drawn at random by what its replies told so far: the scripts of bench/shared.py. None tells a time, and each BACKUP has a tag, so
that the same script has the same replies at another moment."""
import re

DATAFILE = re.compile(r"datafile (\d+) blocks (\d+) created at (\d+) of incarnation \d+ (.+)")
INCARNATION = re.compile(r"incarnation (\d+) parent \d+ reset at (\d+) end (\d+) (current|parent|orphan)")
MODE = re.compile(r"(mounted)|incarnation \d+ chosen|log of thread \d+ lost|RM-04: mode is (mounted)|(opened) .*|RM-04: mode is (open)|(database) \d+ .*")
# What a script ends with, so that the next one knows.
ASKS = ["REPORT SCHEMA;", "LIST INCARNATION;"]


class Known:
    """What the replies of a database told: its mode, its datafiles and its incarnations."""

    def __init__(self, threads=1):
        self.threads, self.is_open, self.stuck, self.text = threads, None, 0, 0
        # Of each datafile its blocks and the SCN of its creation, those of the current incarnation, and those of them that are in place.
        self.made, self.on_path, self.in_place = {}, [], []
        # Of each incarnation the least and the greatest target.
        self.targets, self.current = {}, 1

    def take(self, lines):
        """Takes the replies to a script that ends with ASKS."""
        self.made, self.on_path, self.in_place = {}, [], []
        for line in lines:
            if mode := MODE.fullmatch(line):
                self.is_open = bool(mode[3] or mode[4] or mode[5])
            elif told := DATAFILE.fullmatch(line):
                self.take_datafile(int(told[1]), int(told[2]), int(told[3]), told[4])
            elif told := INCARNATION.fullmatch(line):
                self.targets[int(told[1])] = int(told[2]), int(told[3])
                self.current = int(told[1]) if told[4] == "current" else self.current
        self.stuck = 0 if self.is_open else self.stuck + 1

    def take_datafile(self, file, blocks, created, place):
        self.made[file] = blocks, created
        if place != "off path":
            self.on_path.append(file)
        if place.startswith("in place"):
            self.in_place.append(file)

    def some_target(self, rng):
        """A target of some incarnation, now and then one that is not in its range."""
        incarnation = rng.choice(sorted(self.targets))
        low, high = self.targets[incarnation]
        return incarnation, rng.choice([low, high, low - 1, high + 1, *[rng.randint(low, high)] * 12])


class Script:
    """The statements of one session, drawn at random."""

    def __init__(self, rng, known, objects):
        self.rng, self.known, self.objects = rng, known, objects
        self.files = {file: known.made[file][0] for file in known.in_place}
        self.next_file = max(known.made, default=0) + 1
        self.now = known.targets[known.current][1] if known.targets else 1
        self.lines = []

    def drawn(self, steps):
        """The statements of a session of so many steps."""
        if self.known.is_open is False:
            self.come_back()
        for _ in range(steps):
            self.step()
        return "\n".join([*self.lines, *ASKS])

    def begin(self, dbid):
        """The statements of the first session of a new database, in front of the others."""
        self.known.threads = self.rng.randint(1, 4)
        self.now = self.rng.choice([1, 1, 100])
        if self.rng.random() < 0.2:
            self.say("LIST BACKUP;", "DUMP DATAFILE 1 BLOCK 0;")
        self.say(f"CREATE DATABASE DBID {dbid} THREADS {self.known.threads} SCN {self.now};")
        for _ in range(self.rng.randint(1, 3)):
            self.create()

    def say(self, *lines):
        self.lines += lines

    def step(self):
        moves = [self.write] * 9 + [self.backup] * 6 + [self.archive] * 3 + [self.look, self.merge, self.retain, self.change, self.lose, self.corrupt] * 2
        moves += [self.mishap] * 2 + [self.create, self.reopen, self.branch, self.switch, self.track, self.run]
        self.rng.choice(moves if self.files else [self.create])()

    def some_file(self):
        return self.rng.choice(sorted(self.files)) if self.files else 1

    def some_scn(self):
        low = self.known.targets[self.known.current][0] if self.known.targets else 1
        return self.rng.randint(min(low, self.now), self.now)

    def some_id(self):
        """A number of one of the objects, or of none."""
        names = [name for name in self.objects if not name.startswith("site_")] or ["piece_1"]
        return int(re.sub(r"\D", "", self.rng.choice(names)) or 1) if self.rng.random() < 0.8 else self.rng.randint(1, 40)

    def some_write(self, file):
        thread = self.rng.choice(["", f"THREAD {self.rng.randint(1, self.known.threads)} "])
        self.known.text += 1
        self.now += 1
        text = self.rng.choice(["", *[f"v{self.known.text}"] * 5])
        return f"WRITE {thread}DATAFILE {file} BLOCK {self.rng.randrange(self.files.get(file, 1))} VALUE '{text}';"

    def come_back(self):
        """Ways to open a mounted database: what it was, or where that does not go, what is told, and at last its beginning."""
        low = self.known.targets[self.known.current][0]
        first = self.known.targets[1][0]
        ways = [
            ["RESTORE DATABASE;", "RECOVER DATABASE;", "ALTER DATABASE OPEN;", "ALTER DATABASE OPEN RESETLOGS;"],
            [f"RESTORE DATABASE UNTIL SCN {low};", f"RECOVER DATABASE UNTIL SCN {low};", "ALTER DATABASE OPEN RESETLOGS;"],
            ["RESET DATABASE TO INCARNATION 1;", f"RECOVER DATABASE UNTIL SCN {first};", "ALTER DATABASE OPEN RESETLOGS;"],
        ]
        self.say(*ways[min(self.known.stuck, len(ways)) - 1])

    def create(self):
        blocks = self.rng.randint(1, 6)
        self.say(f"CREATE DATAFILE BLOCKS {blocks};")
        self.files[self.next_file] = blocks
        self.next_file, self.now = self.next_file + 1, self.now + 1

    def write(self):
        for _ in range(self.rng.randint(1, 3)):
            self.say(self.some_write(self.some_file()))

    def backup(self):
        some = sorted(self.rng.sample(sorted(self.files), self.rng.randint(1, len(self.files))))
        what = f"DATAFILE {', '.join(map(str, some))}"
        tag = f" TAG {self.rng.choice(['one', 'two', 'roll'])}{self.rng.choice(['', '', '', ' KEEP FOREVER'])}"
        others = sorted(set(self.files) - set(some))
        # A backup reads what no one writes meanwhile: the writes are of another datafile, and of one thread.
        writes = [self.some_write(self.rng.choice(others)) for _ in range(self.rng.choice([0, 0, 1]))] if others else []
        during = f" DURING {{ {' '.join(writes)} }}" if writes else ""
        what = what if writes or self.rng.random() < 0.5 else "DATABASE"
        level = self.rng.choice(["INCREMENTAL LEVEL 0 ", "INCREMENTAL LEVEL 1 ", "INCREMENTAL LEVEL 1 CUMULATIVE "])
        per_set = f" FILESPERSET {self.rng.randint(1, 4)}"
        image = self.rng.choice(["", "INCREMENTAL LEVEL 0 "])
        kinds = [f"{what}{tag}", f"{level}{what}{tag}", f"{level}{what}{tag}", f"{level}{what}{per_set}{tag}", f"{what}{per_set}{tag}"]
        kinds += [f"AS COPY {image}{what}{tag}", f"INCREMENTAL LEVEL 1 FOR RECOVER OF COPY WITH TAG roll {what}"]
        self.say(f"BACKUP {self.rng.choice(kinds)}{during};")

    def archive(self):
        thread = self.rng.randint(1, self.known.threads)
        ways = ["ALTER SYSTEM ARCHIVE LOG CURRENT;"] * 3 + [f"ALTER SYSTEM SWITCH LOGFILE THREAD {thread};", "BACKUP ARCHIVELOG ALL;"]
        self.say(self.rng.choice(ways))

    def merge(self):
        until = self.rng.choice(["", "", f" UNTIL SCN {self.some_scn()}"])
        self.say(f"RECOVER COPY OF DATABASE WITH TAG roll{until};")

    def retain(self):
        policy = self.rng.choice([f"TO REDUNDANCY {self.rng.randint(1, 3)}", "TO RECOVERY WINDOW OF 7 DAYS", "TO NONE", "CLEAR"])
        what = ["REPORT OBSOLETE;", "REPORT NEED BACKUP;", "DELETE OBSOLETE;", f"CONFIGURE RETENTION POLICY {policy};"]
        self.say(*self.rng.sample(what, 2))

    def look(self):
        kind = self.rng.choice(["BACKUP", "COPY", "ARCHIVELOG ALL"])
        what = [f"LIST {kind};", f"CROSSCHECK {kind};", "VALIDATE ALL;", "SHOW ALL;", "RESTORE DATABASE PREVIEW;", "RECOVER DATABASE TEST;"]
        file = self.some_file()
        what += [f"RECOVER DATABASE UNTIL SCN {self.some_scn()} TEST;", f"DUMP DATAFILE {file} BLOCK {self.rng.randrange(self.files.get(file, 1))};"]
        self.say(self.rng.choice(what))

    def change(self):
        number, names = self.some_id(), self.objects or ["piece_1"]
        how = self.rng.choice(["UNAVAILABLE", "AVAILABLE", "KEEP FOREVER", "NOKEEP", "UNCATALOG"])
        kind = self.rng.choice(["BACKUP", "COPY", "ARCHIVELOG ALL"])
        ways = [f"CHANGE BACKUP {number} {how};", f"CATALOG '{self.rng.choice(names)}';", f"DELETE BACKUP {number};", f"DELETE EXPIRED {kind};"]
        self.say(self.rng.choice([*ways, f"CONFIGURE DEVICE TYPE DISK PARALLELISM {self.rng.randint(1, 16)};"]))

    def mishap(self):
        name = self.rng.choice(self.objects or ["piece_1"])
        at = self.rng.randrange(200)
        away = self.rng.choice(["away", f"piece_{self.rng.randint(1, 40)}", f"copy_{self.rng.randint(1, 9)}"])
        ways = [f"HOST REMOVE '{name}';", f"HOST DAMAGE '{name}' AT {at};", f"HOST CUT '{name}' TO {at};", f"HOST RENAME '{name}' TO '{away}';"]
        self.say(self.rng.choice(ways))

    def lose(self):
        file = self.some_file()
        if self.rng.random() < 0.7:
            self.say(f"HOST LOSE DATAFILE {file};", "SHUTDOWN;", f"RESTORE DATAFILE {file};", "RECOVER DATABASE;", "ALTER DATABASE OPEN;")
        else:
            self.say(f"HOST LOSE LOG THREAD {self.rng.randint(1, self.known.threads)};")
            self.recover()

    def corrupt(self):
        file = self.some_file()
        block = self.rng.randrange(self.files.get(file, 1))
        meets = ["LIST CORRUPTION;", "BACKUP DATABASE TAG bad;", f"DUMP DATAFILE {file} BLOCK {block};"]
        self.say(f"HOST CORRUPT DATAFILE {file} BLOCK {block};", self.rng.choice(meets))
        if self.rng.random() < 0.7:
            self.say(self.rng.choice(["BLOCKRECOVER CORRUPTION LIST;", f"BLOCKRECOVER DATAFILE {file} BLOCK {block};"]))

    def recover(self):
        """From the mounted database to one that is open as far as it can be told."""
        self.say("RESTORE DATABASE;", "RECOVER DATABASE;", "ALTER DATABASE OPEN RESETLOGS;")

    def reopen(self):
        self.say("SHUTDOWN;", "ALTER DATABASE OPEN;")

    def branch(self):
        self.say("SHUTDOWN;")
        if self.rng.random() < 0.3:
            self.say(f"RESET DATABASE TO INCARNATION {self.rng.choice(sorted(self.known.targets) or [1])};")
        until = self.rng.choice(["", f" UNTIL SCN {self.some_scn()}"])
        self.say(f"RESTORE DATABASE{until};", f"RECOVER DATABASE{until};", "ALTER DATABASE OPEN RESETLOGS;")

    def switch(self):
        self.say(f"ALTER DATABASE {self.rng.choice(['ENABLE', 'DISABLE'])} THREAD {self.rng.randint(1, 4)};")

    def track(self):
        self.say(f"ALTER DATABASE {self.rng.choice(['ENABLE', 'ENABLE', 'DISABLE'])} BLOCK CHANGE TRACKING;")

    def run(self):
        until = self.some_scn()
        ways = [
            f"SET UNTIL SCN {until}; RESTORE DATABASE PREVIEW;",
            "ALLOCATE CHANNEL c DEVICE TYPE DISK; ALLOCATE CHANNEL d DEVICE TYPE DISK; BACKUP DATABASE TAG run;",
            f"{self.some_write(self.some_file())} ALTER SYSTEM ARCHIVE LOG CURRENT;",
            f"SHUTDOWN; SET UNTIL SCN {until}; RESTORE DATABASE; RECOVER DATABASE; ALTER DATABASE OPEN RESETLOGS;",
        ]
        self.say(f"RUN {{ {self.rng.choice(ways)} }}")
