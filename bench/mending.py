#!/usr/bin/env python3
"""Random scripts with damaged blocks, each reply compared with what a plain model says:
    bench/mending.py [TIMES] [PROGRAM]
TIMES is how many scripts (100), PROGRAM what runs them (./rman). A script has datafiles, writes by several threads, backups, archived logs,
HOST CORRUPT, LIST CORRUPTION, BLOCKRECOVER of all or of some blocks, with writes meanwhile, and statements that must be refused with RM-17
and RM-18. At its end each block is dumped. SCNs of writes that run beside each other may fall either way: they are read off the reply.
Then 1,000 blocks of a datafile are mended while four threads make 1,000 writes of another one.
    bench/mending.py --figures PROGRAM
Mending 1,000 of 65,536 blocks beside RESTORE and RECOVER of the datafile, in instructions; PROGRAM is the program as it was built, and it
wants valgrind."""
import random
import re
import subprocess
import sys
import tempfile

BLOCKS, MENDED = 65536, 1000


def shown(text):
    return text.encode().hex() or "-"


class Script:
    """Statements made at random, each with the reply that is expected: lines, or a function over the lines that are said."""

    def __init__(self, rng):
        self.rng, self.threads = rng, rng.randint(1, 4)
        self.rows, self.blocks, self.damaged = {}, {}, set()
        self.now, self.text, self.wanted = 1, 0, []
        # The SCNs of writes that ran beside each other, one table a statement, by datafile and block: replies tell them.
        self.told = []
        self.say(f"CREATE DATABASE THREADS {self.threads};", ["database 1 incarnation 1 at 1"])
        for _ in range(rng.randint(1, 4)):
            self.create()
        for _ in range(rng.randint(20, 90)):
            self.step()
        for file, block in sorted(self.rows):
            self.dump(file, block)

    def say(self, text, expected):
        self.wanted.append((text, expected))

    def create(self):
        file, blocks = len(self.blocks) + 1, self.rng.randint(1, 12)
        self.say(f"CREATE DATAFILE BLOCKS {blocks};", [f"datafile {file} created at {self.now} with {blocks} blocks"])
        self.blocks[file] = blocks
        self.rows |= {(file, block): (self.now, "") for block in range(blocks)}
        self.now += 1

    def step(self):
        moves = [self.write] * 8 + [self.corrupt] * 4 + [self.mend] * 3 + [self.backup, self.backup, self.listed, self.archive, self.peek, self.wrong]
        self.rng.choice(moves)()

    def some_block(self):
        return self.rng.choice(sorted(self.rows))

    def new_text(self):
        self.text += 1
        return f"v{self.text}"

    def write(self):
        (file, block), thread, text = self.some_block(), self.rng.randint(1, self.threads), self.new_text()
        said = f"WRITE THREAD {thread} DATAFILE {file} BLOCK {block} VALUE '{text}';"
        if (file, block) in self.damaged:
            self.say(said, [f"RM-17: block {block} of datafile {file} is damaged"])
            return
        self.say(said, [f"scn {self.now}"])
        self.rows[file, block] = self.now, text
        self.now += 1

    def peek(self):
        self.dump(*self.some_block())

    def dump(self, file, block):
        version, text = self.rows[file, block]
        row = f"datafile {file} block {block} version {version} value {shown(text)}"
        bad = f"RM-17: block {block} of datafile {file} is damaged"
        self.say(f"DUMP DATAFILE {file} BLOCK {block};", [bad if (file, block) in self.damaged else row])

    def corrupt(self):
        file, block = self.some_block()
        self.say(f"HOST CORRUPT DATAFILE {file} BLOCK {block};", [f"datafile {file} block {block} damaged"])
        self.damaged.add((file, block))

    def listed(self):
        self.say("LIST CORRUPTION;", [f"datafile {file} block {block} damaged" for file, block in sorted(self.damaged)])

    def backup(self):
        level = self.rng.choice(["", "INCREMENTAL LEVEL 0 ", "INCREMENTAL LEVEL 1 "])
        bad = min(self.damaged, default=None)
        files = len(self.blocks)
        self.say(f"BACKUP {level}DATABASE;", [f"RM-17: block {bad[1]} of datafile {bad[0]} is damaged"] if bad else lambda lines: len(lines) == files)

    def archive(self):
        self.say("ALTER SYSTEM ARCHIVE LOG CURRENT;", lambda lines: len(lines) == self.threads)

    def wrong(self):
        sound = sorted(set(self.rows) - self.damaged)
        if sound:
            file, block = self.rng.choice(sound)
            self.say(f"BLOCKRECOVER DATAFILE {file} BLOCK {block};", [f"RM-18: block {block} of datafile {file} isn't damaged"])

    def writes(self):
        """Writes for a DURING, of blocks that are not damaged, each block by one thread alone."""
        sound = sorted(set(self.rows) - self.damaged)
        count = self.rng.choice([0, 0, 1, 3, 8])
        return [(self.rng.randint(1, self.threads), *block, self.new_text()) for block in self.rng.sample(sound, min(count, len(sound)))]

    def mend(self):
        files = sorted({file for file, _ in self.damaged})
        if files and self.rng.random() < 0.5:
            file = self.rng.choice(files)
            of = sorted(block for at, block in self.damaged if at == file)
            asked = self.rng.choices(of, k=self.rng.randint(1, len(of)))
            which, blocks = f"DATAFILE {file} BLOCK {', '.join(map(str, asked))}", sorted({(file, block) for block in asked})
        else:
            which, blocks = "CORRUPTION LIST", sorted(self.damaged)
        writes = self.writes()
        during = "".join(f"WRITE THREAD {t} DATAFILE {f} BLOCK {b} VALUE '{v}'; " for t, f, b, v in writes)
        mends = [f"datafile {file} block {block} mended to version {self.rows[file, block][0]}" for file, block in blocks]
        self.damaged -= set(blocks)
        order = sorted(range(len(writes)), key=lambda k: writes[k][0])
        first, self.now = self.now, self.now + len(writes)
        told = {}
        self.told.append(told)

        def fits(lines):
            scns = [re.fullmatch(r"thread (\d) scn (\d+)", line) for line in lines[len(mends):]]
            good = lines[: len(mends)] == [self.filled(line) for line in mends] and all(scns) and [int(scn[1]) for scn in scns] == [writes[k][0] for k in order]
            if good:
                told.update({writes[k][1:3]: int(scn[2]) for k, scn in zip(order, scns)})
            return good and sorted(told.values()) == list(range(first, first + len(writes)))

        self.say(f"BLOCKRECOVER {which} DURING {{ {during}}};" if writes or self.rng.random() < 0.3 else f"BLOCKRECOVER {which};", fits)
        for _, file, block, text in writes:
            self.rows[file, block] = f"{{{len(self.told) - 1}:{file}:{block}}}", text

    def filled(self, line):
        """The line with the SCNs that replies told so far."""
        return re.sub(r"\{(\d+):(\d+):(\d+)\}", lambda m: str(self.told[int(m[1])][int(m[2]), int(m[3])]), line)


def run(program, text, folder):
    words = [*program, "--store", f"{folder}/store", "--catalog", f"{folder}/catalog"]
    return subprocess.run(words, input=text, capture_output=True, text=True, check=False)


def compare(program, seed):
    """Runs one script, and returns how many mends it had."""
    script = Script(random.Random(seed))
    with tempfile.TemporaryDirectory() as folder:
        # Each statement's reply is told from the next one's by a line that no other statement has.
        text = "\n".join(f"{statement}\nRESET DATABASE TO INCARNATION 1;" for statement, _ in script.wanted)
        done = run(program, text, folder)
        assert done.returncode == 1, f"seed {seed}: status {done.returncode}: {done.stderr}"
        replies = done.stdout.split("RM-04: mode is open\n")
    mends = 0
    for (statement, expected), reply in zip(script.wanted, replies):
        lines = reply.splitlines()
        good = expected(lines) if callable(expected) else [script.filled(line) for line in expected] == lines
        assert good, f"seed {seed}: {statement}\nsaid {lines}\nwanted {expected}"
        mends += sum("mended to version" in line for line in lines)
    return mends


def many(program):
    """Mends 1,000 blocks beside 1,000 writes of four threads, and looks at each block of both datafiles."""
    blocks = range(MENDED)
    before = [f"WRITE DATAFILE 1 BLOCK {b} VALUE 'a{b}';" for b in blocks]
    damage = [f"HOST CORRUPT DATAFILE 1 BLOCK {b};" for b in blocks]
    writes = " ".join(f"WRITE THREAD {1 + b % 4} DATAFILE 2 BLOCK {b} VALUE 'b{b}';" for b in blocks)
    dumps = [f"DUMP DATAFILE {f} BLOCK {b};" for f in (1, 2) for b in blocks]
    made = [f"CREATE DATABASE THREADS 4; CREATE DATAFILE BLOCKS {MENDED}; CREATE DATAFILE BLOCKS {MENDED};", *before[: MENDED // 2], "BACKUP DATABASE;", *before[MENDED // 2 :]]
    with tempfile.TemporaryDirectory() as folder:
        done = run(program, "\n".join([*made, *damage, f"BLOCKRECOVER CORRUPTION LIST DURING {{ {writes} }};", *dumps]), folder)
    assert done.returncode == 0, f"status {done.returncode}: {done.stderr}"
    lines = done.stdout.splitlines()
    mends = [f"datafile 1 block {b} mended to version {b + 3}" for b in blocks]
    start = lines.index(mends[0])
    scns = [re.fullmatch(r"thread (\d) scn (\d+)", line) for line in lines[start + MENDED : start + 2 * MENDED]]
    order = [b for thread in range(4) for b in blocks if b % 4 == thread]
    scn_of = dict(zip(order, (int(scn[2]) for scn in scns)))
    assert lines[start : start + MENDED] == mends and sorted(scn_of.values()) == list(range(MENDED + 3, 2 * MENDED + 3))
    shown_rows = [f"datafile 1 block {b} version {b + 3} value {shown(f'a{b}')}" for b in blocks] + [f"datafile 2 block {b} version {scn_of[b]} value {shown(f'b{b}')}" for b in blocks]
    assert lines[start + 2 * MENDED :] == shown_rows
    print(f"{MENDED} blocks mended beside {MENDED} writes of four threads")


def instructions(program, text):
    """How many instructions a script takes."""
    with tempfile.TemporaryDirectory() as room:
        counting = ["valgrind", "--tool=callgrind", "--callgrind-out-file=/dev/null"]
        done = run([*counting, program], text, room)
        return int(re.search(r"Collected : (\d+)", done.stderr)[1])


def figures(program):
    """Mends beside a restore and a recovery of the same datafile, of which a tenth was written since its backup."""
    writes = "\n".join(f"WRITE DATAFILE 1 BLOCK {k * 10} VALUE 'x{k}';" for k in range(BLOCKS // 10))
    made = f"CREATE DATABASE; CREATE DATAFILE BLOCKS {BLOCKS};\nBACKUP DATABASE;\n{writes}\n"
    damage = "\n".join(f"HOST CORRUPT DATAFILE 1 BLOCK {k * BLOCKS // MENDED};" for k in range(MENDED))
    lost = "HOST LOSE DATAFILE 1; SHUTDOWN;"
    mend = instructions(program, made + damage + "BLOCKRECOVER CORRUPTION LIST;") - instructions(program, made + damage)
    back = instructions(program, made + lost + "RESTORE DATABASE; RECOVER DATABASE;") - instructions(program, made + lost)
    print(f"mending {MENDED} of {BLOCKS} blocks: {mend / 1e6:,.0f} million instructions; RESTORE and RECOVER: {back / 1e6:,.0f} million; {mend / back:.2f} of it")


def main(words):
    if words[:1] == ["--figures"]:
        figures(words[1])
        return
    times, program = int(words[0]) if words else 100, words[1:] or ["./rman"]
    many(program)
    mends = sum(compare(program, seed) for seed in range(times))
    print(f"{times} scripts, {mends} blocks mended: each reply as the model says")


main(sys.argv[1:])
