#!/usr/bin/env python3
"""Random scripts with backup sets, and what comes back from them compared with what a plain model says:
    bench/sets.py [TIMES] [PROGRAM]
TIMES is how many scripts (200), PROGRAM what runs them (./rman). A script creates datafiles, writes blocks, some of them back to zero, and backs up: full, of
level 0, of level 1 and cumulative, all datafiles or some, as pieces and as sets of every size, with tracking or without it, and with writes meanwhile. Then all
datafiles and logs are lost, and RECOVER .. TEST has to print exactly the blocks that were written below the last backup of all, or, where an object that it
needs is damaged, a gap.
    bench/sets.py --figures [PROGRAM]
A BACKUP of 64 datafiles of 1,024 blocks, of which a hundredth was written, as pieces and as sets of 8: the bytes of its objects, and its time, as a tenth of what
ten of them take, the shortest of five rounds."""
import os
import random
import subprocess
import sys
import tempfile
import time

FILES, BLOCKS, SET, TIMES = 64, 1024, 8, 10


def run(program, text, folder):
    words = [program, "--store", f"{folder}/store", "--catalog", f"{folder}/catalog"]
    return subprocess.run(words, input=text, capture_output=True, text=True, check=False)


class Script:
    """Statements made at random, and the blocks as they stand."""

    def __init__(self, rng):
        self.rng, self.now, self.text, self.lines = rng, 1, 0, ["CREATE DATABASE;"]
        self.blocks, self.rows = {}, {}
        for _ in range(rng.randint(1, 5)):
            self.create()
        if rng.random() < 0.5:
            self.lines.append("ALTER DATABASE ENABLE BLOCK CHANGE TRACKING;")
        for _ in range(rng.randint(5, 40)):
            rng.choice([self.write] * 6 + [self.backup] * 2 + [self.create])()
        # The last backup is of all datafiles, so that its checkpoint can be reached without a log.
        self.lines.append(f"BACKUP {rng.choice(['', 'INCREMENTAL LEVEL 0 ', 'INCREMENTAL LEVEL 1 '])}DATABASE FILESPERSET {rng.randint(1, 6)};")
        self.target = self.now

    def create(self):
        if len(self.blocks) < 8:
            file, count = len(self.blocks) + 1, self.rng.randint(1, 9)
            self.lines.append(f"CREATE DATAFILE BLOCKS {count};")
            self.blocks[file] = count
            self.now += 1

    def some_write(self):
        file = self.rng.choice(sorted(self.blocks))
        block = self.rng.randrange(self.blocks[file])
        self.text += 1
        return file, block, self.rng.choice(["", f"v{self.text}", f"v{self.text}"])

    def keep(self, file, block, text):
        self.rows[file, block] = self.now, text
        self.now += 1

    def write(self):
        file, block, text = self.some_write()
        self.lines.append(f"WRITE DATAFILE {file} BLOCK {block} VALUE '{text}';")
        self.keep(file, block, text)

    def backup(self):
        some = self.rng.sample(sorted(self.blocks), self.rng.randint(1, len(self.blocks)))
        what = self.rng.choice(["DATABASE", f"DATAFILE {', '.join(map(str, some))}"])
        level = self.rng.choice(["", "INCREMENTAL LEVEL 0 ", "INCREMENTAL LEVEL 1 ", "INCREMENTAL LEVEL 1 CUMULATIVE "])
        sets = self.rng.choice(["", f" FILESPERSET {self.rng.randint(1, 64)}", f" FILESPERSET {self.rng.randint(1, 3)}"])
        writes = [self.some_write() for _ in range(self.rng.choice([0, 0, 0, 1, 3]))]
        during = "".join(f"WRITE DATAFILE {f} BLOCK {b} VALUE '{t}'; " for f, b, t in writes)
        self.lines.append(f"BACKUP {level}{what}{sets}{f' DURING {{ {during}}}' if writes else ''};")
        for write in writes:
            self.keep(*write)

    def wanted(self):
        """What a test of a recovery until the last backup prints."""
        lines = [f"until {self.target} of incarnation 1: files {len(self.blocks)}"]
        for file, count in sorted(self.blocks.items()):
            written = sorted(block for at, block in self.rows if at == file)
            lines.append(f"datafile {file}: {count} blocks, {len(written)} written")
            lines += [f"block {b} version {self.rows[file, b][0]} value {self.rows[file, b][1].encode().hex() or '-'}" for b in written]
        return lines


def compare(program, seed):
    """Runs one script, and returns how many sets it made and whether a damage left a gap."""
    rng = random.Random(seed)
    script = Script(rng)
    lost = [f"HOST LOSE DATAFILE {file};" for file in sorted(script.blocks)] + ["HOST LOSE LOG THREAD 1;"]
    test = f"RECOVER DATABASE UNTIL SCN {script.target} TEST;"
    wanted = script.wanted()
    with tempfile.TemporaryDirectory() as folder:
        done = run(program, "\n".join([*script.lines, *lost, test]), folder)
        assert done.returncode == 0, f"seed {seed}: status {done.returncode}: {done.stdout[-300:]}{done.stderr}"
        said = done.stdout.splitlines()[-len(wanted) :]
        assert said == wanted, f"seed {seed}: said {said}\nwanted {wanted}"
        objects = sorted(name for name in os.listdir(f"{folder}/store") if name.startswith(("set_", "piece_")))
        name = rng.choice(objects)
        at = rng.randrange(os.path.getsize(f"{folder}/store/{name}"))
        after = run(program, f"HOST DAMAGE '{name}' AT {at};\n{test}\n", folder).stdout.splitlines()[1:]
        gap = len(after) == 1 and after[0].startswith("RM-08: gap in datafile ")
        # What is skipped is told first; all that is told after a damage is as before, or it is a gap.
        assert gap or after[-len(wanted) :] == wanted, f"seed {seed}: {name} damaged at {at}: said {after}"
        return sum(name.startswith("set_") for name in objects), gap


def figures(program):
    """Bytes and time of a BACKUP as pieces and as sets."""
    made = "CREATE DATABASE;" + f"CREATE DATAFILE BLOCKS {BLOCKS};" * FILES
    made += "".join(f"WRITE DATAFILE {1 + k % FILES} BLOCK {k // FILES * 97 % BLOCKS} VALUE 'x{k}';\n" for k in range(FILES * BLOCKS // 100))
    ways = {"nothing": "", "pieces": "BACKUP DATABASE;", f"sets of {SET}": f"BACKUP DATABASE FILESPERSET {SET};"}
    best, size = {}, {}
    for _ in range(5):
        for way, backup in ways.items():
            with tempfile.TemporaryDirectory() as folder:
                start = time.monotonic()
                done = run(program, made + backup * TIMES, folder)
                took = time.monotonic() - start
                assert done.returncode == 0, done.stdout[-300:] + done.stderr
                best[way] = min(best.get(way, took), took)
                size[way] = sum(e.stat().st_size for e in os.scandir(f"{folder}/store") if e.name.startswith(("set_", "piece_"))) // TIMES
    for way in list(ways)[1:]:
        print(f"backup of {FILES} datafiles of {BLOCKS} blocks, a hundredth written, as {way}: {size[way]:,} bytes, {1000 * (best[way] - best['nothing']) / TIMES:.0f} ms")


def main(words):
    if words[:1] == ["--figures"]:
        figures(os.path.abspath((words[1:] or ["./rman"])[0]))
        return
    times, program = int(words[0]) if words else 200, os.path.abspath((words[1:] or ["./rman"])[0])
    found = [compare(program, seed) for seed in range(times)]
    print(f"{times} scripts, {sum(sets for sets, _ in found)} sets, {sum(gap for _, gap in found)} gaps behind a damage: each recovery as the model says")


main(sys.argv[1:])
