#!/usr/bin/env python3
"""Random scripts of BACKUPs while the database writes, each by 1, 2, 4 and 16 channels:
    bench/during.py [TIMES] [PROGRAM]
TIMES is how many scripts (200), PROGRAM what runs them (./rman). A script has a BACKUP of level 0 and two of level 1,
each with up to 60 writes by up to 4 threads. Its replies must be those of some legal order: the SCNs of a DURING are the ones
from its checkpoint on, each once, and those of a thread ascend. Then the order is known, and with it each block below each
SCN: a recovery until any of them, as a test, and each DUMP must tell just that. Before them one script fills the log of a
thread to its last record by the writes of BACKUPs."""
import random
import re
import subprocess
import sys
import tempfile


def write_text(write):
    thread, file, block, value = write
    return f"WRITE THREAD {thread} DATAFILE {file} BLOCK {block} VALUE '{value}';"


def writes_of(rng, threads, files, count):
    """So many writes, each of a value of its own."""
    for _ in range(count):
        file = rng.randint(1, len(files))
        value = "w" + str(rng.randint(1, 9 * 10**8))
        yield rng.randint(1, threads), file, rng.randrange(files[file - 1]), value


class Model:
    """What the replies tell of the history."""

    def __init__(self, files):
        self.files = files
        self.now = 1 + len(files)
        self.changes = []

    def order(self, writes, scns):
        """The writes of a DURING with the SCNs of its reply, by thread."""
        told = sorted(scn for _, scn in scns)
        assert told == list(range(self.now, self.now + len(writes))), f"SCNs {told} from {self.now}"
        for thread in range(1, 5):
            own = [scn for t, scn in scns if t == thread]
            asked = [write for write in writes if write[0] == thread]
            assert own == sorted(own) and len(own) == len(asked), f"thread {thread}: {own}"
            self.changes += [(scn, *write) for scn, write in zip(own, asked)]
        self.changes.sort()
        self.now += len(writes)

    def blocks(self, file, below):
        """The blocks of a datafile that were written below an SCN, by number."""
        found = {}
        for scn, _, changed, block, value in self.changes:
            if changed == file and scn < below:
                found[block] = f"version {scn} value {value.encode().hex()}"
        return found

    def recovery(self, until):
        """What a recovery until an SCN tells, as a test."""
        yield f"until {until} of incarnation 1: files {len(self.files)}"
        for file, count in enumerate(self.files, 1):
            found = self.blocks(file, until)
            yield f"datafile {file}: {count} blocks, {len(found)} written"
            for block in sorted(found):
                yield f"block {block} {found[block]}"


def script_of(rng):
    """A script of BACKUPs, with its datafiles and the writes of each BACKUP."""
    threads = rng.randint(1, 4)
    files = [rng.randint(1, 40) for _ in range(rng.randint(1, 3))]
    lists = [list(writes_of(rng, threads, files, rng.randint(0, 60))) for _ in range(3)]
    text = f"CREATE DATABASE THREADS {threads};\n"
    text += "".join(f"CREATE DATAFILE BLOCKS {count};\n" for count in files)
    for level, writes in zip([0, 1, 1], lists):
        asked = " ".join(write_text(write) for write in writes)
        text += f"BACKUP INCREMENTAL LEVEL {level} DATABASE DURING {{ {asked} }};\n"
    return text, files, lists


def model_of(lines, files, lists):
    """The history that the replies of a script tell."""
    model = Model(files)
    replies = [int(m[1]) for m in (re.match(r"piece .* checkpoint (\d+) ", line) for line in lines) if m]
    told = [(int(m[1]), int(m[2])) for m in (re.fullmatch(r"thread (\d+) scn (\d+)", line) for line in lines) if m]
    for index, writes in enumerate(lists):
        own = replies[index * len(files) : (index + 1) * len(files)]
        assert own == [model.now] * len(files), f"checkpoints {own} at {model.now}"
        model.order(writes, told[: len(writes)])
        told = told[len(writes) :]
    assert not told, f"{len(told)} SCNs more"
    return model


def questions_of(rng, model):
    """Recoveries and DUMPs, with what they tell."""
    text, wanted = "", []
    for until in sorted(rng.sample(range(2 + len(model.files), model.now + 1), min(6, model.now - 1 - len(model.files)))):
        text += f"RECOVER DATABASE UNTIL SCN {until} TEST;\n"
        wanted += list(model.recovery(until))
    for file in range(1, len(model.files) + 1):
        for block, told in model.blocks(file, model.now).items():
            text += f"DUMP DATAFILE {file} BLOCK {block};\n"
            wanted.append(f"datafile {file} block {block} {told}")
    return text, wanted


def check(program, seed, channels):
    """One script. The questions follow in a session of their own, over the same site."""
    rng = random.Random(seed)
    script, files, lists = script_of(rng)
    with tempfile.TemporaryDirectory() as room:
        words = [program, "--store", f"{room}/objects", "--catalog", f"{room}/catalog", "--channels", str(channels)]

        def lines_of(text):
            done = subprocess.run(words, input=text.encode(), capture_output=True, check=False)
            lines = done.stdout.decode().splitlines()
            assert done.returncode == 0, f"status {done.returncode}: {lines[-1:]}"
            return lines

        model = model_of(lines_of(script), files, lists)
        text, wanted = questions_of(rng, model)
        assert lines_of(text) == wanted, "a recovery or a DUMP tells something else"
    return [thread for _, thread, *_ in model.changes]


def check_last_record(program, channels):
    """65,536 records are the most of a thread: a DURING takes the last ones, and one with a write too many is refused whole."""

    def backup(*counts):
        writes = "".join(f"WRITE THREAD {thread} DATAFILE 1 BLOCK 0 VALUE 'w'; " * count for thread, count in enumerate(counts, 1))
        return f"BACKUP DATABASE DURING {{ {writes}}};\n"

    refused = ["RM-11: limit log records 65536"]
    turns = [([1000], None)] * 65 + [([535], None), ([2], refused), ([2, 3], refused), ([1, 3], None), ([1], refused), ([0, 1], None)]
    script = "CREATE DATABASE THREADS 2;\nCREATE DATAFILE BLOCKS 1;\n" + "".join(backup(*counts) for counts, _ in turns)
    wanted, now = ["database 1 incarnation 1 at 1", "datafile 1 created at 1 with 1 blocks"], 2
    for counts, refusal in turns:
        if refusal is None:
            piece = sum(line.startswith("piece") for line in wanted) + 1
            wanted.append(f"piece {piece} datafile 1 full checkpoint {now} rows 1 read 1")
            wanted += [f"thread {thread} scn *" for thread, count in enumerate(counts, 1) for _ in range(count)]
            now += sum(counts)
        else:
            wanted += refusal
    with tempfile.TemporaryDirectory() as room:
        words = [program, "--store", f"{room}/objects", "--catalog", f"{room}/catalog", "--channels", str(channels)]
        done = subprocess.run(words, input=script.encode(), capture_output=True, check=False)
    lines = [re.sub(r"(thread \d+ scn) \d+", r"\1 *", line) for line in done.stdout.decode().splitlines()]
    assert done.returncode == 1 and lines == wanted, "the last record of a log"


def main():
    times = int(sys.argv[1]) if len(sys.argv) > 1 else 200
    program = sys.argv[2] if len(sys.argv) > 2 else "./rman"
    for channels in (1, 2, 4, 16):
        check_last_record(program, channels)
        changed = 0
        for seed in range(times):
            try:
                threads = check(program, seed, channels)
            except AssertionError as why:
                sys.exit(f"FAILED: seed {seed}, {channels} channels: {why}")
            changed += sum(a != b for a, b in zip(threads, threads[1:]))
        print(f"{times} scripts by {channels} channels: each reply is that of a legal order; writers changed {changed} times")


main()
