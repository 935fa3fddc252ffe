#!/usr/bin/env python3
"""Level 1s of one datafile of 65,536 blocks with change tracking beside the same without, and WRITE with it beside WRITE without, in
instructions, which are the same on a busy machine:
    bench/level1.py [PROGRAM]
PROGRAM is the program as it was built, and not the script ./rman; it wants valgrind. A script has a level 0, and then rounds of so many writes
of different blocks, with a level 1 behind each or without. A level 1 is what its script takes more than the one without, over the rounds,
and a write what a script of all rounds takes more than one of none, over the writes."""
import re
import subprocess
import sys
import tempfile

BLOCKS = 65536
# How many writes a round has, and how many rounds there are.
KINDS = [(1, 8), (100, 8), (1000, 4), (16384, 1)]


def script(tracking, writes, rounds, level1):
    yield f"CREATE DATABASE; CREATE DATAFILE BLOCKS {BLOCKS};"
    if tracking:
        yield "ALTER DATABASE ENABLE BLOCK CHANGE TRACKING;"
    yield "BACKUP INCREMENTAL LEVEL 0 DATABASE;"
    for turn in range(rounds):
        for k in range(writes):
            yield f"WRITE DATAFILE 1 BLOCK {k * BLOCKS // writes} VALUE '{turn}';"
        if level1:
            yield "BACKUP INCREMENTAL LEVEL 1 DATABASE;"


def instructions(program, *what):
    """How many instructions a script takes."""
    text = "\n".join(script(*what)).encode()
    with tempfile.TemporaryDirectory() as room:
        counting = ["valgrind", "--tool=callgrind", "--callgrind-out-file=/dev/null"]
        words = [*counting, program, "--store", f"{room}/objects", "--catalog", f"{room}/catalog"]
        done = subprocess.run(words, input=text, stdout=subprocess.DEVNULL, stderr=subprocess.PIPE, check=True)
    return int(re.search(rb"Collected : (\d+)", done.stderr)[1])


def costs(program, tracking, writes, rounds):
    """What a level 1 takes, and a write, in thousands of instructions."""
    none = instructions(program, tracking, writes, 0, False)
    plain = instructions(program, tracking, writes, rounds, False)
    backed = instructions(program, tracking, writes, rounds, True)
    return (backed - plain) / rounds / 1e3, (plain - none) / rounds / writes / 1e3


def main(program):
    for writes, rounds in KINDS:
        on, off = (costs(program, tracking, writes, rounds) for tracking in (True, False))
        print(f"a level 1 of {BLOCKS} blocks of which {writes} changed: {on[0]:,.0f} thousand with tracking, {off[0]:,.0f} without: {on[0] / off[0]:.3f} of it")
        print(f"a WRITE, of {writes * rounds}: {on[1]:.2f} thousand with tracking, {off[1]:.2f} without: {on[1] / off[1]:.3f} of it")


main(*sys.argv[1:])
