#!/usr/bin/env python3
"""Copies and the drill's script by 1, 2, 4 and 16 channels, alone and beside as many busy processes as there are processors:
    bench/turns.py [TIMES] [PROGRAM]
Proves and builds rm_bench, whose copies of 65,536 blocks are timed, and runs PROGRAM (./rman) on the drill's script: 20 BACKUPs
of four datafiles while two threads write, then all is restored and recovered. Each of TIMES rounds (10) goes through the
channels one after the other, so that each time stands beside that of one channel; the shortest and the longest are told, and
the median and the worst of these ratios."""
import os
import re
import statistics
import subprocess
import sys
import tempfile
import time

TOP = os.path.dirname(os.path.dirname(os.path.abspath(__file__)))
CHANNELS = [1, 2, 4, 16]


def drill(number=7):
    """The script of the drill that a number makes."""

    def draw():
        nonlocal number
        number = (number * 6364136223846793005 + 1442695040888963407) % 2**64
        return number >> 33

    yield "CREATE DATABASE THREADS 2;"
    yield from ["CREATE DATAFILE BLOCKS 1024;"] * 4
    yield "ALTER DATABASE ENABLE BLOCK CHANGE TRACKING;"
    yield "BACKUP INCREMENTAL LEVEL 0 DATABASE;"
    for turn in range(1, 21):
        writes = (f"WRITE THREAD {1 + k % 2} DATAFILE {1 + draw() % 4} BLOCK {draw() % 1024} VALUE 'r{turn}k{k}';" for k in range(1000))
        yield f"BACKUP INCREMENTAL LEVEL 1 DATABASE DURING {{ {' '.join(writes)} }};"
        if turn % 5 == 0:
            yield "ALTER SYSTEM ARCHIVE LOG CURRENT;"
    yield "STARTUP FORCE MOUNT; RESTORE DATABASE; RECOVER DATABASE; ALTER DATABASE OPEN; VALIDATE ALL;"


def copies():
    """How many microseconds a copy takes, by channels."""
    done = subprocess.run([f"{TOP}/crates/rm_bench/out/rm_bench", "copies"], stdout=subprocess.PIPE, check=True)
    return {int(m[1]): int(m[2]) for m in re.finditer(r"channels (\d+): \d+ blocks (\d+) us", done.stdout.decode())}


def drills(program, script):
    """How many microseconds the script takes, by channels."""
    took = {}
    for channels in CHANNELS:
        with tempfile.TemporaryDirectory(dir="/dev/shm" if os.access("/dev/shm", os.W_OK) else None) as room:
            words = [program, "--store", f"{room}/objects", "--catalog", f"{room}/catalog", "--channels", str(channels)]
            start = time.monotonic()
            subprocess.run(words, input=script, stdout=subprocess.DEVNULL, check=True)
            took[channels] = int((time.monotonic() - start) * 1e6)
    return took


def tell(name, rounds):
    """The times of the rounds, and what they are of those of one channel."""
    for channels in CHANNELS:
        times = [took[channels] for took in rounds]
        ratios = [100 * took[channels] // took[1] for took in rounds]
        print(f"{name}, channels {channels}: {min(times)} to {max(times)} us, {statistics.median(ratios):.0f} % of one channel, at most {max(ratios)} %", flush=True)


def main():
    times = int(sys.argv[1]) if len(sys.argv) > 1 else 10
    program = os.path.abspath(sys.argv[2]) if len(sys.argv) > 2 else f"{TOP}/rman"
    subprocess.run(["rt", "run", "--", "copies"], cwd=f"{TOP}/crates/rm_bench", stdout=subprocess.DEVNULL, check=True)
    script = "\n".join(drill()).encode()
    for where in ["alone", "beside busy processes"]:
        busy = [] if where == "alone" else [subprocess.Popen(["sh", "-c", "while :; do :; done"]) for _ in range(os.cpu_count())]
        try:
            print(f"load {os.getloadavg()[0]:.1f}")
            tell(f"copy {where}", [copies() for _ in range(times)])
            tell(f"drill {where}", [drills(program, script) for _ in range(times)])
        finally:
            for process in busy:
                process.kill()


main()
