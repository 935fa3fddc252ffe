#!/usr/bin/env python3
"""The drill through the program: what it takes, and what is left where it is killed:
    bench/drill.py [KILLS] [PROGRAM]
PROGRAM is the program as it was built (or ./rman). Each number of channels runs `--drill 7` on an empty site, whose line must be that of the
drill, and tells the seconds and the peak memory; each number is run three times, and the shortest is told. A second drill over the
first one's site is refused a CREATE DATABASE, and goes on. Then KILLS drills (10) are killed at random moments: the next session opens,
and VALIDATE ALL finds nothing bad."""
import random
import resource
import subprocess
import sys
import tempfile
import time

LINE = "drill 7: 36 statements, 0 refused, 20000 writes, next SCN 20005, 92 objects\n"


def words(program, room, *more):
    return [program, "--store", f"{room}/objects", "--catalog", f"{room}/catalog", *more]


def timed(program, channels):
    """How many seconds a drill on an empty site takes."""
    with tempfile.TemporaryDirectory() as room:
        start = time.monotonic()
        done = subprocess.run(words(program, room, "--drill", "7", "--channels", str(channels)), stdin=subprocess.DEVNULL, capture_output=True, text=True, check=False)
        took = time.monotonic() - start
        assert (done.returncode, done.stdout) == (0, LINE), f"status {done.returncode}: {done.stdout}{done.stderr}"
    return took


def second(program):
    """What a drill over the site of another one tells."""
    with tempfile.TemporaryDirectory() as room:
        for _ in range(2):
            done = subprocess.run(words(program, room, "--drill=7"), stdin=subprocess.DEVNULL, capture_output=True, text=True, check=False)
    assert done.returncode == 1, f"status {done.returncode}: {done.stdout}{done.stderr}"
    return done.stdout.strip()


def killed(program, longest):
    """Kills a drill at a random moment, and returns what the next session says of its objects."""
    with tempfile.TemporaryDirectory() as room:
        running = subprocess.Popen(words(program, room, "--drill", str(random.randrange(2**64))), stdin=subprocess.DEVNULL, stdout=subprocess.DEVNULL)
        time.sleep(random.uniform(0.01, longest))
        running.kill()
        running.wait()
        done = subprocess.run(words(program, room), input="VALIDATE ALL;", capture_output=True, text=True, check=False)
    lines = done.stdout.splitlines()
    good = done.returncode == 0 and len(lines) == 1 or "RM-02" in done.stdout
    assert good, f"status {done.returncode}: {done.stdout}{done.stderr}"
    return lines[0]


def main(kills="10", program="./rman"):
    times = []
    for channels in (1, 4, 16):
        took = min(timed(program, channels) for _ in range(3))
        times.append(took)
        peak = resource.getrusage(resource.RUSAGE_CHILDREN).ru_maxrss // 1024
        print(f"drill 7 by {channels} channels: {took:.2f} s, peak memory so far {peak} MB")
    print(f"a second one: {second(program)}")
    for _ in range(int(kills)):
        print(f"killed: {killed(program, times[0])}")


main(*sys.argv[1:])
