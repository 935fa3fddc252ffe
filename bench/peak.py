#!/usr/bin/env python3
"""The peak of memory of a RECOVER of 8 MB of datafiles from 20 MB of logs, by 1, 4 and 16 channels:
    bench/peak.py PROGRAM [ROUNDS]
PROGRAM is the program as it was built, and not the script ./rman; ROUNDS is how many there are (3), whose median is told. Four datafiles of 32,768 blocks were backed up, then
written 262,144 times, with 16 logs of 16,384 changes each, lost, and restored. Beside it stand the peak of the session without the RECOVER, page faults, and processor time,
which is not quite the same each time. Python's own peak, some 22 MB, is the least that is told."""
import os
import shutil
import statistics
import sys
import tempfile

from channels import BACKUP, BLOCKS, DATABASE, FILES, LOST, SAVED, Prepared, Subject, digest_of, less

LOGS, CHANGES, CHANNELS = 16, 16384, (1, 4, 16)


def written(log):
    """The writes of a log, which is archived."""
    changes = range(log * CHANGES, (log + 1) * CHANGES)
    writes = (f"WRITE DATAFILE {1 + k % FILES} BLOCK {k * 8191 // FILES % BLOCKS} VALUE 'v{k}';" for k in changes)
    return "".join(writes) + "ALTER SYSTEM ARCHIVE LOG CURRENT;"


def main(program, rounds="3"):
    print(f"program {digest_of(program)[:8]}, {rounds} rounds", flush=True)
    # (a script may have 4 MB)
    made = [DATABASE + BACKUP, *("".join(map(written, range(log, log + 4))) for log in range(0, LOGS, 4)), LOST]
    with tempfile.TemporaryDirectory(dir="/dev/shm") as room:
        prepared = Prepared(os.path.abspath(program), Subject("recover from logs", "RECOVER DATABASE;", 1, made, SAVED), room)

        def session(script, channels):
            cost = prepared.session(script, channels)
            shutil.rmtree(prepared.place)
            return cost

        logs = sum(os.path.getsize(path) for path in prepared.objects if "/log_" in path)
        print(f"{FILES} datafiles of {BLOCKS} blocks, {logs} bytes of logs")
        without = [session(SAVED, 1) for _ in range(int(rounds))]
        for channels in CHANNELS:
            costs = [session(f"{SAVED}\n{prepared.subject.statement}", channels) for _ in range(int(rounds))]
            peak, before = (statistics.median(it.peak for it in some) / 1e6 for some in (costs, without))
            more = [less(*pair) for pair in zip(costs, without)]
            faults, took = statistics.median(it.faults for it in more), statistics.median(it.processor for it in more)
            print(f"peak of a recover from {LOGS} logs, channels {channels}: {peak:.1f} MB, without {before:.1f} MB; {faults:,.0f} page faults; {1000 * took:.0f} ms of processors")


if __name__ == "__main__":
    main(*sys.argv[1:])
