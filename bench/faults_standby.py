#!/usr/bin/env python3
"""The part `standbys` of bench/faults.sh, which says what it tries and calls this:
    bench/faults_standby.py PROGRAM LIBRARY ROOM [NUMBER]
with the words of bench/faults.py."""
import os
import random
import re
import sys

from faults import ASKS, Ended, Folder, Tally, ended, references, without_warnings
from faults_duplicate import Duplicate, try_all

# Where the standby is made, and what then makes its first increment.
MADE = 18
INCREMENT = f"""ALTER DATABASE ENABLE BLOCK CHANGE TRACKING;
WRITE DATAFILE 1 BLOCK 0 VALUE 'p';
CREATE DATAFILE BLOCKS 2;
WRITE DATAFILE 3 BLOCK 1 VALUE 'q';
BACKUP INCREMENTAL FROM SCN {MADE} DATABASE;"""


class Standby(Duplicate):
    """A standby that is made or rolled, as it is without a fault, and what is found before it and behind it."""

    def __init__(self, folder, before, what):
        self.folder, self.before = folder, before
        self.words = ["standby", *self.places(), *what]
        self.look()

    def finds(self):
        """What the database tells, and the standby: nothing where there is none."""
        source = self.folder.run(ASKS)
        dump = ended(self.folder.start(["standby", *self.places(), "--dump"], ""))
        is_none = dump.out == b"RM-12: no object standby\n" or dump.status == 5 and not os.path.exists(f"{self.folder.path}/copies")
        return source._replace(err=without_warnings(source.err)), Ended(1, b"", "") if is_none else dump._replace(err=without_warnings(dump.err))

    def again(self):
        """Why that may not come of the same words once more: the standby."""
        how, found = self.make(), self.finds()
        is_answer = re.fullmatch(rb"standby [1-4] at (\d+) of incarnation \d+: files \d+( changed \d+)?\n", how.out)
        if how.status == 0 and is_answer and found == self.found:
            return None
        return f"once more: status {how.status}, {how.out[-80:]!r} {how.err!r}"


def main():
    program, library, room = sys.argv[1:4]
    number, seed = int(sys.argv[4]) if len(sys.argv) > 4 else 0, os.environ.get("FAULTS_SEED") or str(random.randrange(2**32))
    folder, rng, tally = Folder(f"{room}/now", program, library), random.Random(seed), Tally("standbys")
    folder.put(references(folder)[-1].after)
    increment = re.search(rb"^roll (\d+) from", folder.run(INCREMENT).out, re.M)[1].decode()
    made = Standby(folder, folder.take(), ["--make", str(MADE)])
    try_all(made, number // 2, rng, tally)
    try_all(Standby(folder, made.after, ["--roll", increment]), number // 2, rng, tally)
    if tally.tell("standbys made and rolled"):
        return 0
    print(f"standbys: the seed was {seed}")
    return 1


if __name__ == "__main__":
    sys.exit(main())
