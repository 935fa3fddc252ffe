#!/usr/bin/env python3
"""Tells what each crate costs the gate, in processor seconds:
    bench/costs.py LOG .ci/run          runs the gate (or another command), and writes to LOG what each of its processes took
    bench/costs.py LOG --made FOLDER    writes to LOG what each crate of a checkout took by the clock, where a run was not looked at
    bench/costs.py LOG                  prints the table of it, for docs/NOTES.md
    bench/costs.py LOG --chain          prints the chain of crates in crates.txt, each below the next, whose proofs take longest
What `rt ci` prints has no times, and its scripts are left as they are: so this looks at the processes of the run alone, four times a
second, and sorts them by the words and the folder that they were started with. What a process took behind its last look is known once
its parent has waited for it: the system adds it to what the parent waited for, and it is given to the processes that went since the
look before, in equal parts. Where none was seen to go, so that it came and went between two looks, it is the parent's, or that of
`other processes` where the parent is rt. The status of a run is the command's own, or 128 and its signal.
By --made a crate took from when its folder out/ was made until its library was, or the latest of its programs: right where the run
proved it from nothing, and kept no time that it waited."""
import collections
import os
import re
import subprocess
import sys
import time

from stamps import uses_of

TICKS = os.sysconf("SC_CLK_TCK")
PAUSE = 0.25
TOP = os.path.dirname(os.path.dirname(os.path.abspath(__file__)))
COLUMNS = {"proof": "Proof", "building": "Building", "tests": "Tests", "edits": "Edits"}
# What a look saw of a process: its parent's number, what it does and for which crate, what it took itself, and what those took that it waited for.
Seen = collections.namedtuple("Seen", "parent kind crate own waited")
NOT_SEEN = Seen(0, None, None, 0, 0)


def read(path):
    try:
        with open(path, encoding="utf-8", errors="replace") as it:
            return it.read()
    except OSError:
        return ""


def processes():
    """Returns each process that runs by its number and its start: its parent, its processor seconds, and those of what it waited for."""
    found = {}
    for pid in filter(str.isdigit, os.listdir("/proc")):
        # (the second word is a name in brackets, which may hold anything)
        words = read(f"/proc/{pid}/stat").rpartition(")")[2].split()
        if words:
            user, system, waited_user, waited_system = map(int, words[11:15])
            found[int(pid), words[19]] = int(words[1]), (user + system) / TICKS, (waited_user + waited_system) / TICKS
    return found


def sort_of(pid):
    """Returns what the process does and for which crate, by its words and its folder; None and None where they don't tell."""
    words = read(f"/proc/{pid}/cmdline").split("\0")
    try:
        folder = os.path.basename(os.readlink(f"/proc/{pid}/cwd"))
    except OSError:
        folder = ""
    program = re.search(r"/rt-run-\w+/bin/(\w+)", "\n".join(words))
    if program:
        return "running", program[1]
    if any(os.path.basename(it) == "rattle-link" for it in words):
        return "building", folder
    if "--crate-name" in words:
        crate = words[words.index("--crate-name") + 1]
        if folder.startswith("rt-edit-"):
            return "edits", crate
        if "--test" in words:
            return "tests", crate
        return "building" if "--crate-checked" in words else "proof", crate
    if any(os.path.basename(it) == "rt" for it in words[:3]):
        return "rt", "-"
    return None, None


def tree_of(now, last, root):
    """Returns the root process and those below it, of what runs now, the earliest first. One that outlives its parent was seen before."""
    below = collections.defaultdict(list)
    for key, (parent, _, _) in now.items():
        below[parent].append(key)
    left, reached = [it for it in now if it[0] == root or it in last], set()
    while left:
        key = left.pop()
        if key not in reached:
            reached.add(key)
            left += below[key[0]]
    return sorted(reached, key=lambda it: int(it[1]))


def seen_now(last, root):
    """Returns what there is of the root process and those below it."""
    now, seen = processes(), {}
    by_number = {}
    # (a process is started by a small script that then becomes another program, so it is sorted anew at each look)
    for key in tree_of(now, last, root):
        parent, own, waited = now[key]
        kind, crate = sort_of(key[0])
        if kind is None:
            old = last.get(key) or by_number.get(parent)
            kind, crate = (old.kind, old.crate) if old and old.kind != "rt" else ("other", "-")
        seen[key] = by_number[key[0]] = Seen(parent, kind, crate, own, waited)
    return seen


def look(last, sums, root):
    """Adds to the sums what the root process and those below it took since the last look, and returns what this one saw."""
    seen, gone = seen_now(last, root), collections.defaultdict(list)
    for key, it in last.items():
        if key not in seen:
            gone[it.parent].append((key[0], it))

    def counted(number, it):
        """What is in the sums of a process that went, and of those that went below it."""
        return it.own + it.waited + sum(counted(*one) for one in gone[number])

    for key, it in seen.items():
        old, ended = last.get(key, NOT_SEEN), gone[key[0]]
        sums[it.kind, it.crate] += it.own - old.own
        rest = it.waited - old.waited - sum(counted(*one) for one in ended)
        whose = [(one.kind, one.crate) for _, one in ended] or [(it.kind, it.crate) if it.kind != "rt" else ("other", "-")]
        for one in whose:
            sums[one] += rest / len(whose)
    return seen


def watched(started):
    """Returns what the command's processes took until its end, by kind and crate, how it ended, and what the system counts for it."""
    last, sums = {}, collections.Counter()
    while True:
        last = look(last, sums, started.pid)
        # (as long as it is not waited for, its number is nobody else's)
        ended, status, spent = os.wait4(started.pid, os.WNOHANG)
        if ended:
            return sums, os.waitstatus_to_exitcode(status), spent.ru_utime + spent.ru_stime
        time.sleep(PAUSE)


def run(log, command):
    began = time.time()
    # (opened first: a gate takes long, and its log is to have a place)
    with open(log, "w", encoding="utf-8") as file:
        sums, code, spent = watched(subprocess.Popen(command))
        for (kind, crate), seconds in sorted(sums.items()):
            print(f"{kind} {crate} {seconds:.2f}", file=file)
        print(f"all - {spent:.2f}\nclock - {time.time() - began:.2f}", file=file)
    return code if code >= 0 else 128 - code


def made(log, folder):
    """Writes when the crates of a checkout were made, as far as its files tell."""
    spans = {}
    for crate in os.listdir(f"{folder}/crates"):
        out = f"{folder}/crates/{crate}/out"
        names = [f"{out}/rlib/{crate}.rlib", *(f"{out}/{it}" for it in (os.listdir(out) if os.path.isdir(out) else []) if it.startswith(crate))]
        ends = [os.stat(it).st_mtime for it in names if os.path.exists(it)]
        if ends:
            # (python's own stat has no time of birth)
            spans[crate] = float(subprocess.check_output(["stat", "-c", "%.W", out])), max(ends)
    if not spans:
        sys.exit(f"costs: no crate of {folder} was made")
    with open(log, "w", encoding="utf-8") as file:
        for crate, (begin, end) in sorted(spans.items()):
            print(f"proof {crate} {end - begin:.2f}", file=file)
        print(f"clock - {max(it[1] for it in spans.values()) - min(it[0] for it in spans.values()):.2f}", file=file)


def costs_of(log):
    """Returns the seconds that a log has, by kind and crate."""
    with open(log, encoding="utf-8") as it:
        return {(kind, crate): float(seconds) for kind, crate, seconds in map(str.split, it)}


def told(seconds):
    return f"{seconds:,.0f}" if seconds else ""


def table(log):
    costs = costs_of(log)
    crates = sorted({crate for kind, crate in costs if kind in COLUMNS})
    print(f"| Crate | {' | '.join(COLUMNS.values())} |\n|---{'|---' * len(COLUMNS)}|")
    for crate in crates:
        print(f"| {crate} | {' | '.join(told(costs.get((kind, crate), 0)) for kind in COLUMNS)} |")
    of_kind = lambda kind: sum(seconds for (it, _), seconds in costs.items() if it == kind)
    print(f"| all | {' | '.join(told(of_kind(kind)) for kind in COLUMNS)} |")
    if ("all", "-") not in costs:
        print(f"\nSeconds by the clock, side by side; {costs['clock', '-']:,.0f} from the first to the last.")
        return
    rest = {"Python of rt": of_kind("rt"), "programs and tests that ran": of_kind("running"), "other processes": of_kind("other")}
    every = costs["all", "-"]
    seen = sum(seconds for (kind, _), seconds in costs.items() if kind not in ("all", "clock"))
    # (what a run leaves behind that is ended by hand is seen, and not counted by the system)
    rest["behind the last look"] = max(every - seen, 0)
    print(f"\nBesides: {', '.join(f'{what} {seconds:,.0f}' for what, seconds in rest.items())}.")
    print(f"All in all {every:,.0f} processor seconds, {costs['clock', '-']:,.0f} by the clock.")


def chain(log):
    """Prints the chain of crates whose proofs, with a program's building, take longest one after the other."""
    costs, uses, found = costs_of(log), uses_of(TOP), {}
    own = lambda crate: costs.get(("proof", crate), 0) + costs.get(("building", crate), 0)

    def longest(crate):
        """The seconds of the longest chain that ends with the crate, and its crates."""
        if crate not in found:
            below = max((longest(it) for it in uses[crate]), default=(0, []))
            found[crate] = below[0] + own(crate), [*below[1], crate]
        return found[crate]

    seconds, crates = max(longest(it) for it in uses)
    print("| Crate | Proof | Up to it |\n|---|---|---|")
    for crate in crates:
        print(f"| {crate} | {told(own(crate))} | {told(longest(crate)[0])} |")
    every = sum(map(own, uses))
    print(f"\n{len(crates)} of {len(uses)} crates one after the other take {seconds:,.0f} of the {every:,.0f} seconds of all proofs.")


def main(words):
    if not words or words[0].startswith("-"):
        sys.exit(__doc__)
    try:
        if words[1:] == ["--chain"]:
            chain(words[0])
        elif words[1:2] == ["--made"] and len(words) == 3:
            made(words[0], words[2])
        elif len(words) > 1:
            sys.exit(run(words[0], words[1:]))
        else:
            table(words[0])
    except OSError as error:
        sys.exit(f"costs: {error.filename}: {error.strerror}")


main(sys.argv[1:])
