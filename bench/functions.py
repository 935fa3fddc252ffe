#!/usr/bin/env python3
"""Where a BACKUP's, RECOVER's and VALIDATE ALL's time goes, by function:
    bench/functions.py PROGRAM [ROWS]
PROGRAM is the program as it was built, and not the script ./rman; ROWS is how many functions are told (10), those with the greatest part in any statement. It wants valgrind, and perf for what is told of
processor time and page faults, which are left out without it. The databases and sessions are those of bench/channels.py: four datafiles of 32,768 blocks, with a backup of each.
What a statement takes is what its session takes more than the one without it, function by function, by 1 channel and by 4, in percent of all that it takes:
- instructions that a function takes itself, and with what it calls, by callgrind, in which the statement stands once. Those of the system are not counted. By one channel they are the
  same each time, by four nearly, since a thread that waits asks again. With what it calls a function is 0 that passes on nearly all to one other, which is told in its place;
- processor time and page faults of a function itself and of what it calls of the C library and the system, by perf, in which the statement stands as often as in bench/channels.py.
  Processor time, told in ms, is by 5,000 looks a second, and is never quite the same.
A function is told by its name in the sources, its instances for several types as one; what the compiler put into its caller is the caller's. What a thread takes is called by
nothing but `+threads::entry`, so a function that begins threads has of it only what it does itself."""
import collections
import os
import re
import shutil
import subprocess
import sys
import tempfile

from channels import SUBJECTS, Prepared, digest_of

# How a subject of bench/channels.py is told here.
TOLD = {"backup": "backup", "recover": "recover", "validate of 4 pieces": "validate"}
CHANNELS = (1, 4)
# What perf counts, its words, and what one is in the unit that is told: ms, and page faults.
EVENTS = {"processor time": (["-e", "cpu-clock", "-F", "5000"], 0.2), "page faults": (["-e", "page-faults", "-c", "1"], 1)}
# The kit's calls of malloc and the like, whose caller is told.
WRAPPERS = {"rattle_alloc", "rattle_realloc", "rattle_dealloc"}
OWN, WHOLE = "instructions", "instructions with what it calls"


def name_of(symbol, file):
    """A function's name as a reader finds it, without the number of an instance. Where it has none stands its file."""
    if re.fullmatch(r"(0x)?[0-9a-f]*|\[?unknown\]?", symbol):
        return f"a function of {os.path.basename(file)}"
    return re.sub(r"::<.*>$", "", re.sub(r"'\d+$|@+[\w.]+$", "", symbol))


def callgrind(file):
    """The words before a program's that count its instructions in a file."""
    return ["valgrind", "-q", "--tool=callgrind", f"--callgrind-out-file={file}", "--compress-strings=no", "--compress-pos=no"]


def read_callgrind(file):
    """What each function took itself, what with all that it called, and what by its calls of each other one."""
    own, whole, calls = collections.Counter(), collections.Counter(), collections.Counter()
    at = of = callee = called = ""
    is_call = False
    with open(file, encoding="utf-8", errors="replace") as lines:
        for line in lines:
            word, _, rest = line.rstrip("\n").partition("=")
            if word == "ob":
                of = called = rest
            elif word == "cob":
                called = rest
            elif word == "fn":
                at = name_of(rest, of)
            elif word == "cfn":
                callee, called = name_of(rest, called), of
            elif word == "calls":
                is_call = True
            elif line[:1].isdigit():
                cost = int(line.split()[1])
                if not is_call:
                    own[at] += cost
                elif callee != at:
                    calls[at, callee] += cost
                # (what a function takes that calls itself is in its call already)
                whole[at] += cost if not is_call or callee != at else 0
                is_call = False
    return own, whole, calls


def by_callgrind(prepared, script, channels, file):
    """What a session's functions take in instructions, as read_callgrind tells it."""
    prepared.session(script, channels, callgrind(file))
    shutil.rmtree(prepared.place)
    return read_callgrind(file)


def whose(sample, program):
    """The function of the program to which a sample of perf belongs: the innermost one, whatever it called of the C library and of the system."""
    frames = [it for it in (re.fullmatch(r"\s*[0-9a-f]+ (.*) \((.*)\)\s*", line) for line in sample.splitlines()) if it]
    ours = [name_of(it[1], it[2]) for it in frames if it[2] == program and it[1] not in WRAPPERS]
    return (ours or [name_of(it[1], it[2]) for it in frames] or ["a place that perf does not know"])[0]


def by_perf(prepared, script, channels, file, event):
    """How often the event came in each of a session's functions itself, or in what it called outside the program."""
    prepared.session(script, channels, ["perf", "record", "-q", *EVENTS[event][0], "--call-graph", "dwarf,1024", "-o", file, "--"])
    shutil.rmtree(prepared.place)
    told = subprocess.run(["perf", "script", "-i", file, "-F", "ip,sym,dso"], stdout=subprocess.PIPE, stderr=subprocess.DEVNULL, text=True, check=True).stdout
    return collections.Counter(whose(sample, prepared.program) for sample in told.split("\n\n") if sample.strip())


def less(one, other, by=1):
    return {name: (one[name] - other[name]) * by for name in {*one, *other}}


def told_whole(whole, calls):
    """Of what functions take with what they call, that of functions which don't pass on nearly all of it to one other, and are not of the C library."""
    passing = {caller for (caller, _), cost in calls.items() if cost > 0.99 * whole[caller]}
    return {name: cost for name, cost in whole.items() if "::" in name and name not in passing}


def counts_of(prepared, channels, file, has_perf):
    """What the statement takes more, by function, in each of the ways that it is counted; with the sum of it."""
    without, statement, times = prepared.subject.without, prepared.subject.statement, prepared.subject.times
    own, whole, calls = (less(*pair) for pair in zip(*(by_callgrind(prepared, f"{without}\n{it}", channels, file) for it in (statement, ""))))
    counts = {OWN: own, WHOLE: told_whole(whole, calls)}
    for event in EVENTS if has_perf else ():
        counts[event] = less(*(by_perf(prepared, f"{without}\n{it * times}", channels, file, event) for it in (statement, "")), EVENTS[event][1] / times)
    return {what: (sum(counts[OWN if what == WHOLE else what].values()), count) for what, count in counts.items()}


def tell(what, columns, rows):
    """The lines of one way of counting: what each column comes to, and the first functions in percent of it."""
    for name, counts in columns.items():
        print(f"{what} of {name}: {counts[what][0]:,.0f}")
    shares = [collections.Counter({of: 100 * count / every for of, count in it.items()}) for every, it in (counts[what] for counts in columns.values())]
    most = {of: max(share[of] for share in shares) for share in shares for of in share}
    for of in sorted(most, key=most.get, reverse=True)[:rows]:
        print(f"by function, {what}: {of}: {', '.join(f'{share[of]:.1f} %' for share in shares)}")


def main(program, rows="10"):
    has_perf, columns = shutil.which("perf") is not None, {}
    print(f"program {digest_of(program)[:8]}{'' if has_perf else ', without perf'}", flush=True)
    with tempfile.TemporaryDirectory(dir="/dev/shm") as room:
        for subject in (it for it in SUBJECTS if it.name in TOLD):
            prepared = Prepared(os.path.abspath(program), subject, f"{room}/{TOLD[subject.name]}")
            for channels in CHANNELS:
                columns[f"{TOLD[subject.name]} by {channels}"] = counts_of(prepared, channels, f"{room}/counted", has_perf)
    print(f"columns: {', '.join(columns)}")
    for what in next(iter(columns.values())):
        tell(what, columns, int(rows))


if __name__ == "__main__":
    main(*sys.argv[1:])
