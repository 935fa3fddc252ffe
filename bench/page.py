#!/usr/bin/env python3
"""The tables of docs/BENCHMARKS.md, from what the scripts of bench/run.sh say on standard input:
    bench/run.sh PROGRAM | tee LINES | bench/page.py > TABLES
A table is a subject. It has a row for each line of its form, and says what was wanted. Times are the shortest of several, as the script says
that tells them; a ratio is of two times of one run."""
import re
import sys


def ms(micros):
    return f"{int(micros) / 1000:,.1f}"


def number(text):
    return f"{int(text):,}"


# What bench/functions.py counts, and how it is told.
BY_FUNCTION = [
    ("instructions", "Each function itself, in percent of its statement's instructions, without the system's."),
    ("instructions with what it calls", "The same with what a function calls, but for threads that it begins."),
    ("processor time", "Each function of the program itself, and what it calls of the C library and of the system."),
    ("page faults", "Likewise. Fewer in a session with the statement than in one without are below 0."),
]

# Of each table its subject, what is told and wanted, its columns, and the form of a line with what a row makes of its parts.
TABLES = [
    ("Kernels", "1,000 runs over 65,536 bytes or blocks, by lanes and by a plain loop.", ["Kernel", "Lanes, ms", "Plain loop, ms", "Of it"],
     r"^(\w+): lanes (\d+) us, plain loop (\d+) us, lanes / plain (\d+) %", lambda g: [f"`{g[0]}`", ms(g[1]), ms(g[2]), f"{g[3]} %"]),
    ("Formats beside SHA-256", "Wanted: all but the digest takes less than a quarter of the time.", ["What", "ms", "MB/s", "SHA-256 is of it"],
     r"^((?:piece|log|  )[^:\n]*?)(?: of (\d+): (\d+) bytes|: (\d+) us, (\d+) MB/s, SHA-256 is (\d+) %)", lambda g: [f"**{g[0]} of {number(g[1])}**", "", "", ""] if g[1] else [g[0].strip(), ms(g[3]), g[4], f"{g[5]} %"]),
    ("Planning beside gathering", "Wanted: planning takes less than gathering.", ["Blocks", "Changed behind the target", "Level 1s and logs", "`plan_file`, ms"],
     r"^plan: (\d+) blocks, (\d+) changed behind the target, \d+ copies, (\d+) level 1s, (\d+) logs (\d+) us", lambda g: [number(g[0]), number(g[1]), f"{g[2]}, {g[3]}", ms(g[4])]),
    ("Gathering beside SHA-256", "Each object that counts is read and hashed once.", ["Bytes of the objects", "`gather`, ms", "Getting them and SHA-256, ms", "Of it"],
     r"^gather: \d+ objects of (\d+) bytes (\d+) us, getting them and SHA-256 (\d+) us .*, gather / SHA-256 (\d+) %", lambda g: [number(g[0]), ms(g[1]), ms(g[2]), f"{g[3]} %"]),
    ("Turns of the live database", "Beside a plain lock, which one thread can take many times in a row.", ["Threads", "Turns", "`Live`, ms", "Plain lock, ms", "Of it"],
     r"^live, threads (\d+): (\d+) turns (\d+) us, \d+ a second, plain lock (\d+) us, \d+ a second, live / plain lock (\d+) %", lambda g: [g[0], number(g[1]), ms(g[2]), ms(g[3]), f"{g[4]} %"]),
    ("Copies by channels", "Of a datafile of 65,536 blocks, beside a plain loop.", ["Channels", "ms", "Plain loop, ms", "Of it"],
     r"^copy, channels (\d+): \d+ blocks (\d+) us, plain loop (\d+) us, channels / plain loop (\d+) %", lambda g: [g[0], ms(g[1]), ms(g[2]), f"{g[3]} %"]),
    ("BACKUP, RESTORE and RECOVER beside sha256sum", "Two datafiles of 65,536 blocks, beside `sha256sum` of as many bytes as the objects have. Wanted: RECOVER of the lost database within three times it.",
     ["Statement", "ms", "Of sha256sum"], r"^(backup|recover|restore)( by \d channels| of a lost database)?:(?: \d+ blocks in)? (\d+) us, .*?(\d+) %$", lambda g: [(g[0].upper() + (g[1] or "")), ms(g[2]), f"{g[3]} %"]),
    ("Statements by channels", "Four datafiles of 32,768 blocks, beside the kit's `sha2` of the same bytes in one thread, and `sha256sum`; what a session takes more with the statement than without, medians. Wanted, by the clock: BACKUP, RECOVER and VALIDATE ALL by four channels below 70 %, BACKUP by one below 130 %, RECOVER by one below 160 %.",
     ["Statement", "Channels", "ms", "Of SHA-256", "Of `sha256sum`", "ms of processors", "Of SHA-256", "Of `sha256sum`", "Page faults", "Peak, MB", "Without it"],
     r"^([a-z\d ]+), channels (\d+): (-?[\d.]+) ms, (-|-?\d+ %) of SHA-256, (-?\d+ %) of sha256sum; processors (-?[\d.]+) ms, (-|-?\d+ %) of SHA-256, (-?\d+ %) of sha256sum; (-?\d+) page faults; peak ([\d.]+) MB, without ([\d.]+) MB$",
     lambda g: [g[0], *g[1:8], number(g[8]), *g[9:]]),
    *((f"Where the time goes, by function: {what}", told, ["Function", "BACKUP by 1", "by 4", "RECOVER by 1", "by 4", "VALIDATE ALL by 1", "by 4"],
       rf"^by function, {what}: (.*): (-?[\d.]+ %), (-?[\d.]+ %), (-?[\d.]+ %), (-?[\d.]+ %), (-?[\d.]+ %), (-?[\d.]+ %)$", lambda g: [f"`{g[0]}`" if "::" in g[0] else g[0], *g[1:]]) for what, told in BY_FUNCTION),
    ("A peak of memory", "RECOVER of 8 MB of datafiles from 20 MB of logs.", ["Logs", "Channels", "Peak, MB", "Without it", "Page faults", "ms of processors"],
     r"^peak of a recover from (\d+) logs, channels (\d+): ([\d.]+) MB, without ([\d.]+) MB; ([\d,]+) page faults; (-?\d+) ms of processors$", list),
    ("The list of records, where a statement only looks", "`records_of` of rm_machine over 16,000 logs.", ["Statement", "Blocks", "Millions of instructions", "Of the statement's", "Of it", "In its checks", "MB asked for", "Of the statement's", "Of it"],
     r"^the list of \d+ logs' records in (.*) of (\d+) blocks: ([\d.]+) of ([\d.,]+) million instructions, ([\d.]+ %), ([\d.]+) of them in its checks; ([\d.]+) of ([\d.,]+) MB asked for, ([\d.]+ %)$", lambda g: [g[0], number(g[1]), *g[2:]]),
    ("A save behind one WRITE", "Of a database of 8 MB: what its session takes more than one that only shows the settings.", ["ms", "Session, ms", "Of it", "ms of processors", "Session, ms", "Of it"],
     r"^save behind one WRITE: (-?[\d.]+) ms of ([\d.]+) ms, (-?\d+ %); processors (-?[\d.]+) ms of ([\d.]+) ms, (-?\d+ %)$", list),
    ("RECOVER from more and more logs", "Wanted: linear.", ["Logs of 4,096 records", "ms"], r"^recover from (\d+) logs of 4096 records: (\d+) us", lambda g: [g[0], ms(g[1])]),
    ("RECOVER and RECOVER COPY from more and more level 1s", "Wanted: linear.", ["Level 1s of 4,096 blocks", "RECOVER, ms", "RECOVER COPY, ms"],
     r"^recover from (\d+) level 1s of 4096 blocks: (\d+) us; recover copy over them: (\d+) us", lambda g: [g[0], ms(g[1]), ms(g[2])]),
    ("Level 1 with tracking, in instructions", "A datafile of 65,536 blocks. Wanted: a WRITE with tracking within a tenth of one without.", ["What", "With tracking, thousands", "Without", "Of it"],
     r"^(a level 1 of \d+ blocks of which \d+ changed|a WRITE, of \d+): ([\d,.]+) thousand with tracking, ([\d,.]+) without: ([\d.]+)", list),
    ("Mending beside a restore, in instructions", "", ["What", "Millions", "RESTORE and RECOVER", "Of it"],
     r"^(mending \d+ of \d+ blocks): ([\d,]+) million instructions; RESTORE and RECOVER: ([\d,]+) million; ([\d.]+)", list),
    ("BACKUP as pieces and as sets", "64 datafiles of 1,024 blocks, of which a hundredth was written.", ["As", "Bytes of the objects", "ms"],
     r"^backup of 64 datafiles of 1024 blocks, a hundredth written, as (pieces|sets of 8): ([\d,]+) bytes, (\d+) ms", list),
    ("WRITE over many records", "10,000 WRITEs. Wanted: the same within a fifth.", ["Over no log, ms", "Over 16,000 logs, ms", "Second / first"],
     r"^writes: 10000 WRITEs over no log (\d+) us, over 16000 logs (\d+) us, second / first (\d+) %", lambda g: [ms(g[0]), ms(g[1]), f"{g[2]} %"]),
    ("Opening a catalog", "Wanted: n log n, which is 213 %.", ["32,768 records, ms", "65,536, ms", "Second / first"],
     r"^opening: 32768 records (\d+) us, 65536 (\d+) us, second / first (\d+) %", lambda g: [ms(g[0]), ms(g[1]), f"{g[2]} %"]),
    ("Sessions beside bare transactions", "1,000 WRITEs over a real folder and file, beside 1,000 transactions of sqlite3's shell.", ["1,000 WRITEs, ms", "Transactions, ms", "Of it"],
     r"^a session of 1000 WRITEs: (\d+) us, 1000 bare transactions (\d+) us, (\d+) %", lambda g: [ms(g[0]), ms(g[1]), f"{g[2]} %"]),
    ("Many drops in one list", "DELETE EXPIRED of 1,000 of 16,000 logs, beside sqlite3's shell.", ["ms", "sqlite3, ms", "Of it"],
     r"^drops: 1000 of 16000 logs deleted in (\d+) us, by sqlite3 (\d+) us, (\d+) %", lambda g: [ms(g[0]), ms(g[1]), f"{g[2]} %"]),
    ("Scripts that are read", "", ["Bytes", "Statements", "ms"], r"^script: (\d+) bytes, (\d+) statements refused (\d+) us", lambda g: [number(g[0]), number(g[1]), ms(g[2])]),
    ("The drill", "36 statements, 20,000 writes, 20 backups meanwhile, all lost and back. Wanted: below 10 s.", ["Channels", "Seconds", "Peak memory so far, MB"],
     r"^drill 7 by (\d+) channels: ([\d.]+) s, peak memory so far (\d+) MB", list),
]

# Of the tables whose rows stand beside no other figure, the column that is told in percent of the first row's.
BESIDE_FIRST = {
    "Planning beside gathering": 3,
    "RECOVER from more and more logs": 1,
    "RECOVER and RECOVER COPY from more and more level 1s": 1,
    "BACKUP as pieces and as sets": 2,
    "Scripts that are read": 2,
    "The drill": 1,
}


def beside_first(rows, column):
    """Adds to each row its figure in percent of the first row's."""
    figures = [float(row[column].replace(",", "")) for row in rows]
    return [[*row, f"{100 * figure / figures[0]:.0f} %"] for row, figure in zip(rows, figures)]


def main():
    text = sys.stdin.read()
    for subject, wanted, columns, form, row in TABLES:
        rows = [list(row(match.groups())) for match in re.finditer(form, text, re.MULTILINE)]
        if rows and subject in BESIDE_FIRST:
            columns, rows = [*columns, "Of the first"], beside_first(rows, BESIDE_FIRST[subject])
        if rows:
            print(f"### {subject}\n\n{wanted + chr(10) * 2 if wanted else ''}| {' | '.join(columns)} |\n|{'---|' * len(columns)}")
            print("".join(f"| {' | '.join(cells)} |\n" for cells in rows))


main()
