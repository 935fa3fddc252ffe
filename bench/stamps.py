#!/usr/bin/env python3
"""Counts what the kit's stamps read, by crates.txt:
    bench/stamps.py [FOLDER]
The kit's `Crate.stamp` sums a crate's files and the stamps of the crates that it names, each anew for each name: so a file is read once
for every path that leads down to it in crates.txt. FOLDER is the checkout, this one if left out. For each crate: its files, the
paths from it (its own among them), the files read for one stamp (and one of the kit for each path, which is not counted); at the end
one round, a stamp of each library. `rt ci` makes two rounds. Only crates.txt is read here, and the files are counted."""
import os
import sys

PARTS = ("src", "specs", "proofs")


def uses_of(folder):
    """Returns what crates.txt names for each crate, of the repository's own."""
    named = {}
    with open(f"{folder}/crates.txt", encoding="utf-8") as it:
        rows = [row.partition("#")[0].partition(":") for row in it]
    for head, _, tail in rows:
        if head.strip():
            named[head.split()[0]] = tail.replace(",", " ").split()
    return {crate: [it for it in uses if it in named] for crate, uses in named.items()}


def files_in(folder):
    return sum(len(names) for part in PARTS for _, _, names in os.walk(f"{folder}/{part}"))


def counted(folder):
    """Returns the files, paths and reads of each crate."""
    uses, found = uses_of(folder), {}

    def count(crate):
        if crate not in found:
            below = [count(it) for it in uses[crate]]
            files = files_in(f"{folder}/crates/{crate}")
            paths = 1 + sum(paths for _, paths, _ in below)
            found[crate] = files, paths, files + sum(reads for _, _, reads in below)
        return found[crate]

    for crate in uses:
        count(crate)
    return found


def main():
    if len(sys.argv) > 2 or sys.argv[1:2] in (["-h"], ["--help"]):
        sys.exit(__doc__)
    folder = os.path.abspath(sys.argv[1] if len(sys.argv) == 2 else f"{os.path.dirname(os.path.abspath(__file__))}/..")
    if not os.path.isfile(f"{folder}/crates.txt"):
        sys.exit(f"stamps: there is no {folder}/crates.txt")
    found = counted(folder)
    libraries = [it for it in found if not os.path.isfile(f"{folder}/crates/{it}/src/main.rt")]
    print("| Crate | Files | Paths | Reads |\n|---|---|---|---|")
    for crate in sorted(found, key=lambda it: (-found[it][2], it)):
        files, paths, reads = found[crate]
        print(f"| {crate} | {files} | {paths:,} | {reads:,} |")
    print(f"\nOne round, each of the {len(libraries)} libraries once: {sum(found[it][2] for it in libraries):,} reads.")


if __name__ == "__main__":
    main()
