#!/usr/bin/env python3
"""Draws lines of the sources at random, for a reader who is to say in which crate each stands:
    bench/draw.py SEED NUMBER FOLDER
FOLDER is made, with `lines` (each line marked, two of its neighbours on each side), `names` (each crate, and what its files are called, as `ls` shows
them), the papers MAP.md and GLOSSARY.md, and beside it FOLDER.key, which the reader does not get: where each line stands. The lines are those of
src/, specs/ and proofs/ of all crates, of 20 characters at least, imports not counted."""
import os
import random
import shutil
import sys

PARTS = ("src", "specs", "proofs")
ENDINGS = (".rt", ".antt")
SHORTEST = 20


def files_of(part):
    """Returns the sources below a folder."""
    found = []
    for folder, _, names in os.walk(part):
        found.extend(os.path.join(folder, name) for name in names if name.endswith(ENDINGS))
    return found


def sources():
    """Returns each source of the crates, in order."""
    return sorted(path for crate in os.listdir("crates") for part in PARTS for path in files_of(os.path.join("crates", crate, part)))


def lines_of(path):
    with open(path, encoding="utf-8") as it:
        return it.read().split("\n")


def counts(line):
    """Whether a line may be drawn."""
    text = line.strip()
    return len(text) >= SHORTEST and not text.startswith(("use ", "ghost use"))


def names():
    """Returns the names of all crates and of their files, a line a folder."""
    said = []
    for crate in sorted(os.listdir("crates")):
        said.append(crate)
        for part in PARTS:
            folder = os.path.join("crates", crate, part)
            files = [name for name in os.listdir(folder) if name.endswith(ENDINGS)] if os.path.isdir(folder) else []
            subjects = sorted(os.path.splitext(name)[0] for name in files if name not in ("Lib.antt", "lib.rt"))
            if subjects:
                said.append(f"  {part}/: {' '.join(subjects)}")
    return said


def main():
    seed, number, folder = int(sys.argv[1]), int(sys.argv[2]), sys.argv[3]
    os.makedirs(folder)
    texts = {path: lines_of(path) for path in sources()}
    places = [(path, at) for path, lines in texts.items() for at, line in enumerate(lines) if counts(line)]
    random.seed(seed)
    drawn, key = [], []
    for count, (path, at) in enumerate(random.sample(places, number), 1):
        drawn.append(f"--- {count}")
        near = range(max(0, at - 2), min(len(texts[path]), at + 3))
        drawn.extend(("> " if k == at else "  ") + texts[path][k] for k in near)
        key.append(f"{count} {path}:{at + 1}")
    for name, said in (("lines", drawn), ("names", names())):
        with open(os.path.join(folder, name), "w", encoding="utf-8") as it:
            it.write("\n".join(said) + "\n")
    with open(folder.rstrip("/") + ".key", "w", encoding="utf-8") as it:
        it.write("\n".join(key) + "\n")
    for paper in ("MAP.md", "GLOSSARY.md"):
        shutil.copy(os.path.join("docs", paper), folder)
    print(f"{number} of {len(places)} lines")


if __name__ == "__main__":
    main()
