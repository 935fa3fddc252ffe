#!/usr/bin/env python3
"""Makes worked rows of the sessions that the papers show, so that the gate runs them too:
    bench/paper_rows.py --write     writes crates/rm_test_rows/data/paper_*.row, and its stdout
    bench/paper_rows.py --check     says whether they are what the papers show; status 1 where not
A row is a session that begins in a fresh folder, with those that go on from it, up to the first block of shell; the form of a row stands
at the head of crates/rm_test_rows/src/main.rt. What words, folders and real files do is left to bench/papers.sh."""
import os
import re
import sys

TOP = os.path.dirname(os.path.dirname(os.path.abspath(__file__)))
PAPERS = ["README.md", "docs/STATEMENTS.md", "docs/RECOVERING.md"]
DATA = os.path.join(TOP, "crates/rm_test_rows/data")
STDOUT = os.path.join(TOP, "crates/rm_test_rows/stdout")
# (a moment past 1970, of which the papers show that nothing lies before)
CLOCK = 1_700_000_000


def read(path):
    with open(path, encoding="utf-8") as it:
        return it.read()


def blocks_of(paper):
    """Returns the blocks that are run, each with the heading above it, its words and its lines."""
    found, heading, words, lines = [], "", None, []
    for line in read(os.path.join(TOP, paper)).splitlines():
        if words is None and line.startswith("#"):
            heading = line.lstrip("# ")
        elif words is None and re.match(r"```(session|shell)", line):
            words, lines = line[3:].split(), []
        elif words is not None and line == "```":
            found.append((heading, words, lines))
            words = None
        elif words is not None:
            lines.append(line)
    return found


def chains_of(paper):
    """Returns the chains of sessions with their headings: the first of each is in a fresh folder."""
    chains, goes_on = [], False
    for heading, words, lines in blocks_of(paper):
        is_session = words[0] == "session"
        if is_session and "next" not in words:
            chains.append((heading, [(words, lines)]))
        elif is_session and goes_on:
            chains[-1][1].append((words, lines))
        goes_on = is_session and ("next" not in words or goes_on)
    return chains


def status_in(words):
    return words[words.index("status") + 1] if "status" in words else "0"


def row_of(paper, heading, sessions):
    text = f"# What {paper} shows under \"{heading}\". Made by bench/paper_rows.py.\n\n-- clock {CLOCK}\n"
    for k, (words, lines) in enumerate(sessions):
        shown = [line for line in lines if line]
        text += ("" if k == 0 else "\n-- session\n") + "\n".join(shown) + f"\n\n-- status {status_in(words)}\n"
    return text


def rows():
    """Returns the rows by their names."""
    found = {}
    for paper in PAPERS:
        stem = "paper_" + os.path.basename(paper)[:-3].lower() + "_"
        for heading, sessions in chains_of(paper):
            name = stem + re.sub(r"\W+", "_", heading.lower()).strip("_")
            count = len([it for it in found if re.fullmatch(name + r"(_\d+)?", it)])
            found[name if count == 0 else f"{name}_{count + 1}"] = row_of(paper, heading, sessions)
    return found


def stdout_with(names):
    """Returns the stdout of the tests: the lines of all rows, and those behind them as they are."""
    others = sorted(it[:-4] for it in os.listdir(DATA) if it.endswith(".row") and not it.startswith("paper_"))
    behind = [line for line in read(STDOUT).splitlines() if line[:-3] not in others and not line.startswith("paper_")]
    return "\n".join([f"{name} ok" for name in sorted([*others, *names])] + behind) + "\n"


def written():
    return {it[:-4]: read(os.path.join(DATA, it)) for it in os.listdir(DATA) if it.startswith("paper_")}


def main(words):
    wanted = rows()
    stdout = stdout_with(wanted)
    if words == ["--write"]:
        for name in set(written()) - set(wanted):
            os.remove(os.path.join(DATA, f"{name}.row"))
        for name, text in wanted.items():
            with open(os.path.join(DATA, f"{name}.row"), "w", encoding="utf-8") as it:
                it.write(text)
        with open(STDOUT, "w", encoding="utf-8") as it:
            it.write(stdout)
        return 0
    is_same = written() == wanted and read(STDOUT) == stdout
    print(f"the {len(wanted)} rows of the papers are " + ("up to date" if is_same else "not what bench/paper_rows.py makes: run it with --write"))
    return 0 if is_same else 1


if __name__ == "__main__":
    if sys.argv[1:] not in (["--write"], ["--check"]):
        sys.exit(__doc__)
    sys.exit(main(sys.argv[1:]))
