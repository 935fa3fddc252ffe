#!/usr/bin/env python3
"""Says which links of the papers lead nowhere, and which lines are too long; status 1 where there is one:
    bench/links.py
A link leads to a file of the repository and, behind a `#`, to a heading of it. README has at most 100 lines; it, RECOVERING and
STATEMENTS have at most 120 columns."""
import os
import re
import sys

TOP = os.path.dirname(os.path.dirname(os.path.abspath(__file__)))
NARROW = ["README.md", "docs/RECOVERING.md", "docs/STATEMENTS.md"]
COLUMNS, LINES = 120, 100


def papers():
    return ["README.md", "CONTRIBUTING.md"] + sorted(f"docs/{it}" for it in os.listdir(os.path.join(TOP, "docs")))


def lines_of(paper):
    with open(os.path.join(TOP, paper), encoding="utf-8") as it:
        return it.read().splitlines()


def prose_of(paper):
    """Returns the lines outside blocks, with their numbers."""
    found, is_block = [], False
    for number, line in enumerate(lines_of(paper), 1):
        if line.startswith("```"):
            is_block = not is_block
        elif not is_block:
            found.append((number, line))
    return found


def anchors_of(paper):
    """Returns the names of the headings, as a browser of the repository makes them."""
    titles = [line.lstrip("#").strip().lower() for _, line in prose_of(paper) if line.startswith("#")]
    return {re.sub(r"[^\w\- ]", "", title).replace(" ", "-") for title in titles}


def leads(paper, link):
    """Returns whether a link of this paper leads somewhere."""
    file, _, anchor = link.partition("#")
    to = os.path.normpath(os.path.join(os.path.dirname(paper), file)) if file else paper
    return os.path.exists(os.path.join(TOP, to)) and (not anchor or anchor in anchors_of(to))


def faults():
    for paper in papers():
        for number, line in prose_of(paper):
            for link in re.findall(r"\]\(([^)]+)\)", line):
                if "://" not in link and not leads(paper, link):
                    yield f"{paper}:{number}: {link} leads nowhere"
    for paper in NARROW:
        for number, line in enumerate(lines_of(paper), 1):
            if len(line) > COLUMNS:
                yield f"{paper}:{number}: {len(line)} columns"
    if len(lines_of("README.md")) > LINES:
        yield f"README.md: over {LINES} lines"


def main():
    found = list(faults())
    print("\n".join(found) if found else "each link of the papers leads somewhere, and no line is too long")
    return 1 if found else 0


if __name__ == "__main__":
    sys.exit(main())
