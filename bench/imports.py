#!/usr/bin/env python3
"""Writes the imports of each source of logic, one line a crate where it fits:
    bench/imports.py FILE..      puts the imports of these .rt and .antt files together
Lines `use Rattle.CRATE...` (`ghost use` in .rt) that stand one below the other become `use Rattle.CRATE.{..}`, each crate where it first stood, its
definitions before its types and its lemmas. A line is not made longer than 140 columns. A module that is named as such keeps a line of its own, as
the language wants it. What a file says stays the same, and so do all other lines."""
import re
import sys

WIDTH = 140
LINE = re.compile(r"^(\s*)((?:ghost )?use )Rattle\.(.*?)(;?)$")
# A name that the language has for itself can't begin a path.
RESERVED = {"as", "data", "in", "open", "record", "where"}
# Definitions come first, then declared types, then lemmas.
ORDER = {"specs": 0, "declared": 1, "proofs": 2}


def parts_of(text):
    """Returns the parts of a list, which commas divide outside of braces."""
    parts, depth, start = [], 0, 0
    for at, letter in enumerate(text):
        depth += (letter == "{") - (letter == "}")
        if letter == "," and depth == 0:
            parts.append(text[start:at])
            start = at + 1
    return [part.strip() for part in parts + [text[start:]] if part.strip()]


def path_of(text):
    """Returns the names of a path, each reserved one with that before it."""
    path = []
    for name in text.split("."):
        if name in RESERVED and path:
            path[-1] += "." + name
        else:
            path.append(name)
    return tuple(path)


def imports_of(text):
    """Returns what is imported: pairs of a path and the items that are taken from it, of which a module of its own has none."""
    if not text.endswith("}"):
        return [(path_of(text), None)]
    head, inner = text[:-1].split("{", 1)
    path = path_of(head.rstrip("."))
    parts = parts_of(inner)
    deep = [part for part in parts if "." in part or part.endswith("}")]
    names = [part for part in parts if part not in deep]
    found = [(path, names)] if names else []
    return found + [(path + more, items) for part in deep for more, items in imports_of(part)]


def rank(entry):
    path = entry[0]
    return ORDER["declared"] if any(name.startswith("declared") for name in path[1:3]) else ORDER.get(path[1] if len(path) > 1 else "", 0)


def text_of(entries):
    """Returns the entries as one path, with braces where they part."""
    if len(entries) == 1:
        path, names = entries[0]
        return ".".join(path) + ".{" + ", ".join(names) + "}"
    heads = []
    for path, _ in entries:
        if path[0] not in heads:
            heads.append(path[0])
    groups = []
    for head in heads:
        below = [(path[1:], names) for path, names in entries if path[0] == head]
        groups.append(group_of(head, below))
    return groups[0] if len(groups) == 1 else "{" + ", ".join(groups) + "}"


def group_of(head, below):
    """Returns a head with all that stands below it."""
    own = [name for path, names in below if not path for name in names]
    deep = [(path, names) for path, names in below if path]
    if not deep:
        return head + ".{" + ", ".join(own) + "}"
    text = text_of(deep)
    if not own:
        return f"{head}.{text}"
    inner = text[1:-1] if text.startswith("{") else text
    return head + ".{" + ", ".join(own + [inner]) + "}"


def joined(entries):
    """Returns the entries with those of one path as one."""
    found = {}
    for path, names in entries:
        kept = found.setdefault(path, [])
        kept.extend(name for name in names if name not in kept)
    return list(found.items())


def lines_of(indent, word, end, entries):
    """Returns the lines of one crate: its items, and then its modules."""
    lines, now = [], []
    for entry in sorted(joined([it for it in entries if it[1] is not None]), key=rank):
        line = f"{indent}{word}Rattle.{text_of(now + [entry])}{end}"
        if now and len(line) > WIDTH:
            lines.append(f"{indent}{word}Rattle.{text_of(now)}{end}")
            now = []
        now.append(entry)
    if now:
        lines.append(f"{indent}{word}Rattle.{text_of(now)}{end}")
    return lines + [f"{indent}{word}Rattle.{'.'.join(path)}{end}" for path, names in entries if names is None]


def written(block):
    """Returns the lines of a block of imports."""
    crates = {}
    for indent, word, text, end in block:
        for path, names in imports_of(text):
            crates.setdefault(path[0], []).append((path_of(".".join(path)), names))
    indent, word, _, end = block[0]
    return [line for entries in crates.values() for line in lines_of(indent, word, end, entries)]


def put_together(source):
    """Returns a source with its imports put together."""
    lines, block = [], []
    for line in source.split("\n") + [None]:
        found = LINE.match(line) if line is not None else None
        if block and (not found or (found[1], found[2]) != block[0][:2]):
            lines.extend(written(block))
            block = []
        if found:
            block.append((found[1], found[2], found[3], found[4]))
        elif line is not None:
            lines.append(line)
    return "\n".join(lines)


def main():
    for path in sys.argv[1:]:
        with open(path, encoding="utf-8") as it:
            source = it.read()
        better = put_together(source)
        if better != source:
            with open(path, "w", encoding="utf-8") as it:
                it.write(better)


if __name__ == "__main__":
    main()
