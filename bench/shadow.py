#!/usr/bin/env python3
"""Checks definitions and lemma files of crates before the crates below them are proved, over shadows of these:
    bench/shadow.py CLONE FOLDER CRATE..
The shadow of a crate has its types, its specs and the lemma files that proofs/Lib.antt names, and no function: it is proved in half a minute, and
so a lemma file that stands high up can be checked while functions far below it are still open. CLONE is where the work is done, FOLDER a clone of
it for this alone, in which the sources of each CRATE, the lowest first, become those of its shadow and are checked. Give FOLDER what a gate has
built (bench/give.py), and name each crate that is not built yet and the ones above it. Answers to goals are not looked at, nor contracts. It
prints a line for each crate, and its errors. It gives no verdict: the gate is .ci/run."""
import os
import re
import subprocess
import sys
import time

# files that stand as they are, since a type in them asks for what a trait's impl there says
WHOLE = {("rm_live", "rule.rt"), ("rm_channel", "jobs.rt")}
# what can be derived without a function that has to be proved
DERIVED = ("Clone", "Copy", "Drop")
KEPT = re.compile(r"(pub(\([a-z]+\))? )?(struct|enum|type|mod)\b|pub const (?!fn)|impl(<[^>]*>)? Model for ")
MODEL = re.compile(r"^impl(<[^>]*>)? Model for .*?^}", re.M | re.S)
USE = re.compile(r"(pub(?:\([a-z]+\))? )?use (.*);", re.S)
TYPE = re.compile(r"^pub(?:\([a-z]+\))? (?:struct|enum|type|const) (\w+)", re.M)


def read(path):
    with open(path, encoding="utf-8") as it:
        return it.read()


def items_of(text):
    """Returns the items of a source file that is laid out: each ends with a line at the margin that ends in `;` or `}`."""
    found, lines = [], []
    for line in text.splitlines():
        if line.startswith("//") or not lines and not line:
            continue
        lines.append(line)
        if line.startswith("#![") or line[:1].strip() and line.endswith((";", "}")):
            found.append("\n".join(lines))
            lines = []
    return found


def head_of(item):
    """Returns an item without its attributes."""
    return re.sub(r"^(#\[[^\n]*\]\n)+", "", item)


def with_derived(item):
    """Returns an item of which what is derived has no function to be proved."""
    wanted = [it for them in re.findall(r"^#\[derive\((.*)\)\]", item, re.M) for it in re.split(r"\W+", them) if it in DERIVED]
    return (f"#[derive({', '.join(wanted)})]\n" if wanted else "") + head_of(item)


def names_in(tree, path=""):
    """Returns the path and the name of each that a tree of `use` brings in."""
    front, brace, rest = tree.partition("{")
    if not brace:
        at, _, name = tree.rpartition("::")
        return [(path + at, name)]
    parts = re.findall(r"(?:[^,{}]|\{[^{}]*\})+", rest.rpartition("}")[0])
    return [it for part in parts if part.strip() for it in names_in(part.strip(), path + front)]


def uses_of(item, code, types):
    """Returns what is left of a `use`: names of the crate's types that go on, and types that the code names."""
    public, tree = USE.match(item).groups()
    lines = []
    for path, name in names_in(re.sub(r"\s+", " ", tree)):
        shown = name.split(" as ")[-1]
        if name.split()[0] in types if public else shown[:1].isupper() and re.search(rf"\b{shown}\b", code):
            lines.append(f"{public or ''}use {path.rstrip(':')}::{name};")
    return lines


def shadow_of(text, types):
    """Returns a source file without its functions."""
    items = items_of(text)
    kept = [with_derived(it) for it in items if KEPT.match(head_of(it))]
    code = "\n\n".join(kept)
    has_ghost = re.search(r"\bghost\b", MODEL.sub("", code))
    front = [it for it in items if it.startswith("#![") or has_ghost and it.startswith("ghost use")]
    uses = [line for it in items if USE.match(it) for line in uses_of(it, code, types)]
    return "\n".join(["//! A shadow.", *front, *uses, code]) + "\n"


def files_below(folder):
    return [os.path.join(at, it) for at, _, names in os.walk(folder) for it in names]


def texts_of(folder, crate):
    """Returns the text of each file of a crate's shadow, by its place in the crate."""
    sources = {path: read(path) for path in files_below(f"{folder}/src")}
    types = {name for text in sources.values() for name in TYPE.findall(text)}
    texts = {path: text if (crate, os.path.basename(path)) in WHOLE else shadow_of(text, types) for path, text in sources.items()}
    texts.update((path, read(path)) for path in files_below(f"{folder}/specs"))
    library = f"{folder}/proofs/Lib.antt"
    if os.path.isfile(library):
        lemmas = [f"{folder}/proofs/{line.split()[-1]}.antt" for line in read(library).splitlines() if line.strip()]
        texts.update((path, read(path)) for path in [library, *lemmas])
    return {os.path.relpath(path, folder): text for path, text in texts.items()}


def write(folder, texts):
    """Lets these be the sources in a folder. A file that has its text already is not touched."""
    for part in ("src", "specs", "proofs"):
        for path in files_below(f"{folder}/{part}"):
            if os.path.relpath(path, folder) not in texts:
                os.remove(path)
    for place, text in texts.items():
        path = f"{folder}/{place}"
        if not os.path.isfile(path) or read(path) != text:
            os.makedirs(os.path.dirname(path), exist_ok=True)
            with open(path, "w", encoding="utf-8") as it:
                it.write(text)


def check(folder, crate):
    """Checks a shadow, and prints what came of it."""
    begun = time.monotonic()
    ran = subprocess.run(["rt", "check", "--jobs", "1"], cwd=folder, capture_output=True, text=True)
    lines = (ran.stdout + ran.stderr).splitlines()
    print(crate, "stands" if ran.returncode == 0 else "does not stand", f"({time.monotonic() - begun:.0f} s)", flush=True)
    if ran.returncode:
        print(*[f"  {line[:400]}" for line in lines if "error" in line] or lines[-3:], sep="\n", flush=True)


def main():
    if len(sys.argv) < 4:
        sys.exit(__doc__)
    clone, folder = map(os.path.abspath, sys.argv[1:3])
    if os.path.samefile(clone, folder):
        sys.exit("FOLDER loses its functions: it is another clone than CLONE")
    for crate in sys.argv[3:]:
        write(f"{folder}/crates/{crate}", texts_of(f"{clone}/crates/{crate}", crate))
        check(f"{folder}/crates/{crate}", crate)


main()
