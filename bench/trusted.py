#!/usr/bin/env python3
"""Tells what a reader has to read to know what `run` promises, and what has to be trusted beside it:
    bench/trusted.py             prints docs/TRUSTED.md
    bench/trusted.py --write     writes it
    bench/trusted.py --check     says whether it is up to date; status 1 where it is not
From the clauses of `run` (crates/rm_tool/src/run.rt) and the traits that it is called with, each name is followed through the `use` lines of
its file to the definition that it names, and from there on. A definition is an item of a specs/*.antt (abbrev, unfoldable, record, data), or
a type or trait of a src/*.rt with what contracts see of it. Proofs are not followed: no definition cites one. A name that an item binds
itself and its file imports too counts as cited, so there may be a few definitions too many and none too few."""
import collections
import os
import re
import sys

from imports import imports_of

TOP = os.path.dirname(os.path.dirname(os.path.abspath(__file__)))
PAPER = os.path.join(TOP, "docs", "TRUSTED.md")
ROOT = ("crates/rm_tool/src/run.rt", "run")
Item = collections.namedtuple("Item", "file name first last text")
ITEM = re.compile(r"(?:pub )?(?:abbrev|unfoldable|record|data)(?: pub)? (\S+)")
DECLARED = re.compile(r"(?:pub(?:\([a-z]+\))? )?(?:struct|enum|type|trait|const) (\w+)")
WORD = re.compile(r"[^\s(){}\[\],;]+")


def read(path):
    with open(os.path.join(TOP, path), encoding="utf-8") as it:
        return it.read()


def begin_of(lines, at):
    """Returns where the comments and attributes right above a line begin."""
    while at > 0 and re.match(r"\s*(--|///|#\[)", lines[at - 1]):
        at -= 1
    return at


def end_of(lines, at, limit):
    """Returns the last line below `at` and above `limit` that is not empty and no comment at the margin."""
    last = limit - 1
    while last > at and (not lines[last].strip() or lines[last].startswith("--") or lines[last].startswith("use ")):
        last -= 1
    return last


def items_of_specs(path):
    """Returns the items of a file of definitions by their names; a constructor of `data` names its item."""
    lines = read(path).splitlines()
    starts = [k for k, line in enumerate(lines) if ITEM.match(line)]
    found = {}
    for start, limit in zip(starts, starts[1:] + [len(lines)]):
        first, last = begin_of(lines, start), end_of(lines, start, limit)
        body = lines[start : last + 1]
        item = Item(path, ITEM.match(lines[start])[1], first + 1, last + 1, "\n".join(body))
        found[item.name] = item
        if "data " in body[0]:
            for line in body[1:]:
                made = re.match(r"  (\w+) :", line)
                if made:
                    found.setdefault(made[1], item)
    return found


def close_of(lines, at):
    """Returns the line that closes the braces which the item at `at` opens, or its `;`."""
    depth = 0
    for k in range(at, len(lines)):
        code = lines[k].split("//")[0]
        depth += code.count("{") - code.count("}")
        if depth == 0 and (";" in code or "}" in code):
            return k
    return at


def items_of_code(path):
    """Returns the types and traits of a file of code by their names, with what `impl Model` shows of them."""
    lines = read(path).splitlines()
    found = {}
    for k, line in enumerate(lines):
        named = DECLARED.match(line)
        if named:
            last = close_of(lines, k)
            found[named[1]] = Item(path, named[1], begin_of(lines, k) + 1, last + 1, "\n".join(lines[k : last + 1]))
    for k, line in enumerate(lines):
        shown = re.match(r"impl(?:<.*?>)? Model for (\w+)", line)
        if shown:
            last = close_of(lines, k)
            found[shown[1] + " as it is seen"] = Item(path, shown[1] + " as it is seen", k + 1, last + 1, "\n".join(lines[k : last + 1]))
    return found


def uses_of(path):
    """Returns what the `use` lines of a file name: by the local name the words of the whole path."""
    end = "$" if path.endswith(".antt") else ";"
    found = {}
    for text in re.findall(rf"(?ms)^\s*(?:pub )?(?:ghost )?use (.+?){end}", read(path)):
        for stem, names in imports_of(" ".join(text.split()).replace("::", ".")):
            for name in [".".join(stem)] if names is None else [".".join(stem) + "." + it for it in names]:
                whole, _, alias = name.partition(" as ")
                words = whole.split(".")
                found[alias or words[-1]] = words
    return found


class Shelf:
    """The files of the repository as they are asked for, and the names from outside that were met."""

    def __init__(self):
        self.items, self.uses, self.outside = {}, {}, collections.defaultdict(set)

    def items_of(self, path):
        if path not in self.items:
            make = items_of_specs if path.endswith(".antt") else items_of_code
            self.items[path] = make(path) if os.path.exists(os.path.join(TOP, path)) else {}
        return self.items[path]

    def uses_of(self, path):
        if path not in self.uses:
            self.uses[path] = uses_of(path)
        return self.uses[path]

    def in_code(self, crate, name, hint=""):
        """Returns the type or trait of a crate with that name."""
        folder = f"crates/{crate}/src"
        files = [f"{folder}/{hint}.rt"] if hint else []
        files += sorted(f"{folder}/{it}" for it in os.listdir(os.path.join(TOP, folder)) if it.endswith(".rt"))
        for path in files:
            found = self.items_of(path)
            if name in found:
                return [found[it] for it in (name, name + " as it is seen") if it in found]
        return []

    def meant_by(self, words):
        """Returns the items that the words of a `use` name; what is not of this repository is kept as a name from outside."""
        if words[0] == "Rattle":
            words = words[1:]
        crate = words[0]
        if not os.path.isdir(os.path.join(TOP, "crates", crate)):
            self.outside[crate].add(words[-1])
            return []
        if "declared" in words:
            words = words[words.index("declared") + 1 :]
            if "TheVariants" in words:
                words = words[: words.index("TheVariants")]
            return self.in_code(crate, words[-1], "/".join(words[:-2]) or words[0])
        if words[1] == "specs":
            path = f"crates/{crate}/specs/{words[2]}.antt"
            named = self.items_of(path).get(words[-1])
            handed_on = None if os.path.exists(os.path.join(TOP, path)) else self.uses_of(f"crates/{crate}/specs/Lib.antt").get(words[2])
            return [named] if named else self.meant_by(handed_on + words[3:]) if handed_on else []
        handed_on = self.uses_of(f"crates/{crate}/src/lib.rt").get(words[-1])
        return self.in_code(crate, words[-1]) or (self.meant_by(handed_on) if handed_on and handed_on[0].startswith("rm") else [])

    def cited_in(self, text, path):
        """Returns the items that a text of this file cites."""
        own, uses = self.items_of(path), self.uses_of(path)
        text = re.sub(r"(?m)(--|//).*$", "", text)
        tokens = set(WORD.findall(text))
        names = {part for token in tokens for part in token.strip(".:<>&").replace("::", ".").split(".")} | tokens
        names |= {part for it in names for part in re.findall(r"\w+", it)}
        found = []
        for name, words in list(uses.items()) + [(it, None) for it in own]:
            if "◌" in name:
                is_cited = all(part in tokens for part in name.split("◌") if part)
            else:
                is_cited = name in names
            if is_cited:
                found += self.meant_by(self.crate_words(words, path)) if words else [own[name]]
        return found + self.by_alias(tokens, uses) + self.shown_with(found)

    def shown_with(self, found):
        """Returns what `impl Model` shows of the types that are cited by their own file."""
        return [self.items_of(it.file)[it.name + " as it is seen"] for it in found if it.name + " as it is seen" in self.items_of(it.file)]

    def by_alias(self, tokens, uses):
        """Returns the items that are cited as module.name, where the module was named by `as`."""
        found = []
        for token in tokens:
            head, dot, tail = token.partition(".")
            words = uses.get(head)
            if dot and words and "specs" in words:
                found += self.meant_by(words + [tail.split(".")[0]])
        return found

    def crate_words(self, words, path):
        """`crate` is the crate of the file."""
        return [path.split("/")[1]] + words[1:] if words[0] == "crate" else words


def clauses_of_run():
    """Returns the head of `run`: its bounds and clauses, as an item."""
    lines = read(ROOT[0]).splitlines()
    start = next(k for k, line in enumerate(lines) if line.startswith("pub fn " + ROOT[1]))
    last = next(k for k, line in enumerate(lines) if k > start and line == "{") - 1
    return Item(ROOT[0], "run, its clauses", begin_of(lines, start) + 1, last + 1, "\n".join(lines[start : last + 1]))


def all_below(shelf, root):
    """Returns every item that the root rests on, itself among them."""
    found, left = {}, [root]
    while left:
        item = left.pop()
        if (item.file, item.first) not in found:
            found[item.file, item.first] = item
            left += shelf.cited_in(item.text, item.file)
    return list(found.values())


def crates_in_order():
    """Returns the crates, each behind those that it stands on, the lowest first."""
    below = {}
    for line in read("crates.txt").splitlines():
        if line and not line.startswith("#"):
            name, _, rest = line.partition(":")
            below[name] = [it for it in rest.split() if it.startswith("rm")]
    height = {}

    def high(name):
        if name not in height:
            height[name] = 1 + max([high(it) for it in below.get(name, [])], default=0)
        return height[name]

    return sorted(below, key=lambda name: (high(name), name))


def files_in_order(shelf, items):
    """Returns the files of these items, each behind those that its items cite, as far as they are of one crate."""
    by_file = collections.defaultdict(list)
    for item in items:
        by_file[item.file].append(item)
    placed = []

    def place(path, above):
        if path in placed or path in above:
            return
        for item in sorted(by_file[path], key=lambda it: it.first):
            for other in sorted({it.file for it in shelf.cited_in(item.text, path)} & set(by_file)):
                place(other, above + [path])
        placed.append(path)

    for path in sorted(by_file):
        place(path, [])
    return [(path, sorted(by_file[path], key=lambda it: it.first)) for path in placed]


def lines_of(items):
    return sum(it.last - it.first + 1 for it in items)


def all_in_specs():
    """Returns how many definitions stand in all files of specs."""
    count = 0
    for crate in os.listdir(os.path.join(TOP, "crates")):
        folder = os.path.join("crates", crate, "specs")
        for name in os.listdir(os.path.join(TOP, folder)) if os.path.isdir(os.path.join(TOP, folder)) else []:
            count += len([line for line in read(os.path.join(folder, name)).splitlines() if ITEM.match(line)])
    return count


ADAPTERS = ["crates/rm_tool/src/adapters.rt", "crates/rm_store_dir/src/dir.rt", "crates/rm_store_dir/src/lock.rt", "crates/rm_keeper_sql/src/file.rt"]
WIRING = "crates/rman/src"
HEAD = """# What a reader has to read, and what has to be trusted

Made by `bench/trusted.py --write` from the sources: no line of it is written by hand, and `bench/trusted.py --check` says whether it is up to date.

Who wants to know what `run` promises reads its clauses (`crates/rm_tool/src/run.rt`, lines {first} to {last}) and what they rest on: **{count} definitions
of {lines} lines in {files} files of {crates} crates**, {comments} lines of comments among them, `use` lines not. {specs} of them stand in
`crates/*/specs`, of {all} that are there; the others are types and traits in `crates/*/src`. All other definitions and all lemmas may say what they
like: the clauses hold all the same, since the toolchain has checked the proofs. A definition is here where a clause names it, or another definition
that is here. They stand in the order in which they can be read: no crate rests on a later one, and within a crate what is named stands first where
that can be. Names are followed by their spelling, so a few definitions may be here that are not needed; none is missing.
[DEFINITIONS.md](DEFINITIONS.md) says them in words, [GLOSSARY.md](GLOSSARY.md) has the terms.

| What they say | Definitions | Lines |
|---|---|---|
{subjects}
Who wants the meaning of the answers alone begins with the history, and then reads the machine. The largest files are
{largest}.

| Crate | Definitions | Lines | Files |
|---|---|---|---|
"""

# What the definitions of a crate say, by how its name begins; the first that fits.
SUBJECTS = [
    ("what a script and its words may say, and the text of a reply", ("rm_lang", "rm_report", "rm_moments", "rm_drill")),
    ("what each statement comes to, and the history behind it", ("rm_machine",)),
    ("what is recorded, and how records and objects stand for a database", ("rm_catalog", "rm_commit", "rm_evidence")),
    ("the history, what tells of it, and backups and logs as bytes", ("rm_history", "rm_blocks", "rm_redo", "rm_piece", "rm_live", "rm_channel", "rm_track", "rm_lanes")),
    ("recovery, increments and retention", ("rm_plan", "rm_apply", "rm_merge", "rm_backup", "rm_retain", "rm_verify", "rm_standby")),
    ("sessions, and the clauses of `run` themselves", ("rm_site", "rm_tool")),
    ("numbers, blocks, lists, devices", ("rm_",)),
]
LARGEST = 5

TAIL = """
## What has to be trusted beside them

- **The toolchain.** That the Rattle kit which `release/manifest` names takes a proof only where it is one; that its compiler makes of the code what the code
  says; and what its library states of lists, numbers and texts, and of C, LLVM and the C library (memory, threads, files). The definitions above cite
  {std} names of it:
{std_names}
- **Ported crates**, whose contracts are taken as they stand. The definitions above cite of them:
{ports}
  The proofs rest on the contracts of more of them, by crates.txt:
{callers}
- **The adapters**, {adapter_lines} lines: that standard input, standard output and the clock (`crates/rm_tool/src/adapters.rt`), the folder (`dir.rt` and
  `lock.rt` in `crates/rm_store_dir/src`) and the opening and closing of the catalog file (`crates/rm_keeper_sql/src/file.rt`) do what their calls say; they
  are proved to count their faults, and tell nothing else.
- **The wiring**, {wiring_lines} lines in `crates/rman/src`: that it makes them of the words and hands them to `run` and the calls beside it. It is proved safe
  and to end, and no clause says more of it: `bench/papers.sh` and the scripts of `bench/` try it.
- **The machine.** That a file which was flushed has what was written, that a renaming is whole, that the clock tells the time of day.
- **The two premises of the clauses.** Where HOST gave the name of a record's object, bytes under it with the record's size and SHA-256 are the object's.
  What CATALOG records is the spelling of an artefact that a finished statement recorded.
- **The meaning.** That these definitions are what one means by a history, a backup and a recovery: to read them is the only way to know. That they are
  Oracle's is not claimed.
"""


def table_rows(order, by_crate):
    rows = ""
    for crate in order:
        items = by_crate.get(crate)
        if items:
            rows += f"| [{crate}](#{crate}) | {len(items)} | {lines_of(items)} | {len({it.file for it in items})} |\n"
    return rows


def wrapped(parts):
    """Parts with commas between them, at most 158 columns to a line."""
    lines = [" "]
    for k, part in enumerate(parts):
        part += "," if k + 1 < len(parts) else ""
        if len(lines[-1]) + len(part) > 157:
            lines.append(" ")
        lines[-1] += " " + part
    return "\n".join(lines)


def place_of(item):
    return f"`{item.name}` {item.first}" + (f"-{item.last}" if item.last > item.first else "")


def lines_in(paths):
    return f"{sum(len(read(it).splitlines()) for it in paths):,}"


def names_of(names):
    return wrapped([f"`{it}`" for it in sorted(names)])


def callers():
    """Returns the ported crates, each with the crates of the program that stand on it, by crates.txt."""
    found = collections.defaultdict(list)
    for line in read("crates.txt").splitlines():
        name, _, below = line.partition(":")
        for port in below.split() if not name.startswith(("#", "rm_test", "rm_bench")) else []:
            if not port.startswith("rm"):
                found[port].append(name)
    return wrapped([f"`{port}` ({' '.join(sorted(by))})" for port, by in sorted(found.items())])


def comments_in(item):
    lines = read(item.file).splitlines()[item.first - 1 : item.last]
    return len([line for line in lines if re.match(r"\s*(--|//)", line)])


def subjects_of(items):
    """Returns the rows of the table of subjects."""
    by_subject = collections.defaultdict(list)
    for item in items:
        crate = item.file.split("/")[1]
        by_subject[next(subject for subject, begins in SUBJECTS if crate.startswith(begins))].append(item)
    return "".join(f"| {subject} | {len(by_subject[subject])} | {lines_of(by_subject[subject]):,} |\n" for subject, _ in SUBJECTS)


def largest_of(items):
    by_file = collections.defaultdict(list)
    for item in items:
        by_file[item.file].append(item)
    largest = sorted(by_file.items(), key=lambda it: (-lines_of(it[1]), it[0]))[:LARGEST]
    return ", ".join(f"`{path.removeprefix('crates/')}` ({lines_of(here)})" for path, here in largest)


def head_of(root, items):
    in_specs = [it for it in items if it.file.endswith(".antt")]
    files = {it.file for it in items}
    return HEAD.format(first=root.first, last=root.last, count=f"{len(items):,}", lines=f"{lines_of(items):,}", files=len(files),
                       crates=len({it.split("/")[1] for it in files}), specs=f"{len(in_specs):,}", all=f"{all_in_specs():,}",
                       comments=f"{sum(map(comments_in, items)):,}", subjects=subjects_of(items), largest=largest_of(items))


def paper():
    shelf = Shelf()
    root = clauses_of_run()
    items = [it for it in all_below(shelf, root) if it != root]
    by_crate = collections.defaultdict(list)
    for item in items:
        by_crate[item.file.split("/")[1]].append(item)
    order = [it for it in crates_in_order() if it in by_crate]
    text = head_of(root, items) + table_rows(order, by_crate)
    for crate in order:
        text += f"\n## {crate}\n\n"
        for path, here in files_in_order(shelf, by_crate[crate]):
            text += f"- **{path.split('/', 2)[2]}**, {lines_of(here)} lines:\n{wrapped([place_of(it) for it in here])}\n"
    std = shelf.outside.pop("std", set())
    ports = "\n".join(names_of(names) + f" of `{crate}`;" for crate, names in sorted(shelf.outside.items()))[:-1] + "."
    wiring = [f"{WIRING}/{it}" for it in os.listdir(os.path.join(TOP, WIRING)) if it.endswith(".rt")]
    return text + TAIL.format(std=len(std), std_names=names_of(std), ports=ports, callers=callers(), adapter_lines=lines_in(ADAPTERS), wiring_lines=lines_in(wiring))


def main(words):
    text = paper()
    if words == ["--write"]:
        with open(PAPER, "w", encoding="utf-8") as it:
            it.write(text)
    elif words == ["--check"]:
        with open(PAPER, encoding="utf-8") as it:
            is_same = it.read() == text
        print("docs/TRUSTED.md is " + ("up to date" if is_same else "not what bench/trusted.py makes: run it with --write"))
        return 0 if is_same else 1
    else:
        print(text, end="")
    return 0


if __name__ == "__main__":
    sys.exit(main(sys.argv[1:]))
