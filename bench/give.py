#!/usr/bin/env python3
"""Gives a clone the libraries that the checkout of a gate has built of the same sources:
    bench/give.py GATE [CLONE]
GATE is a checkout in which `rt ci` runs or ran, CLONE another one (the folder that it is called in, if none is named). A kit's `rt check` builds
all libraries below a crate anew in each clone, half an hour of them; this links those of the gate instead, lowest first, each with the stamp
by which `rt` knows it, where the sources of the crate and of all below it are the same. It takes what is built so far, so call it again later.
It prints what it gave. No verdict rests on it: the gate is .ci/run."""
import importlib.machinery
import importlib.util
import os
import shutil
import subprocess
import sys


def kit_library():
    """Returns the kit's own module on crates, which works out a crate's stamp once and not for each way that leads to it."""
    folder = os.path.dirname(os.path.realpath(shutil.which("rt")))
    loader = importlib.machinery.SourceFileLoader("rtlib", f"{folder}/rtlib.py")
    made = importlib.util.module_from_spec(importlib.util.spec_from_loader("rtlib", loader))
    sys.modules["rtlib"] = made
    loader.exec_module(made)
    anew, known = made.Crate.stamp, {}

    def stamp(crate):
        if crate.folder not in known:
            known[crate.folder] = anew(crate)
        return known[crate.folder]

    made.Crate.stamp = stamp
    return made


def are_same(one, other):
    """Returns whether the sources of a crate are the same in both folders."""
    for part in ("src", "specs", "proofs"):
        pair = [f"{it}/{part}" for it in (one, other)]
        if any(map(os.path.isdir, pair)) and subprocess.run(["diff", "-rq", *pair], capture_output=True).returncode:
            return False
    return True


def main():
    if len(sys.argv) not in (2, 3):
        sys.exit(__doc__)
    gate, clone = os.path.abspath(sys.argv[1]), os.path.abspath((sys.argv[2:] or ["."])[0])
    os.chdir(clone)
    crates = {it.name: it for it in kit_library().crates_below(clone)}
    good, given = {}, []

    def give(name):
        """Gives the libraries below a crate and then its own, and returns whether the clone has it as the gate has."""
        if name not in crates:
            return True
        if name not in good:
            crate, folder = crates[name], f"{gate}/crates/{name}"
            below = [give(it.name) for it in crate.deps]
            rlib = f"{folder}/out/rlib/{name}.rlib"
            good[name] = all(below) and are_same(folder, crate.folder) and os.path.isfile(f"{rlib}/format")
            if good[name] and not crate.is_program and not crate.is_built():
                to = f"{crate.folder}/out/rlib"
                shutil.rmtree(to, ignore_errors=True)
                os.makedirs(to)
                subprocess.run(["cp", "-al", rlib, to], check=True)
                with open(f"{to}/stamp", "w", encoding="utf-8") as it:
                    it.write(crate.stamp())
                given.append(name)
        return good[name]

    for name in crates:
        give(name)
    print("given:", *given)


main()
