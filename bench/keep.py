#!/usr/bin/env python3
"""Makes a copy of the Rattle kit that keeps what it has proved:
    bench/keep.py KIT FOLDER
KIT is the kit (/opt/rattle), FOLDER the copy (/opt/kept, say), whose bin/rt is then called in place of rt. It is for work on a
machine whose kit keeps nothing between two runs (13b): all clones share each library, program and refused edit, which is proved
from nothing once for each state of its sources and of those below, as rt ci does it. They lie in /var/kept, or in the folder that
RT_STORE names, with a file `log` of what was proved and how long it took. It gives no verdict: the gate is .ci/run, by the kit itself.
It changes texts of the kit's own scripts, and stops where one of them is not there."""
import os
import shutil
import sys

LIBRARY = [
    ("import contextlib\n", "import contextlib\nimport time\n"),
    ('KEPT = ["--incremental"', 'STORE = os.environ.get("RT_STORE", "/var/kept")\nos.makedirs(STORE, exist_ok=True)\nKEPT = ["--incremental"'),
    ('        self.rlib = f"{folder}/out/rlib/{self.name}.rlib"\n', ""),
    (
        "    def below(self):\n",
        """    def below(self):
        if "_below" not in self.__dict__:
            self._below = self.below_anew()
        return self._below

    def below_anew(self):
""",
    ),
    (
        "    def stamp(self):\n",
        """    def stamp(self):
        if "_stamp" not in self.__dict__:
            self._stamp = self.stamp_anew()
        return self._stamp

    @property
    def rlib(self):
        return f"{STORE}/{self.stamp()}/{self.name}.rlib"

    def stamp_anew(self):
""",
    ),
]

# What stands from `is_built` up to `has_tests` becomes this.
BUILDING = '''    def is_built(self):
        return os.path.isdir(self.rlib)

    def build_rlib(self, flags, anew):
        made = f"{os.path.dirname(self.rlib)}.part"
        with open(f"{STORE}/lock-{self.stamp()}", "w") as held:
            fcntl.flock(held, fcntl.LOCK_EX)
            if self.is_built():
                print(f"kept: {self.name}", file=self.out)
                return 0
            shutil.rmtree(made, ignore_errors=True)
            os.makedirs(made)
            if not any(it.startswith("--jobs") for it in flags):
                flags = [*flags, "--jobs", "1"]
            words, began = self.words(flags, keeps=False), time.time()
            status = self.prove(["build", *words, "--statements", "-o", f"{made}/{self.name}.rlib"])
            with open(f"{STORE}/log", "a") as log:
                print(f"{self.name} lib {status} {time.time() - began:.0f}s", file=log)
            if status == 0:
                os.rename(made, os.path.dirname(self.rlib))
        return status

'''

COMMANDS = [
    ("import fcntl\n", "import fcntl\nimport hashlib\n"),
    (
        "    def ci(self, flags, tests):\n",
        """    def ci(self, flags, tests):
        if not tests and not self.is_program and not self.is_static:
            return self.build_rlib(flags, anew=True)
        what = "tests" if tests else "program"
        kept = f"{rtlib.STORE}/{self.stamp()}-{what}"
        names = [f"{self.name}{'_tests' if tests else ''}{it}" for it in BACKENDS.values()]
        with open(f"{rtlib.STORE}/lock-{os.path.basename(kept)}", "w") as held:
            fcntl.flock(held, fcntl.LOCK_EX)
            if not os.path.isdir(kept):
                began = rtlib.time.time()
                status = self.ci_anew(flags, tests)
                with open(f"{rtlib.STORE}/log", "a") as log:
                    print(f"{self.name} {what} {status} {rtlib.time.time() - began:.0f}s", file=log)
                if status:
                    return status
                shutil.rmtree(f"{kept}.part", ignore_errors=True)
                os.makedirs(f"{kept}.part")
                for name in names:
                    if os.path.isfile(f"{self.folder}/out/{name}"):
                        shutil.copy2(f"{self.folder}/out/{name}", f"{kept}.part/{name}")
                os.rename(f"{kept}.part", kept)
                return 0
        for name in os.listdir(kept):
            shutil.copy2(f"{kept}/{name}", f"{self.folder}/out/{name}")
        print(f"kept: {self.name}", file=self.out)
        return 0

    def ci_anew(self, flags, tests):
""",
    ),
    (
        "def must_fail_all(crate, edits, flags):\n",
        '''def must_fail_all(crate, edits, flags):
    """Tries those edits that were not refused before over the same sources."""
    def kept(edit):
        with open(edit, "rb") as it:
            return f"{rtlib.STORE}/edit-{hashlib.sha256(crate.stamp().encode() + it.read()).hexdigest()}"
    found = {it: rtlib.text_of(kept(it)) for it in edits}
    left = [it for it in edits if found[it] is None]
    for edit, (well, text) in zip(left, must_fail_all_anew(crate, left, flags) if left else []):
        found[edit] = (well, text)
        if well:
            with open(f"{kept(edit)}.part", "w") as it:
                it.write(text)
            os.rename(f"{kept(edit)}.part", kept(edit))
    return [it if isinstance(it, tuple) else (True, it) for it in (found[it] for it in edits)]


def must_fail_all_anew(crate, edits, flags):
''',
    ),
    (
        "    made = rtlib.Crate.__init__\n",
        '    rtlib.Crate, Crate.allowed = Crate, ("Threads", "Wait")\n    made = rtlib.Crate.__init__\n',
    ),
    (
        "    crates = [it for it in rtlib.crates_below(os.getcwd()) if not names or it.name in names]\n",
        '    rtlib.Crate, Crate.allowed = Crate, ("Threads", "Wait")\n    crates = [it for it in rtlib.crates_below(os.getcwd()) if not names or it.name in names]\n',
    ),
]


def changed(path, pairs):
    with open(path, encoding="utf-8") as it:
        text = it.read()
    for old, new in pairs:
        if old not in text:
            sys.exit(f"keep: {path} has no {old!r}")
        text = text.replace(old, new, 1)
    return text


def main():
    if len(sys.argv) != 3:
        sys.exit(__doc__)
    kit, folder = (os.path.abspath(it) for it in sys.argv[1:])
    os.makedirs(f"{folder}/bin")
    for name in os.listdir(kit):
        if name != "bin":
            os.symlink(f"{kit}/{name}", f"{folder}/{name}")
    for name in os.listdir(f"{kit}/bin"):
        # (a script finds the kit by where it lies itself)
        if name.startswith("rt"):
            shutil.copy2(f"{kit}/bin/{name}", f"{folder}/bin/{name}")
        else:
            os.symlink(f"{kit}/bin/{name}", f"{folder}/bin/{name}")
    library = changed(f"{kit}/bin/rtlib.py", LIBRARY)
    start, end = library.index("    def is_built(self):"), library.index("    def has_tests(self):")
    with open(f"{folder}/bin/rtlib.py", "w", encoding="utf-8") as it:
        it.write(library[:start] + BUILDING + library[end:])
    commands = changed(f"{kit}/bin/rt", COMMANDS)
    with open(f"{folder}/bin/rt", "w", encoding="utf-8") as it:
        it.write(commands)


main()
