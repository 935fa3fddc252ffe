"""A disk as the calls of a session leave it, by the log that bench/faults.c writes: what a machine that stops may keep."""
import collections
import os

Call = collections.namedtuple("Call", "name number answer fd at bytes paths")


def calls_of(log):
    """The calls of a log. A call on a descriptor has the path for which it was opened."""
    opened = {}
    with open(log, "rb") as file:
        while line := file.readline():
            name, number, answer, fd, at, count, *paths = line.decode().split()
            if name == "open" and int(answer) >= 0:
                opened[fd] = paths
            yield Call(name, int(number), int(answer), int(fd), int(at), file.read(int(count)), paths or opened.get(fd, []))


def apply(content, at, part):
    """Writes the part there, or cuts or extends to that length where it is None."""
    end = at if part is None else at + len(part)
    content.extend(bytes(max(0, end - len(content))))
    if part is None:
        del content[at:]
    else:
        content[at:end] = part


def sectors(at, part):
    """The part in pieces of which none goes over the end of a sector."""
    begin = at
    while begin < at + len(part):
        end = min(at + len(part), (begin // 512 + 1) * 512)
        yield begin, part[begin - at : end - at]
        begin = end


class File:
    """The bytes of a file that are safe, and what was done to it since: writes and lengths."""

    def __init__(self, safe=b""):
        self.safe, self.steps = bytearray(safe), []

    def now(self):
        now = bytearray(self.safe)
        for at, part in self.steps:
            apply(now, at, part)
        return now

    def settle(self):
        for at, part in self.steps:
            apply(self.safe, at, part)
        self.steps = []

    def mixed(self, rng):
        """What a stop may leave: of each write any sectors or a front of them, and where none is, behind the safe end, anything."""
        share, spoils = rng.choice((0, 0.5, 0.9, 1)), rng.random() < 0.3
        left = bytearray(self.safe)
        for at, part in self.steps:
            for begin, piece in [(at, None)] if part is None else sectors(at, part):
                if rng.random() < share:
                    apply(left, begin, piece if piece is None or rng.random() < 0.9 else piece[: rng.randrange(len(piece) + 1)])
                elif spoils and piece is not None and begin >= len(self.safe):
                    apply(left, begin, rng.randbytes(len(piece)))
        return left


class Disk:
    """A folder: of each path all that stood there since its own folder was synced, a file, None, or FOLDER."""

    FOLDER = "folder"

    def __init__(self, top, state):
        self.top, self.open = top, {}
        self.had = {f"{top}/{name}": [self.FOLDER if content is None else File(content)] for name, content in state.items()}

    def now(self, path):
        return self.had.get(path, [None])[-1]

    def becomes(self, path, what):
        self.had.setdefault(path, [None]).append(what)

    def do(self, call):
        """What a call did. One that failed did nothing."""
        paths = [os.path.normpath(path) for path in call.paths]
        if call.answer < 0:
            return
        if call.name == "open":
            if call.at:
                self.becomes(paths[0], File())
            self.open[call.fd] = [self.now(paths[0]), paths[0], 0]
        elif call.name == "mkdir":
            self.becomes(paths[0], self.FOLDER)
        elif call.name == "rename":
            self.becomes(paths[1], self.now(paths[0]))
            self.becomes(paths[0], None)
        elif call.name == "unlink":
            self.becomes(paths[0], None)
        elif call.fd in self.open:
            self.do_opened(call, self.open[call.fd])

    def do_opened(self, call, opened):
        what, path, at = opened
        if call.name == "lseek":
            opened[2] = call.answer
        elif call.name == "pwrite":
            what.steps.append((call.at, call.bytes))
        elif call.name == "write":
            what.steps.append((at, call.bytes))
            opened[2] += call.answer
        elif call.name == "ftruncate":
            what.steps.append((call.at, None))
        elif call.name in ("fsync", "fdatasync"):
            self.sync(what, path)

    def sync(self, what, path):
        if isinstance(what, File):
            what.settle()
            return
        for name, had in self.had.items():
            if os.path.dirname(name) == path:
                del had[:-1]

    def left(self, way, rng=None):
        """What a stop leaves: the least that the syncs allow, all, or some of it by chance."""
        contents, state = {}, {}
        for path, had in sorted(self.had.items()):
            what = had[0] if way == "least" else had[-1] if way == "all" else rng.choice(had)
            name, parent = os.path.relpath(path, self.top), os.path.relpath(os.path.dirname(path), self.top)
            if what is None or parent not in (".", *state):
                continue
            if isinstance(what, File) and what not in contents:
                contents[what] = bytes(what.safe if way == "least" else what.now() if way == "all" else what.mixed(rng))
            state[name] = contents.get(what)
        return state


def left_by(top, state, calls, way, rng=None):
    """What a machine that stops behind these calls leaves of that state of a folder."""
    disk = Disk(top, state)
    for call in calls:
        disk.do(call)
    return disk.left(way, rng)
