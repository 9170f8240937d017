"""Stores as a power cut leaves them: python3 checks/powercuts.py PROGRAM IMAGES.

Runs are recorded by strace, and at each of their calls folders are built that a cut there may leave (`disks`). Each is opened by the program,
and has to show each write that was answered, at most those of one line more, and none half. Then some of these folders go on: further lines
are carried out on them, which is recorded too, and cut again; so are folders of programs that were killed, on which what wasn't synced
still may be lost. Where there are more than IMAGES folders, every so many are opened, from all calls alike.
"""

import concurrent.futures
import sys
import tempfile

from disks import Disk, lay, traced
from stores import KEPT, LIMITS, MADE, OVER_KEPT, Script, answered, at_once, batch, delete, ends, init, kept_files, put, seen, short, word

PROGRAM, IMAGES = sys.argv[1], int(sys.argv[2])
FILL = "f" * 3000
# How many lives begin on what cuts and kills have left of those before, and what share of the folders are those of a first, second and third.
BEGUN = 8
SHARES = [0.5, 0.25, 0.25]

# Each way of writing once, with a flush and a merge between.
EACH = [
    MADE,
    put(1, "x", "first"),
    put(1, "y", "second"),
    batch(put(2, "x", "two"), put(3, "x", "three"), delete(1)),
    word("@flush"),
    delete(2),
    word("@flush"),
    word("@merge"),
    put(4, "z", "four"),
]
# Enough that families are flushed by themselves, and are merged.
MANY = [MADE] + [put(n % 30, "g%d" % (n % 5), "%d %s" % (n, FILL)) for n in range(90)]


def going_on(depth):
    """Lines for a store that a cut has left: what they put differs from all that was put before."""
    text = "in life %d" % (depth + 2)
    return [
        put(1, "w", text),
        word("@flush"),
        batch(put(2, "w", text), put(50 + depth, "w", text)),
        word("@reopen"),
        delete(50 + depth),
        word("@flush"),
        put(4, "x", text),
    ]


class Cut:
    """A folder that a cut may leave, with how many writes it has to show at least and at most. `disk` is what the next program finds."""

    def __init__(self, files, name, script, least, most, depth, disk=None):
        self.files, self.name, self.script, self.depth = files, name, script, depth
        self.least, self.most, self.disk = least, most, disk

    def count(self):
        """How many writes it shows, with what is wrong of it, None where nothing is."""
        with tempfile.TemporaryDirectory() as folder:
            lay(self.files, folder)
            got = seen(PROGRAM, folder, self.most)
        count = self.script.between(self.least, self.most, got)
        if count is None:
            return None, "%s: of %d to %d writes the store shows %s" % (self.name, self.least, self.most, short(got))
        return count, None


class Life:
    """A run of a script over what reads give of a disk, of which `least` writes last for certain, with its cuts and kills."""

    def __init__(self, disk, script, least, depth, name):
        self.disk, self.script, self.least, self.depth, self.name = disk, script, least, depth, name
        with tempfile.TemporaryDirectory() as folder, tempfile.TemporaryDirectory() as where:
            lay(disk.reads(), folder)
            command = [PROGRAM, folder, "0", "replay", *LIMITS]
            self.deeds, run = traced(command, folder, script.text(), where)
        if run.returncode:
            raise SystemExit("stops: %s ended with %d %s" % (name, run.returncode, run.stderr))

    def cuts(self):
        disk, script, said = self.disk.copy(), self.script, b""
        for place, (what, file, at, data) in enumerate([("begin", None, 0, b""), *self.deeds]):
            if what == "say":
                said += data
            else:
                disk.carry_out(what, file, at, data)
            whole = answered(said.decode(), script.lines)
            # Until something is said a cut may still leave what the cut before has left.
            low = script.behind[whole] if said else self.least
            high = script.behind[min(whole + 1, len(script.lines))]
            here = "%s, call %d (%s %s)" % (self.name, place, what, file or "")
            for choice, files in disk.images():
                yield Cut(files, here + ", " + choice, script, low, high, self.depth)
            yield Cut(disk.reads(), here + ", killed", script, low, high, self.depth, disk.copy())

    def some(self, most):
        """So many of its cuts at most, of those that are alike one, from all of its calls in even steps; and how many there are."""
        found, apart = set(), []
        for place, cut in enumerate(self.cuts()):
            alike = hash((tuple(sorted(cut.files.items())), cut.least, cut.most, cut.disk is None))
            if alike not in found:
                found.add(alike)
                apart.append(place)
        places = set(evenly(apart, most))
        return [cut for place, cut in enumerate(self.cuts()) if place in places], len(apart)


def evenly(things, most):
    """So many of these at most, in even steps."""
    return things[:: max(1, -(-len(things) // max(1, most)))]


def tried(cuts, faults, pool):
    """Opens them; those that show what they have to, with the count of what each shows."""
    good = []
    for cut, (count, why) in zip(cuts, pool.map(Cut.count, cuts)):
        if why:
            faults.append(why)
        else:
            good.append((cut, count))
    return good


def next_life(cut, count):
    """A further run over what a cut or a kill has left, which shows so many writes."""
    script = Script(([] if count else [MADE]) + going_on(cut.depth), cut.script, count)
    if cut.disk:
        return Life(cut.disk, script, cut.least, cut.depth + 1, cut.name + "; then")
    with tempfile.TemporaryDirectory() as folder:
        lay(cut.files, folder)
        return Life(Disk(folder), script, count, cut.depth + 1, cut.name + "; then")


def begun_on(good):
    """A few of what was left, on which the next life begins: of those that were killed as many as of those that were cut."""
    parts = [[one for one in good if (one[0].disk is None) == is_cut] for is_cut in (True, False)]
    return [one for part in parts for one in evenly(part, BEGUN // 2)]


def first_lives():
    for name, lines in ("each", EACH), ("many", MANY):
        with tempfile.TemporaryDirectory() as folder:
            init(PROGRAM, folder)
            yield Life(Disk(folder), Script(lines), 0, 0, name)
    # A store of segments of the first form, whose first write makes one of the second.
    with tempfile.TemporaryDirectory() as folder:
        lay(kept_files(), folder)
        before = Script(KEPT)
        script = Script(OVER_KEPT, before, len(before.writes))
        yield Life(Disk(folder), script, len(before.writes), 0, "kept")


def main():
    faults, opened, calls = [], [0, 0, 0], 0
    with concurrent.futures.ThreadPoolExecutor(at_once()) as pool:
        for first in first_lives():
            lives = [first]
            for depth, share in enumerate(SHARES):
                good = []
                for life in lives:
                    cuts, _ = life.some(int(IMAGES / 3 * share / len(lives)))
                    good += tried(cuts, faults, pool)
                    calls += len(life.deeds)
                opened[depth] += len(good)
                lives = list(pool.map(lambda one: next_life(*one), begun_on(good)))
    print("stops: cuts at %d calls: %d folders of a first life, %d of a second, %d of a third" % (calls, *opened))
    ends("power cuts", sum(opened), faults)


main()
