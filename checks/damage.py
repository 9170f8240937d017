"""Stores with a changed byte: python3 checks/damage.py PROGRAM TRIES.

A byte of a file is changed, in so many places at most, from the first of each file to the last in even steps: of the versions, of the log and
of files of rows. What an opening has to say of it is read from the formats' pages (docs/formats) by a reader of its own: that a file is
damaged, and where, or has another digest than that of its bytes, and which two. Where the files are those of a store all the same, it shows
what it showed, or, without its last entries, what it showed before these; or a row is wrong, and named. One of the stores has segments of
both forms. And five stores that are none.
"""

import concurrent.futures
import hashlib
import os
import re
import sys
import tempfile

from disks import lay
from stores import KEPT, MADE, SHOW, Script, at_once, batch, delete, ends, init, kept_files, put, replay, seen, short, word

PROGRAM, TRIES = sys.argv[1], int(sys.argv[2])
FORMS = [b"ALTLOG01", b"ALTLOG02"]
ROW = re.compile(r"alternator: row: family \d+ key [0-9a-f]*\n")


class Bad(Exception):
    """The note of a store that is none."""


def damaged(number, at):
    return Bad("alternator: damaged: file %d at %d\n" % (number, at))


class Fields:
    """Bytes that are read from the front; what isn't there is an IndexError."""

    def __init__(self, data):
        self.data, self.at = data, 0

    def bytes(self, count):
        if count > len(self.data) - self.at:
            raise IndexError
        self.at += count
        return self.data[self.at - count : self.at]

    def number(self, size=8):
        return int.from_bytes(self.bytes(size), "big")

    def field(self):
        return self.bytes(self.number())

    def flag(self):
        found = self.number(1)
        if found > 1:
            raise IndexError
        return found

    def end(self):
        if self.at != len(self.data):
            raise IndexError


def log_of(number, data):
    """The form of a gated log, and its entries, each with the place of its gate."""
    if data[:8] not in FORMS:
        raise damaged(number, 0)
    entries, at = [], 8
    while at < len(data) and data[at] == 1:
        size = int.from_bytes(data[at + 1 : at + 9], "big")
        if at + 9 + size > len(data):
            raise damaged(number, at)
        entries.append((at, data[at + 9 : at + 9 + size]))
        at += 9 + size
    if at >= len(data):
        raise damaged(number, at)
    return FORMS.index(data[:8]) + 1, entries


def rising(numbers):
    return all(a < b for a, b in zip(numbers, numbers[1:]))


def version_of(data):
    """The segments of a version, and its families: each with its greatest number and its row files."""
    fields = Fields(data)
    next_file, next_write = fields.number(4), fields.number()
    segments = [fields.number(4) for _ in range(counted(fields))]
    families = []
    for _ in range(counted(fields)):
        family, greatest = fields.number(4), fields.number()
        families.append((family, greatest, [fields.number(4) for _ in range(counted(fields))]))
    fields.end()
    files = segments + [file for _, _, files in families for file in files]
    good = segments and rising(segments) and rising([one[0] for one in families]) and all(rising(one[2]) for one in families)
    good = good and len(set(files)) == len(files) and all(1 < file < next_file for file in files)
    if not good or not 1 <= next_write < 2**62 or any(greatest >= next_write for _, greatest, _ in families):
        raise IndexError
    return next_write, segments, families


def counted(fields):
    """A count that the bytes can bear out."""
    count = fields.number()
    if count > len(fields.data):
        raise IndexError
    return count


def number_of(fields):
    """The number of a write, whose changes are read to their end."""
    number = fields.number()
    for _ in range(counted(fields)):
        fields.number(4), fields.field(), fields.flag()
        for _ in range(counted(fields)):
            fields.field()
            if fields.flag():
                fields.field()
    if not 1 <= number < 2**62 - 1:
        raise IndexError
    return number


def numbers_of(form, data):
    """The numbers of the writes of an entry: of one in the first form, of a group in the second."""
    fields = Fields(data)
    count = 1 if form == 1 else counted(fields)
    numbers = [number_of(fields) for _ in range(count)]
    fields.end()
    if not numbers or not rising(numbers):
        raise IndexError
    return numbers


def test_rows(number, data, greatest):
    """A row file whose digest is that of its bytes, and that no write later than the greatest made."""
    if len(data) < 32:
        raise damaged(number, 0)
    kept, found = data[-32:].hex(), hashlib.sha256(data[:-32]).hexdigest()
    if kept != found:
        raise Bad("alternator: digest: file %d kept %s found %s\n" % (number, kept, found))
    blocks = Fields(data[: int.from_bytes(data[-40:-32], "big")])
    blocks.bytes(8)
    while blocks.at < len(blocks.data):
        rows = Fields(blocks.field())
        while rows.at < len(rows.data):
            rows.field()
            row = Fields(rows.field())
            times = [row.number()] if row.flag() else []
            for _ in range(row.number()):
                row.field()
                times.append(row.number())
                if row.flag():
                    row.field()
            if any(time > greatest for time in times):
                raise damaged(number, 0)


def store_of(files):
    """What files hold: the last version and the entries of its segments, each by how many writes it has and its bytes."""

    def file(number):
        return files.get("%08x.alt" % number, b"")

    form, versions = log_of(1, file(1))
    if form != 1:
        raise damaged(1, 0)
    if not versions:
        raise damaged(1, 8)
    at, last = versions[-1]
    try:
        _, segments, families = version_of(last)
    except IndexError:
        raise damaged(1, at) from None
    for _, greatest, numbers in families:
        for number in numbers:
            test_rows(number, file(number), greatest)
    held, before = [], 0
    for number in segments:
        form, entries = log_of(number, file(number))
        for at, data in entries:
            try:
                found = numbers_of(form, data)
            except IndexError:
                found = [0]
            if found[0] <= before:
                raise damaged(number, at)
            before = found[-1]
            held.append((len(found), data))
    return segments, families, held


class Store:
    """A store of some lines, its files and what it holds: a fresh one, or the one of the first form that is kept."""

    def __init__(self, lines, before=None):
        self.script = Script(lines, before, len(before.writes) if before else 0)
        with tempfile.TemporaryDirectory() as folder:
            if before:
                lay(kept_files(), folder)
            else:
                init(PROGRAM, folder)
            replay(PROGRAM, folder, self.script.text(), check=True)
            self.files = {name: open(os.path.join(folder, name), "rb").read() for name in sorted(os.listdir(folder))}
        self.held = store_of(self.files)

    def wanted(self, files):
        """What has to come of other files: a note, how many writes they show, or nothing that is known."""
        try:
            held = store_of(files)
        except Bad as bad:
            return str(bad)
        entries = len(held[2])
        if held[:2] != self.held[:2] or held[2] != self.held[2][:entries]:
            return None
        return len(self.script.writes) - sum(writes for writes, _ in self.held[2][entries:])

    def fault(self, change):
        """Why the store with a byte of a file changed isn't as it has to be, None where it is."""
        name, at, byte = change
        data = bytearray(self.files[name])
        data[at] ^= byte
        files = {**self.files, name: bytes(data)}
        wanted = self.wanted(files)
        here = "byte %d of %s changed by %d" % (at, name, byte)
        with tempfile.TemporaryDirectory() as folder:
            lay(files, folder)
            if isinstance(wanted, int):
                got = seen(PROGRAM, folder, len(self.script.writes))
                good = got == self.script.view(wanted) or (isinstance(got, str) and ROW.match(got[len("status 3 ") :]))
                return None if good else "%s: not as after %d writes: %s" % (here, wanted, short(got))
            run = replay(PROGRAM, folder, "".join(SHOW))
            left = {one: open(os.path.join(folder, one), "rb").read() for one in sorted(os.listdir(folder))}
        if wanted is None:
            good = run.returncode == 0 and not run.stderr or run.returncode == 3 and ROW.fullmatch(run.stderr)
        else:
            # Nothing is mended, and nothing is written.
            good = run.returncode == 3 and run.stderr == wanted and not run.stdout and left == files
        return None if good else "%s: status %d and %s, not %s" % (here, run.returncode, run.stderr, wanted)


def five(faults):
    """Five fresh stores that are none."""
    with tempfile.TemporaryDirectory() as folder:
        init(PROGRAM, folder)
        fresh = {name: open(os.path.join(folder, name), "rb").read() for name in os.listdir(folder)}
    versions, log = "00000001.alt", "00000002.alt"
    field = lambda data: len(data).to_bytes(8, "big") + data
    change = bytes(4) + field(b"Tab") + b"\0" + (1).to_bytes(8, "big") + field(b"t") + b"\1" + field(b"\0")
    one = (1).to_bytes(8, "big")
    entry = b"\1" + field(one + one + one + change)
    stores = [
        ({**fresh, versions: b"\0" + fresh[versions][1:]}, "damaged: file 1 at 0"),
        ({**fresh, versions: fresh[versions][:8] + b"\0" + fresh[versions][9:]}, "damaged: file 1 at 8"),
        ({versions: fresh[versions]}, "damaged: file 2 at 0"),
        ({**fresh, log: fresh[log][:8] + b"\1" + fresh[log][9:]}, "damaged: file 2 at 8"),
        ({**fresh, log: fresh[log][:8] + entry + b"\0"}, "row: family 0 key 546162"),
    ]
    for files, note in stores:
        with tempfile.TemporaryDirectory() as folder:
            lay(files, folder)
            run = replay(PROGRAM, folder, "ListTables {}\n")
        if (run.returncode, run.stderr, run.stdout) != (3, "alternator: %s\n" % note, ""):
            faults.append("a store that is %s ended with %d %s" % (note, run.returncode, run.stderr))
    return len(stores)


def main():
    faults = []
    count = five(faults)
    # Rows in files and in the log, behind a flush of all; and in files of a family alone, with the entries that they have still in the log.
    flushed = [MADE, put(1, "x", "first"), put(2, "y", "two"), word("@flush")]
    both = Store(flushed + [put(1, "y", "second"), batch(put(3, "x", "three"), delete(2))])
    alone = Store([MADE] + [put(n, "x", "%d %s" % (n, "f" * 30_000)) for n in range(4)])
    forms = Store([batch(put(1, "x", "again"), delete(2)), put(3, "y", "third")], Script(KEPT))
    with concurrent.futures.ThreadPoolExecutor(at_once()) as pool:
        for store in both, alone, forms:
            places = [(name, at) for name, data in store.files.items() for at in range(len(data))]
            # of a long file the beginning and the end, and some places between
            places = [one for one in places if near(one[1], len(store.files[one[0]]))]
            tries = [(name, at, byte) for name, at in places for byte in (1, 255)]
            tries = tries[:: max(1, -(-len(tries) // (TRIES // 3)))]
            for why in pool.map(store.fault, tries):
                if why:
                    faults.append(why)
            count += len(tries)
            print("stops: %d changed bytes of %d files" % (len(tries), len(store.files)))
    ends("damage", count - len(faults), faults)


def near(at, size):
    return at < 600 or at >= size - 300 or at % 4099 == 0


main()
