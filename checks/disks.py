"""A folder as a power cut may leave it, by the system calls that a program made on it.

A `Disk` has for each file what a read gives and what lasts: its bytes as of its last sync with the writes since, and whether its name, or
that it was removed, was made to last by a sync of the folder. `images` are folders that a cut now may leave: writes that weren't synced are
lost, done, cut at a prefix, done without those before them, or other bytes stand in their place; names that weren't are there or not.
"""

import os
import re
import subprocess

CALL = re.compile(r"^(\w+)\((.*)\)\s+= (-?\d+)")
TEXT = re.compile(r'"((?:\\x[0-9a-f]{2})*)"(\.\.\.)?')
# Calls that are followed, and others that change files, of which the program makes none on its store.
FOLLOWED = ["openat", "close", "pwrite64", "write", "fdatasync", "fsync", "unlink"]
OTHERS = ["ftruncate", "truncate", "rename", "renameat", "renameat2", "link", "linkat", "unlinkat", "fallocate", "pwritev", "writev"]


class File:
    """A file that is there: its bytes as of its last sync, none where there was none, and the writes since, in order."""

    def __init__(self, synced):
        self.synced = synced
        self.since = []
        self.read = synced or b""

    def copy(self):
        other = File(self.synced)
        other.since, other.read = list(self.since), self.read
        return other

    def write(self, at, data):
        self.since.append((at, data))
        self.read = overwritten(self.read, [(at, data)])

    def lefts(self):
        """What a cut may leave of its bytes, by the name of the choice."""
        lost = self.synced or b""
        lefts = {"lost": lost, "done": self.read}
        if self.since:
            *before, (at, data) = self.since
            for name, size in ("first", 1), ("half", len(data) // 2), ("cut", len(data) - 1):
                lefts[name] = overwritten(lost, [*before, (at, data[:size])])
            lefts["alone"] = overwritten(lost, [(at, data)])
            lefts["ones"] = overwritten(lost, [(a, b"\1" * len(d)) for a, d in self.since]) + b"\1" * 64
            lefts["zeros"] = overwritten(lost, [(a, bytes(len(d))) for a, d in self.since])
        return lefts


CHOICES = ["lost", "done", "first", "half", "cut", "alone", "ones", "zeros"]


def overwritten(bytes_before, writes):
    left = bytearray(bytes_before)
    for at, data in writes:
        left.extend(bytes(max(0, at - len(left))))
        left[at : at + len(data)] = data
    return bytes(left)


class Disk:
    def __init__(self, folder):
        self.files = {}
        # files whose names came, and files that went, since the folder was synced last
        self.came, self.gone = set(), {}
        for name in sorted(os.listdir(folder)):
            with open(os.path.join(folder, name), "rb") as file:
                self.files[name] = File(file.read())

    def copy(self):
        other = object.__new__(Disk)
        other.files = {name: file.copy() for name, file in self.files.items()}
        other.came, other.gone = set(self.came), {name: file.copy() for name, file in self.gone.items()}
        return other

    def reads(self):
        return {name: file.read for name, file in self.files.items()}

    def carry_out(self, what, name=None, at=0, data=b""):
        if what == "make":
            self.files[name] = File(None)
            self.came.add(name)
        elif what == "write":
            self.files[name].write(at, data)
        elif what == "sync":
            self.files[name] = File(self.files[name].read)
        elif what == "sync folder":
            self.came, self.gone = set(), {}
        elif what == "remove":
            file = self.files.pop(name)
            if name in self.came:
                self.came.discard(name)
            else:
                self.gone[name] = file

    def images(self):
        """Folders that a cut now may leave, as (choice, files)."""
        pending = any(file.since for file in self.files.values())
        for choice in CHOICES if pending else ["done"]:
            lefts = {name: file.lefts() for name, file in self.files.items()}
            files = {name: left.get(choice, left["done"]) for name, left in lefts.items()}
            yield choice, files
            if self.gone:
                back = {name: file.lefts()["lost"] for name, file in self.gone.items()}
                yield choice + ", all that went are back", {**back, **files}
                for name in list(back)[:1] + list(back)[1:][-1:]:
                    yield choice + ", %s is back" % name, {name: back[name], **files}
            if self.came:
                yield choice + ", what came is missing", {name: left for name, left in files.items() if name not in self.came}


def lay(files, folder):
    """Lays files into an empty folder."""
    for name, left in files.items():
        with open(os.path.join(folder, name), "wb") as file:
            file.write(left)


def bytes_in(text):
    found = TEXT.search(text)
    if found.group(2):
        raise SystemExit("stops: strace cut a text short")
    return bytes.fromhex(found.group(1).replace("\\x", ""))


def traced(command, folder, text, where):
    """Runs a command over a folder under strace. What it did as (deed, name, place, bytes), where "say" is a write to standard output,
    and how it ended."""
    trace = os.path.join(where, "trace")
    wrap = ["strace", "-xx", "-s", "20000000", "-o", trace, "-e", "trace=" + ",".join(FOLLOWED + OTHERS)]
    run = subprocess.run([*wrap, *command], input=text, capture_output=True, text=True)
    with open(trace) as lines:
        return list(deeds(lines, folder)), run


def deeds(lines, folder):
    """What the lines of a trace say was done to the files of a folder and said."""
    names, folder = {}, os.path.abspath(folder)
    for line in lines:
        found = CALL.match(line)
        if not found or int(found.group(3)) < 0:
            continue
        call, words, answer = found.group(1), found.group(2), int(found.group(3))
        if call == "openat":
            path = os.path.abspath(bytes_in(words).decode())
            if path == folder:
                names[answer] = ""
            elif os.path.dirname(path) == folder:
                names[answer] = os.path.basename(path)
                if "O_CREAT" in words:
                    yield "make", names[answer], 0, b""
                if "O_TRUNC" in words or "O_APPEND" in words:
                    raise SystemExit("stops: a way of opening that isn't followed: " + line)
            continue
        if call == "unlink":
            path = os.path.abspath(bytes_in(words).decode())
            if os.path.dirname(path) == folder:
                yield "remove", os.path.basename(path), 0, b""
            continue
        fd = words.split(",")[0]
        name = names.get(int(fd)) if fd.isdigit() else None
        if call == "close":
            names.pop(int(fd), None)
        elif call == "write" and fd == "1":
            yield "say", None, 0, bytes_in(words)[:answer]
        elif call == "pwrite64" and name:
            yield "write", name, int(words.rsplit(",", 1)[1]), bytes_in(words)[:answer]
        elif call in ("fdatasync", "fsync") and name is not None:
            yield ("sync", name, 0, b"") if name else ("sync folder", None, 0, b"")
        elif name is not None or call not in FOLLOWED:
            raise SystemExit("stops: a call that isn't followed: " + line[:200])
