"""Calls that fail, or at which the program is killed, one at a time: python3 checks/failing.py PROGRAM CALLS.

A run is recorded by strace, and then repeated over the same store with its first call failing, then its second, and so on to the CALLSth:
each call on the store's files and its folder (a write, a sync, a removal, an opening, a read, a size, a list of names) and each write to
standard output. Each run has to end with status 4 and its note, to have said a front of what it had to say, and to leave a store that
shows each write that was answered, at most those of one line more, and none half: no batch is cut. So it is where the program is killed as
it writes, syncs, removes or says, and where the disk is full: a small file system in memory, where it may be mounted, and a limit on the
size of files. All calls are tried over two stores, the second of which was left by a build before the second form of segments.
"""

import concurrent.futures
import os
import re
import resource
import shutil
import signal
import subprocess
import sys
import tempfile

from disks import lay
from stores import DEVICE, KEPT, LIMITS, MADE, NO_FLUSH, OVER_KEPT, Script, answered, at_once, batch, delete, ends, init, kept_files
from stores import put, replay, seen, short, word

PROGRAM, CALLS = sys.argv[1], int(sys.argv[2])
# What is tried of a call, besides that it fails as a device does.
WRITES = ["pwrite64", "fdatasync", "fsync", "unlink", "write"]
READS = ["openat", "pread64", "fstat", "statx", "newfstatat", "getdents64"]
LINE = re.compile(r"^(\w+)\((.*)\)\s+= (-?\d+)")
# The store was opened before, and has what an opening removes: a file that no version names.
BEFORE = [MADE, put(1, "x", "first"), word("@flush"), put(2, "x", "two")]
LINES = [
    put(1, "y", "second"),
    word("@flush"),
    batch(put(3, "x", "three"), delete(1)),
    word("@reopen"),
    delete(2),
    word("@flush"),
    word("@merge"),
    put(4, "z", "four"),
]
STRAY = "00001000.alt"
KILL = "signal=KILL"


def begun(folder):
    """A store to begin with, and its script."""
    init(PROGRAM, folder)
    script = Script(BEFORE)
    replay(PROGRAM, folder, script.text(), check=True)
    with open(os.path.join(folder, STRAY), "wb") as file:
        file.write(b"ALTLOG01\0")
    return Script(LINES, script, len(script.writes))


def kept(folder):
    """The store of the first form, and its script."""
    os.mkdir(folder)
    lay(kept_files(), folder)
    before = Script(KEPT)
    return Script(OVER_KEPT, before, len(before.writes))


def calls_of(store, script, where):
    """The calls on a store and to standard output of a whole run: each with its name and the how manieth of that name it is."""
    trace = os.path.join(where, "trace")
    wrap = ["strace", "-y", "-o", trace, "-e", "trace=" + ",".join(WRITES + READS)]
    run = replay(PROGRAM, store, script.text(), wrap)
    if run.returncode or run.stderr:
        raise SystemExit("stops: a whole run ended with %d %s" % (run.returncode, run.stderr))
    counts, calls = {}, []
    with open(trace) as lines:
        for line in lines:
            found = LINE.match(line)
            if not found:
                continue
            call, words = found.group(1), found.group(2)
            counts[call] = counts.get(call, 0) + 1
            if store in words or (call == "write" and words.startswith("1<")):
                calls.append((call, counts[call]))
    return calls


def ended(store, script, run, name, limits=LIMITS):
    """Why a run isn't ended as one is whose device fails, None where it is."""
    if run.returncode != 4 or run.stderr != DEVICE:
        return "%s: it ended with %d %s" % (name, run.returncode, run.stderr)
    whole = answered(run.stdout, script.lines)
    if len(run.stdout) != run.stdout.rfind("\n") + 1:
        return "%s: the last reply is cut" % name
    least, most = script.behind[whole], script.behind[min(whole + 1, len(script.lines))]
    got = seen(PROGRAM, store, most, limits=limits)
    if script.between(least, most, got) is None:
        return "%s: of %d to %d writes the store shows %s" % (name, least, most, short(got))
    return None


def failing(begun_on, script, call, number, error):
    """A run in which that call fails."""
    with tempfile.TemporaryDirectory() as where:
        store = os.path.join(where, "store")
        shutil.copytree(begun_on, store)
        inject = "inject=%s:%s:when=%d" % (call, error, number)
        wrap = ["strace", "-o", os.path.join(where, "trace"), "-e", "trace=" + call, "-e", inject]
        run = replay(PROGRAM, store, script.text(), wrap)
        name = "%s %d failing by %s" % (call, number, error)
        if error == KILL:
            run = signalled(run, signal.SIGKILL)
        return ended(store, script, run, name)


def each_call(begins, faults):
    """Each call in turn, which fails for the device, a write also for want of room; or the program is killed at what changes or says something."""
    with tempfile.TemporaryDirectory() as where:
        store, again = os.path.join(where, "store"), os.path.join(where, "again")
        script = begins(store)
        shutil.copytree(store, again)
        calls = calls_of(again, script, where)
        tries = [(call, number, "error=EIO") for call, number in calls[:CALLS]]
        tries += [(call, number, "error=ENOSPC") for call, number in calls[:CALLS] if call == "pwrite64"]
        tries += [(call, number, KILL) for call, number in calls[:CALLS] if call in WRITES]
        with concurrent.futures.ThreadPoolExecutor(at_once()) as pool:
            for why in pool.map(lambda one: failing(store, script, *one), tries):
                if why:
                    faults.append(why)
    kinds = sorted({call for call, _, _ in tries})
    print("stops: %d calls of %d fail in turn, over a store that is %s (%s)" % (len(calls[:CALLS]), len(calls), begins.__name__, ", ".join(kinds)))
    return len(tries)


# ---- no room


def large():
    return Script([MADE] + [put(n, "g%d" % (n % 5), "%d %s" % (n, "f" * 4000)) for n in range(200)] + [word("@flush")])


def mounted(folder, size):
    return subprocess.run(["mount", "-t", "tmpfs", "-o", "size=%d" % size, "tmpfs", folder], capture_output=True).returncode == 0


def full(faults):
    """Disks of many sizes, from one that has room for a store alone on: each is full at another call. What was answered is read while it is
    full, where no flush is due, and everything goes on once there is room."""
    with tempfile.TemporaryDirectory() as folder:
        if not mounted(folder, 1 << 16):
            print("stops: no file system may be mounted here, and full disks were skipped")
            return 0
        script, sizes = large(), range(16, 400, 12)
        try:
            for pages in sizes:
                subprocess.run(["mount", "-o", "remount,size=%d" % (1 << 28), folder], check=True)
                store = os.path.join(folder, "%d" % pages)
                init(PROGRAM, store)
                subprocess.run(["mount", "-o", "remount,size=%d" % (pages << 12), folder], check=True)
                run = replay(PROGRAM, store, script.text())
                why = ended(store, script, run, "a disk of %d pages" % pages, NO_FLUSH)
                subprocess.run(["mount", "-o", "remount,size=%d" % (1 << 28), folder], check=True)
                why = why or ended(store, script, run, "a disk of %d pages with room again" % pages)
                more = put(1000, "x", "with room again")[0] + "\n@flush\n@reopen\n"
                said = replay(PROGRAM, store, more).stdout
                if why or said != "200 {}\nok\nok\n":
                    faults.append(why or "a disk of %d pages with room again: %s" % (pages, said))
                shutil.rmtree(store)
        finally:
            subprocess.run(["umount", folder], check=True)
    print("stops: %d full disks" % len(sizes))
    return len(sizes)


def limited(faults):
    """Files that may not grow beyond a size: the system ends the run by a signal, or, where that is passed over, its call fails."""
    script, sizes = large(), [1 << 10, 1 << 13, 40_000, 70_000, 100_000]
    for size in sizes:
        for ignored in True, False:
            with tempfile.TemporaryDirectory() as folder:
                store = os.path.join(folder, "store")
                init(PROGRAM, store)

                def limit():
                    resource.setrlimit(resource.RLIMIT_FSIZE, (size, size))
                    signal.signal(signal.SIGXFSZ, signal.SIG_IGN if ignored else signal.SIG_DFL)

                run = replay(PROGRAM, store, script.text(), preexec_fn=limit, restore_signals=False)
                name = "files of at most %d bytes" % size
                if not ignored:
                    run = signalled(run, signal.SIGXFSZ)
                why = ended(store, script, run, name)
                if why:
                    faults.append(why)
    print("stops: %d limits on the size of files" % len(sizes))
    return 2 * len(sizes)


def signalled(run, by):
    """A run that was ended by that signal, as one that failed."""
    if run.returncode == -by:
        run.returncode, run.stderr = 4, DEVICE
        run.stdout = run.stdout[: run.stdout.rfind("\n") + 1]
    return run


def main():
    faults = []
    count = full(faults) + limited(faults)
    if shutil.which("strace"):
        count += each_call(begun, faults) + each_call(kept, faults)
    else:
        print("stops: strace is not installed, and calls that fail were skipped")
    ends("failures", count - len(faults), faults)


main()
