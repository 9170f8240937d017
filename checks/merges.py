"""What merges leave of the files of a store: python3 checks/merges.py PROGRAM ROUNDS.

A trial of 20,000 requests with the least FLUSH and MERGE 4 leaves at most eight files of each family, by the last version. Behind `@flush` and
`@merge` there is one, no other file is in the folder, and asked for again nothing changes. Replies are the same whatever MERGE is. Of a table whose
one item was deleted no row is left. A program that is killed ROUNDS times while it merges leaves a store that has each put that was answered.
"""

import os
import random
import struct
import subprocess
import sys
import tempfile
import threading

PROGRAM, ROUNDS = sys.argv[1], int(sys.argv[2])
# A folder in memory, where there is one: most requests are writes, each of which is synced.
SHARED = "/dev/shm" if os.access("/dev/shm", os.W_OK) else None
EMPTY = 64  # bytes of a file without rows
TABLE = (
    'CreateTable {"TableName":"Tab","KeySchema":[{"AttributeName":"k","KeyType":"HASH"}],'
    '"AttributeDefinitions":[{"AttributeName":"k","AttributeType":"S"}]}\n'
)
passed = failed = 0


def same(name, got, wanted):
    global passed, failed
    if got == wanted:
        passed += 1
    else:
        failed += 1
        print(f"{name}: {got!r}, not {wanted!r}")


def run(store, *words, lines=""):
    done = subprocess.run([PROGRAM, store, "0", *words], input=lines, capture_output=True, text=True)
    return done.stdout, done.returncode, done.stderr


def version(store):
    """The segments and, by family, the row files of the last version."""
    with open(os.path.join(store, "00000001.alt"), "rb") as file:
        bytes_ = file.read()
    at, last = 8, None
    while at < len(bytes_) and bytes_[at] == 1:
        (count,) = struct.unpack(">Q", bytes_[at + 1 : at + 9])
        last = bytes_[at + 9 : at + 9 + count]
        at += 9 + count
    at = 12
    (count,) = struct.unpack_from(">Q", last, at)
    segments = list(struct.unpack_from(f">{count}I", last, at + 8))
    at += 8 + 4 * count
    (count,) = struct.unpack_from(">Q", last, at)
    at += 8
    families = {}
    for _ in range(count):
        family, _flushed, files = struct.unpack_from(">IQQ", last, at)
        families[family] = list(struct.unpack_from(f">{files}I", last, at + 20))
        at += 20 + 4 * files
    return segments, families


def folder(store):
    return sorted(int(name[:8], 16) for name in os.listdir(store) if name.endswith(".alt"))


def named(store):
    segments, families = version(store)
    return sorted([1, *segments, *(file for files in families.values() for file in files)])


def after_a_trial(store):
    run(store, "init")
    said, status, noted = run(store, "trial", "7", "20000", "65536", "4")
    same("a trial", (status, noted), (0, ""))
    files = version(store)[1]
    same("families with more than eight files", {f: len(g) for f, g in files.items() if len(g) > 8}, {})
    same("a trial that merges otherwise", run_anew("trial", "7", "20000", "65536", "64"), said)
    same("merges of all", run(store, "replay", "65536", "4", lines="@flush\n@merge\n"), ("ok\nok\n", 0, ""))
    files = version(store)[1]
    same("families with more than one file", {f: g for f, g in files.items() if len(g) > 1}, {})
    same("the folder", folder(store), named(store))
    before = folder(store)
    same("merges of all once more", run(store, "replay", "65536", "4", lines="@merge\n@step\n"), ("ok\nok\n", 0, ""))
    same("the folder then", folder(store), before)


def after_a_delete(store):
    """A table of one item, put and deleted in files of their own: merged, it has no file, and nothing is left to be done."""
    run(store, "init")
    key = '{"TableName":"Tab","Key":{"k":{"S":"a"}}}\n'
    lines = TABLE + put("a", 0) + "@flush\nDeleteItem " + key + "@flush\n@merge\n@reopen\nGetItem " + key + "@step\n"
    said, status, noted = run(store, "replay", "65536", "2", lines=lines)
    same("a deleted item", (said.splitlines()[1:], status, noted), ("200 {}|ok|200 {}|ok|ok|ok|200 {}|ok".split("|"), 0, ""))
    files = version(store)[1].get(1, [])
    same("its files", [size for size in (os.path.getsize(os.path.join(store, "%08x.alt" % f)) for f in files) if size != EMPTY], [])
    same("its folder", folder(store), named(store))


def run_anew(*words):
    with tempfile.TemporaryDirectory(dir=SHARED) as store:
        run(store, "init")
        return run(store, *words)[0]


def put(key, count):
    value = f"{count:08d}" + "x" * 4000
    return 'PutItem {"TableName":"Tab","Item":{"k":{"S":"%s"},"v":{"S":"%s"}}}\n' % (key, value)


def killed(store, times):
    """Puts over 60 keys, under a program that is killed at random moments. Each answered put is there, and the next one at most."""
    run(store, "init")
    run(store, "replay", "65536", "2", lines=TABLE)
    count, last = 0, {}
    for _ in range(times):
        lines = [(i % 60, i) for i in range(count, count + 400)]
        program = subprocess.Popen(
            [PROGRAM, store, "0", "replay", "65536", "2"], stdin=subprocess.PIPE, stdout=subprocess.PIPE, text=True
        )
        timer = threading.Timer(random.uniform(0.02, 0.6), program.kill)
        timer.start()
        try:
            said = program.communicate("".join(put(*line) for line in lines))[0]
        except BrokenPipeError:
            said = program.stdout.read()
        timer.cancel()
        answered = said.count("\n")
        for key, i in lines[:answered]:
            last[key] = i
        shown, status, noted = run(
            store, "replay", "65536", "2", lines="".join('GetItem {"TableName":"Tab","Key":{"k":{"S":"%d"}}}\n' % k for k in range(60))
        )
        same("an opening", (status, noted), (0, ""))
        begun = lines[answered] if answered < len(lines) else None
        for key, line in enumerate(shown.splitlines()):
            there = int(line.split('"v":{"S":"')[1][:8]) if '"v"' in line else None
            if begun and key == begun[0] and there == begun[1]:
                last[key] = there
            same(f"key {key}", there, last.get(key))
        count += 400


for check in after_a_trial, after_a_delete:
    with tempfile.TemporaryDirectory(dir=SHARED) as store:
        check(store)
with tempfile.TemporaryDirectory() as store:
    killed(store, ROUNDS)
print(f"merges: {passed} passed, {failed} failed")
sys.exit(failed > 0)
