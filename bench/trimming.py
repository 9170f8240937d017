#!/usr/bin/env python3
"""What it takes to drop the changes of a stream that are over a day old: bench/trimming.py [CHANGES], 1000000 unless said.

A table with a stream gets so many changes of an item of 337 bytes, and two days later a put, which drops them all, and then puts that hide their rows two by two. Told are the
seconds until each reply, the most memory, and what a day later a put at a steady rate takes. Debian's `faketime` sets the program's clock. Not part of the gate. PROGRAM=path names
another program; the syncs of the changes before are left out where there is a C compiler.
"""
import os
import shutil
import subprocess
import sys
import tempfile
import time

os.chdir(os.path.join(os.path.dirname(os.path.realpath(__file__)), ".."))
program = os.path.realpath(os.environ.get("PROGRAM", "crates/alternator/out/alternator"))
count = int(sys.argv[1]) if len(sys.argv) > 1 else 1_000_000
TABLE = ('CreateTable {"TableName":"Str","KeySchema":[{"AttributeName":"pk","KeyType":"HASH"}],"AttributeDefinitions":[{"AttributeName":"pk","AttributeType":"S"}],'
         '"StreamSpecification":{"StreamEnabled":true,"StreamViewType":"NEW_AND_OLD_IMAGES"}}\n')
PUT = ('PutItem {"TableName":"Str","Item":{"pk":{"S":"customer#%07d"},"sk":{"S":"order#2026-11-27T03:26:31Z"},"total":{"N":"%d.95"},"paid":{"BOOL":true},'
       '"note":{"S":"leave it at the door, and ring twice"},"tags":{"SS":["gift","priority"]},"lines":{"L":[{"M":{"sku":{"S":"A-1001"},"qty":{"N":"2"}}},'
       '{"M":{"sku":{"S":"B-2002"},"qty":{"N":"1"}}}]},"digest":{"B":"AAECAwQFBgc="}}}\n')


def put(number):
    return PUT % (number % 1000, number + 1)


def opened(folder, day, preload=None):
    words = ["faketime", f"2026-01-{day:02} 00:00:00", program, folder, "0", "replay", "67108864", "8"]
    environment = dict(os.environ, LD_PRELOAD=preload) if preload else None
    return subprocess.Popen(words, stdin=subprocess.PIPE, stdout=subprocess.PIPE, env=environment)


def took(run, line):
    start = time.perf_counter()
    run.stdin.write(line.encode())
    run.stdin.flush()
    said = run.stdout.readline()
    assert said.startswith(b"200 ") or said == b"ok\n", said
    return time.perf_counter() - start


def most(run):
    # The program is a child of faketime, or stands in its place.
    children = subprocess.run(["pgrep", "-P", str(run.pid)], capture_output=True, text=True).stdout.split()
    with open(f"/proc/{(children or [str(run.pid)])[0]}/status") as status:
        return next(int(line.split()[1]) for line in status if line.startswith("VmHWM"))


def bare(folder, lines):
    # How long the same puts take of a table whose stream has nothing that is old.
    run = opened(folder, 1)
    took(run, TABLE)
    times = sorted(took(run, put(number)) for number in range(lines))
    run.stdin.close()
    run.wait()
    return times[len(times) // 2]


def main():
    work = tempfile.mkdtemp()
    try:
        preload = None
        if shutil.which("cc"):
            preload = os.path.join(work, "nosync.so")
            subprocess.run(["cc", "-shared", "-fPIC", "-o", preload, "bench/nosync.c"], check=True)
        store, other = os.path.join(work, "store"), os.path.join(work, "other")
        for folder in (store, other):
            subprocess.run([program, folder, "0", "init"], stdout=subprocess.DEVNULL, check=True)
        run = opened(store, 1, preload)
        run.stdin.write(TABLE.encode())
        for first in range(0, count, 1000):
            run.stdin.write("".join(put(number) for number in range(first, min(first + 1000, count))).encode())
            run.stdin.flush()
            for _ in range(first, min(first + 1000, count)):
                run.stdout.readline()
        run.stdin.close()
        run.stdout.read()
        run.wait()
        run = opened(store, 3)
        start = time.perf_counter()
        took(run, "@step\n")
        print(f"opening a store of {count} changes: {time.perf_counter() - start:.1f} seconds, {most(run)} KB")
        print(f"the first put after a quiet day, which drops them: {took(run, put(count)):.3f} seconds")
        times = sorted(took(run, put(count + 1 + number)) for number in range(1000))
        print(f"each of 1,000 puts behind it, which hide two of their rows: {times[500] * 1e6:.0f} microseconds in the middle, {times[-1] * 1e3:.1f} ms at most; {most(run)} KB")
        run.stdin.close()
        run.wait()
        run = opened(store, 4)
        took(run, put(0))
        times = sorted(took(run, put(number + 7)) for number in range(1000))
        run.stdin.close()
        run.wait()
        print(f"a day later, each of 1,000 puts: {times[500] * 1e6:.0f} microseconds in the middle")
        print(f"beside these a put into a stream of which nothing is old: {bare(other, 1000) * 1e6:.0f} microseconds in the middle")
    finally:
        shutil.rmtree(work)


main()
