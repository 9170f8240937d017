"""How long items take to expire, in time of the processor, and what memory they take: python3 bench/expiring.py PROGRAM COUNT.

Over lines of `replay`, as a server makes ExpireItems behind its connections. In a table of COUNT items with a time to live, 10,000 of them, evenly
among the others, go by ExpireItems. An ExpireItems that deletes nothing behind an opening looks through the whole table once at least: that is the walk
as whose multiple the time of all others is told, that of their deletions taken away. Memory is told beside a table without a time to live. Where there
is a C compiler nothing is synced (`nosync.c`).
"""

import os
import shutil
import subprocess
import sys
import tempfile
import time

PROGRAM, COUNT = sys.argv[1], int(sys.argv[2])
GOING = min(10_000, COUNT)
NOW = int(time.time())
OVER, LATER = NOW - 60, NOW + 31_536_000
TABLE = (
    'CreateTable {"TableName":"Tab","KeySchema":[{"AttributeName":"pk","KeyType":"HASH"}],'
    '"AttributeDefinitions":[{"AttributeName":"pk","AttributeType":"S"}]}\n'
)
LIVES = 'UpdateTimeToLive {"TableName":"Tab","TimeToLiveSpecification":{"AttributeName":"until","Enabled":true}}\n'
PUT = (
    'PutItem {"TableName":"Tab","Item":{"pk":{"S":"customer#%07d"},"until":{"N":"%d"},"note":{"S":"leave it at the door, and ring twice"},'
    '"tags":{"SS":["gift","priority"]},"lines":{"L":[{"M":{"sku":{"S":"A-1001"},"qty":{"N":"2"}}},'
    '{"M":{"sku":{"S":"B-2002"},"qty":{"N":"1"}}}]},"digest":{"B":"AAECAwQFBgc="}}}\n'
)
EXPIRE = "ExpireItems {}\n"


class Run:
    """A run of `replay` over a store in which nothing is flushed."""

    def __init__(self, folder):
        words = [PROGRAM, folder, "0", "replay", "1073741824", "4"]
        self.process = subprocess.Popen(words, stdin=subprocess.PIPE, stdout=subprocess.PIPE, env=ENVIRONMENT)
        self.ask("ListTables {}\n")

    def say(self, lines):
        self.process.stdin.write(lines.encode())
        self.process.stdin.flush()

    def used(self):
        """The seconds of a processor that it used so far."""
        with open(f"/proc/{self.process.pid}/schedstat") as told:
            return int(told.read().split()[0]) / 1e9

    def ask(self, line):
        """The reply, and the seconds that it took."""
        start = self.used()
        self.say(line)
        said = self.process.stdout.readline()
        took = self.used() - start
        assert said.startswith(b"200 "), said
        return said, took

    def expire(self):
        said, took = self.ask(EXPIRE)
        return int(said.split(b":")[1].rstrip(b"}\n")), took

    def most(self):
        """The most memory that it held so far, in bytes."""
        with open(f"/proc/{self.process.pid}/status") as status:
            return next(int(line.split()[1]) * 1024 for line in status if line.startswith("VmHWM"))

    def end(self):
        self.process.stdin.close()
        self.process.stdout.read()
        assert self.process.wait() == 0


def filled(folder, lives, going):
    """A store of the items, of which so many are over, evenly among the others."""
    subprocess.run([PROGRAM, folder, "0", "init"], stdout=subprocess.DEVNULL, check=True)
    run = Run(folder)
    run.ask(TABLE)
    if lives:
        run.ask(LIVES)
    apart = COUNT // going if going else COUNT + 1
    for first in range(0, COUNT, 1000):
        numbers = range(first, min(first + 1000, COUNT))
        run.say("".join(PUT % (n, OVER if going and n % apart == 0 and n // apart < going else LATER) for n in numbers))
        for _ in numbers:
            assert run.process.stdout.readline() == b"200 {}\n"
    return run


def opened(folder):
    """The memory of a run that opened the store, behind an ExpireItems, with what that took and what a second one takes."""
    run = Run(folder)
    first = run.expire()
    times = []
    while len(times) < 1000 and sum(times) < 0.5:
        times.append(run.expire()[1])
    second = sum(times) / len(times)
    most = run.most()
    run.end()
    return first, second, most


def deletions():
    """The seconds of 25 DeleteItems, of items that are there."""
    run = Run(f"{work}/all")
    took = [run.ask('DeleteItem {"TableName":"Tab","Key":{"pk":{"S":"customer#%07d"}}}\n' % n)[1] for n in range(1000)]
    run.end()
    return sum(took) / 40


work = tempfile.mkdtemp(dir="bench/out")
ENVIRONMENT = dict(os.environ)
try:
    if shutil.which("cc"):
        subprocess.run(["cc", "-shared", "-fPIC", "-o", f"{work}/nosync.so", "bench/nosync.c"], check=True)
        ENVIRONMENT["LD_PRELOAD"] = os.path.abspath(f"{work}/nosync.so")
    filled(f"{work}/without", False, 0).end()
    filled(f"{work}/all", True, 0).end()
    (_, _), without, plain = opened(f"{work}/without")
    (_, walk), second, most = opened(f"{work}/all")
    print(f"an ExpireItems that deletes nothing: {without * 1e6:.1f} microseconds of a store without a time to live, reading and saying the line included")
    print(f"in a table of {COUNT} items that has one: {walk * 1e6:.0f} microseconds behind an opening, then {second * 1e6:.1f} each")
    print(f"memory of the store: {plain / 1e6:.1f} MB without a time to live, {most / 1e6:.1f} MB with one")
    filled(f"{work}/some", True, GOING).end()
    run = Run(f"{work}/some")
    times = []
    while True:
        count, took = run.expire()
        times.append(took)
        if count < 25:
            break
    run.end()
    batch = deletions()
    walks = (sum(times) - batch * (len(times) - 1)) / walk
    print(f"{GOING} items expire by {len(times)} ExpireItems in {sum(times):.2f} seconds, of which one takes {max(times) * 1000:.1f} ms at most;")
    print(f"25 DeleteItems take {batch * 1000:.2f} ms, and what is left is the time of {walks:.1f} walks of the whole table")
finally:
    shutil.rmtree(work)
