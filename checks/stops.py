"""A store under a program that is killed: python3 checks/stops.py PROGRAM ROUNDS.

In each round `replay` is fed puts, deletes, updates that raise a counter, flushes and reopenings over one store, and is killed a random
while behind a random number of replies; in every third `serve` is sent the same requests, each on a connection of its own, and is killed so, and in every
fourth the reopening behind it is killed too. Then the store is opened again, and has to show each write that was answered, at most those of one line more (the one that was begun), and none half, no batch either: in the table, in its index and in its stream alike. Items
are large enough that flushes run all the time. Every 50 rounds another store is begun, and the whole stream of the last one read.
"""

import http.client
import itertools
import random
import socket
import subprocess
import sys
import tempfile
import threading
import time

from stores import LIMITS, MADE, Script, answered, batch, delete, ends, init, put, replay, seen, short, word

PROGRAM, ROUNDS = sys.argv[1], int(sys.argv[2])
KEYS = 40
COUNTER = 100
FILL = "f" * 1500
# How many rounds one store has.
OVER_ONE = 50
# How many replies are waited for before a kill at most, and more lines than are carried out before it.
MOST_REPLIES = 100
MANY = 3000


def raised(times):
    """The counter is raised, and stands at so many then."""
    line = (
        'UpdateItem {"TableName":"Rng","Key":{"k":{"S":"a"},"r":{"N":"%d"}},"UpdateExpression":"SET g = :g ADD n :one",'
        '"ExpressionAttributeValues":{":g":{"S":"counted"},":one":{"N":"1"}}}' % COUNTER
    )
    it = {"k": {"S": "a"}, "r": {"N": str(COUNTER)}, "g": {"S": "counted"}, "n": {"N": str(times)}}
    return line, [(COUNTER, it)]


def nth(count):
    """The line behind `count` others: of five one raises the counter, of ten one deletes what the line before it has put, and one is a batch
    of three puts."""
    if count % 97 == 0:
        return word("@flush") if count % 2 else word("@reopen")
    if count % 5 == 3:
        return raised(sum(1 for n in range(count + 1) if n % 5 == 3 and n % 97))
    if count % 10 == 7 and (count - 1) % 97:
        return delete((count - 1) % KEYS)
    if count % 10 == 5:
        return batch(*(put((count + apart) % KEYS, "g%d" % (count % 7), "%d %s" % (count, FILL)) for apart in (0, 11, 22)))
    return put(count % KEYS, "g%d" % (count % 7), "%d %s" % (count, FILL))


def killed(store, lines, replies, delay):
    """Feeds lines, and kills the program a while behind so many replies; what was said."""
    run = subprocess.Popen([PROGRAM, store, "0", "replay", *LIMITS], stdin=subprocess.PIPE, stdout=subprocess.PIPE, text=True)

    def feed():
        try:
            for line in lines:
                run.stdin.write(line + "\n")
            run.stdin.close()
        except (BrokenPipeError, OSError):
            pass

    feeder = threading.Thread(target=feed, daemon=True)
    feeder.start()
    said = "".join(itertools.islice(run.stdout, replies))
    timer = threading.Timer(delay, run.kill)
    timer.start()
    said += run.stdout.read()
    run.wait()
    timer.cancel()
    feeder.join(5)
    return said


def free_port():
    """A port at which nobody listens now."""
    with socket.socket() as it:
        it.bind(("127.0.0.1", 0))
        return it.getsockname()[1]


def asked(port, line):
    """The reply to a line's request, sent on a connection of its own, as a line of `replay` says it; None where the server was gone before it was whole."""
    name, body = line.split(" ", 1)
    connection = http.client.HTTPConnection("127.0.0.1", port, timeout=60)
    try:
        connection.request("POST", "/", body.encode(), {"X-Amz-Target": "DynamoDB_20120810." + name})
        reply = connection.getresponse()
        return "%d %s\n" % (reply.status, reply.read().decode())
    except (http.client.HTTPException, OSError):
        return None
    finally:
        connection.close()


def killed_serving(store, lines, replies, delay):
    """Serves lines' requests, and kills the server a while behind so many replies; what was said. A word, which only `replay` knows, isn't sent."""
    port = free_port()
    run = subprocess.Popen([PROGRAM, store, str(port), "serve", "1", str(MANY), *LIMITS])
    for _ in range(600):
        with socket.socket() as it:
            if run.poll() is not None or it.connect_ex(("127.0.0.1", port)) == 0:
                break
        time.sleep(0.01)
    said, timer = [], threading.Timer(delay, run.kill)
    for count, line in enumerate(lines):
        if count == replies:
            timer.start()
        reply = "ok\n" if line.startswith("@") else asked(port, line)
        if reply is None:
            break
        said.append(reply)
    run.kill()
    run.wait()
    timer.cancel()
    return "".join(said)


class Store:
    """A store under kills, with the lines that were carried out on it."""

    def __init__(self, folder):
        self.folder = folder
        init(PROGRAM, folder)
        replay(PROGRAM, folder, MADE[0] + "\n", check=True)
        self.script = Script([MADE])
        self.count = 0
        self.writes = 1

    def round(self, number):
        """Why the store isn't as it has to be behind one kill, None where it is."""
        coming = [nth(count) for count in range(self.count, self.count + MANY)]
        script = Script(coming, self.script, self.writes)
        kill = killed_serving if number % 3 == 2 else killed
        said = kill(self.folder, script.lines, random.randrange(MOST_REPLIES), random.uniform(0, 0.02))
        done = answered(said, script.lines)
        if number % 4 == 3:
            killed(self.folder, ["@step"], 0, random.uniform(0, 0.03))
        most = script.behind[min(done + 1, MANY)]
        first = self.writes + 1
        got = seen(PROGRAM, self.folder, most, first=first)
        for after in sorted(script.whole & {*range(script.behind[done], most + 1)}):
            if got == since(script.view(after), first):
                # A line that was begun counts as carried out where its writes are there.
                self.count += done + (after > script.behind[done])
                self.script, self.writes = script, after
                return None
        return "kill %d: of %d writes, %d of them answered, the store shows %s" % (number, most, script.behind[done], short(got))

    def followed(self):
        """Why the whole stream isn't that of all writes, None where it is."""
        got = seen(PROGRAM, self.folder, self.writes)
        return None if got == self.script.view(self.writes) else "of %d writes the store shows %s" % (self.writes, short(got))


def since(view, first):
    """A view with the records from a number on alone."""
    items, keys, records = view
    return items, keys, [record for record in records if record[1] >= first]


def main():
    random.seed(20)
    faults, writes = [], 0
    for begun in range(0, ROUNDS, OVER_ONE):
        with tempfile.TemporaryDirectory() as folder:
            store = Store(folder)
            rounds = (store.round(number) for number in range(begun, min(begun + OVER_ONE, ROUNDS)))
            why = next(itertools.chain((fault for fault in rounds if fault), [None])) or store.followed()
            writes += store.writes
            if why:
                faults.append(why)
    print("stops: %d kills, %d writes" % (ROUNDS, writes))
    ends("kills", ROUNDS - len(faults), faults)


main()
