"""A trial beside a generator of its own (docs/formats/trial.md): python3 checks/trials.py PROGRAM.

Over fresh stores `trial 7 20000` has to say the same four lines whatever FLUSH is, and they have to sum up what `replay` says to the requests
that are made here. The stores lie in memory where there is a place for them, as most of these requests are writes, each of which is synced.
"""

import hashlib
import json
import os
import re
import subprocess
import sys
import tempfile

PROGRAM = os.path.abspath(sys.argv[1])
SEED, COUNT = 7, 20000
MOMENT = 1700000000  # at which a trial carries its requests out
# of the lines of that seed, as docs/formats/trial.md has it
LINES = "0ebf1297741e20b5bd29a74a70f922532d0a5f4604c2415a9953dfc1776277a0"
CREATE = {
    "AttributeDefinitions": [{"AttributeName": name, "AttributeType": kind} for name, kind in ("gS", "kS", "rN")],
    "GlobalSecondaryIndexes": [
        {
            "IndexName": "Gix",
            "KeySchema": [{"AttributeName": "g", "KeyType": "HASH"}],
            "Projection": {"ProjectionType": "KEYS_ONLY"},
        }
    ],
    "KeySchema": [{"AttributeName": "k", "KeyType": "HASH"}, {"AttributeName": "r", "KeyType": "RANGE"}],
    "StreamSpecification": {"StreamEnabled": True, "StreamViewType": "NEW_AND_OLD_IMAGES"},
}


def line(operation, **members):
    body = json.dumps({"TableName": "Trial", **members}, separators=(",", ":"), sort_keys=True)
    return "%s %s\n" % (operation, body)


def request(a, k, r, v):
    """A request but the first, of its four draws."""
    key = {"k": {"S": "k%d" % k}, "r": {"N": str(r)}}
    group = {"S": "g%d" % (v % 7)}
    if a <= 3:
        return line("PutItem", Item={**key, "g": group, "v": {"N": str(v)}})
    if a == 4:
        return line("DeleteItem", Key=key)
    if a <= 6:
        given = {":d": {"N": str(v)}}
        exists = "attribute_exists(k)"
        return line("UpdateItem", Key=key, UpdateExpression="ADD v :d", ConditionExpression=exists, ExpressionAttributeValues=given)
    if a == 7:
        return line("GetItem", Key=key)
    if a == 8:
        return line("Query", KeyConditionExpression="k = :k", ExpressionAttributeValues={":k": key["k"]}, Limit=10)
    return line("Query", IndexName="Gix", KeyConditionExpression="g = :g", ExpressionAttributeValues={":g": group}, Limit=10)


def requests(seed, count):
    yield line("CreateTable", **CREATE)
    for _ in range(count - 1):
        draws = []
        for most in (10, 40, 200, 1000):
            seed = (seed * 6364136223846793005 + 1442695040888963407) % 2**64
            draws.append(seed // 2**33 % most)
        yield request(*draws)


def run(*words, lines=""):
    """What a run over a fresh store says."""
    shared = "/dev/shm"
    with tempfile.TemporaryDirectory(dir=shared if os.access(shared, os.W_OK) else None) as store:
        for job, given in ((("init",), ""), (words, lines)):
            done = subprocess.run([PROGRAM, store, "0", *job], input=given, capture_output=True, text=True, timeout=600)
            if done.returncode or done.stderr:
                sys.exit("trials: %s ended with %d: %s" % (job[0], done.returncode, done.stderr))
    return done.stdout


def main():
    lines = "".join(requests(SEED, COUNT))
    replies = run("replay", "65536", "4", lines=lines)
    replies = re.sub('"CreationDateTime":[0-9]+', '"CreationDateTime":%d' % MOMENT, replies, count=1)
    statuses = [reply[:4] for reply in replies.splitlines()]
    summary = "requests %d\n200 %d\n400 %d\nreplies %s\n" % (
        len(statuses),
        statuses.count("200 "),
        statuses.count("400 "),
        hashlib.sha256(replies.encode()).hexdigest(),
    )
    rows = [
        ("the lines of the generator", hashlib.sha256(lines.encode()).hexdigest(), LINES),
        ("how many are answered", statuses.count("200 ") + statuses.count("400 "), COUNT),
    ]
    for name, flush in (("a trial", 65536), ("the same again", 65536), ("with the greatest FLUSH", 1073741824)):
        rows.append((name, run("trial", str(SEED), str(COUNT), str(flush), "4"), summary))
    failures = [row for row in rows if row[1] != row[2]]
    for failure in failures:
        print("trials: %s: %r, not %r" % failure)
    print("trials: %d passed, %d failed" % (len(rows) - len(failures), len(failures)))
    return 1 if failures else 0


sys.exit(main())
