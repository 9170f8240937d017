"""What the checks of stops share: runs of the program, requests with the writes that they make, and what a store shows of them.

A `Script` is a list of lines for `replay` over a fresh store, each with the single writes that it makes. After so many of these writes a
store has to show `view` of them: the items of the table, the keys in its index, and one record of each change, which `seen` reads from a
store that is opened again. A request is never cut: a store shows the writes of whole lines.
"""

import json
import os
import subprocess
import sys

TABLE = (
    'CreateTable {"TableName":"Rng","KeySchema":[{"AttributeName":"k","KeyType":"HASH"},{"AttributeName":"r","KeyType":"RANGE"}],'
    '"AttributeDefinitions":[{"AttributeName":"k","AttributeType":"S"},{"AttributeName":"r","AttributeType":"N"},'
    '{"AttributeName":"g","AttributeType":"S"}],"GlobalSecondaryIndexes":[{"IndexName":"Gix","KeySchema":[{"AttributeName":"g",'
    '"KeyType":"HASH"}],"Projection":{"ProjectionType":"KEYS_ONLY"}}],'
    '"StreamSpecification":{"StreamEnabled":true,"StreamViewType":"NEW_IMAGE"}}'
)
# The table is made by write 1 of a fresh store.
STREAM = "arn:aws:dynamodb:local:000000000000:table/Rng/stream/%021d" % 1
# A flush as soon as may be, and a merge of two files.
LIMITS = ["65536", "2"]
# None for long.
NO_FLUSH = ["1073741824", "64"]
DEVICE = "alternator: device\n"


def item(r, g, text):
    return {"k": {"S": "a"}, "r": {"N": str(r)}, "g": {"S": g}, "v": {"S": text}}


def key(r):
    return {"k": {"S": "a"}, "r": {"N": str(r)}}


def put(r, g, text):
    """A line, and the writes that it makes: of the item r."""
    it = item(r, g, text)
    return "PutItem " + json.dumps({"TableName": "Rng", "Item": it}), [(r, it)]


def delete(r):
    return "DeleteItem " + json.dumps({"TableName": "Rng", "Key": key(r)}), [(r, None)]


def batch(*members):
    """Puts and deletes as one request."""
    asked = []
    for _, ((r, it),) in members:
        asked.append({"DeleteRequest": {"Key": key(r)}} if it is None else {"PutRequest": {"Item": it}})
    return "BatchWriteItem " + json.dumps({"RequestItems": {"Rng": asked}}), [one for _, writes in members for one in writes]


def word(text):
    """A word of control, or another line that writes nothing."""
    return text, []


class Script:
    """Lines, from a fresh store on, or from one that has the first `count` writes of a script before it."""

    def __init__(self, lines, before=None, count=0):
        self.lines = [line for line, _ in lines]
        self.writes = before.writes[:count] if before else []
        # how many writes there are behind so many lines
        self.behind = [len(self.writes)]
        for _, writes in lines:
            self.writes += writes
            self.behind.append(len(self.writes))
        # how many there are behind whole lines
        self.whole = {*self.behind, *(one for one in (before.whole if before else [0]) if one <= count)}

    def text(self):
        return "".join(line + "\n" for line in self.lines)

    def view(self, count):
        """What a store shows after the first `count` writes, the first of which makes the table."""
        if count == 0:
            return None
        items, records = {}, []
        for number, (r, it) in enumerate(self.writes[1:count], 2):
            event = "REMOVE" if it is None else "MODIFY" if r in items else "INSERT"
            records.append((event, number, r, it))
            if it is None:
                del items[r]
            else:
                items[r] = it
        keys = {r: {name: it[name] for name in ("k", "r", "g")} for r, it in items.items()}
        return items, keys, records

    def between(self, least, most, shown):
        """The count from the least to the most of writes of whole lines whose view is this, None where there is none."""
        for count in range(least, most + 1):
            if count in self.whole and self.view(count) == shown:
                return count
        return None


# The first write of a script: it makes the table.
MADE = (TABLE, [(None, None)])
# Lines whose store is kept as the last build before the second form of segments has left it (kept.txt), and the first ones over it.
KEPT = [MADE, put(1, "x", "first"), put(1, "y", "second"), batch(put(2, "x", "two"), put(3, "x", "three"), delete(1))]
OVER_KEPT = [batch(put(1, "x", "again"), put(5, "y", "five"), delete(2)), word("@flush"), word("@reopen"), put(2, "z", "once more")]


def run(program, store, words, text, wrap=(), **more):
    return subprocess.run([*wrap, program, store, "0", *words], input=text, capture_output=True, text=True, **more)


def kept_files():
    """The files of that store."""
    with open(os.path.join(os.path.dirname(__file__), "kept.txt")) as lines:
        return {name: bytes.fromhex(text) for name, text in (line.split() for line in lines if line[:1] != "#")}


def init(program, store):
    run(program, store, ["init"], "", check=True)


def replay(program, store, text, wrap=(), limits=LIMITS, **more):
    return run(program, store, ["replay", *limits], text, wrap, **more)


def pages(first, last):
    """Lines that read the records from the number of one write to that of another."""
    return [
        'GetRecords {"ShardIterator":"%s|%021d","Limit":100}\n' % (STREAM, number) for number in range(first, last + 1, 100)
    ]


SHOW = ['Scan {"TableName":"Rng"}\n', 'Scan {"TableName":"Rng","IndexName":"Gix"}\n']


def seen(program, store, writes, first=2, limits=LIMITS):
    """What an opened store shows, read by as many pages as so many writes need; or a text that says why it shows nothing. Records are
    read from the number `first` on."""
    got = replay(program, store, "".join(SHOW + pages(first, writes + 1)), limits=limits)
    if got.returncode or got.stderr:
        return "status %d %s%s" % (got.returncode, got.stderr, got.stdout[:200])
    return shown(got.stdout.splitlines())


def shown(said):
    """What replies to the lines of `SHOW` and to pages of records show."""
    if all(line.startswith("400 ") and "ResourceNotFoundException" in line for line in said):
        return None
    if any(not line.startswith("200 ") for line in said):
        return "\n".join(line[:200] for line in said)
    items, keys, *records = [json.loads(line[4:]) for line in said]
    if "LastEvaluatedKey" in items or "LastEvaluatedKey" in keys:
        return "a scan has a further page"
    listed = []
    for page in records:
        for one in page["Records"]:
            change = one["dynamodb"]
            listed.append((one["eventName"], int(one["eventID"]), int(change["Keys"]["r"]["N"]), change.get("NewImage")))
    return by_range(items["Items"]), by_range(keys["Items"]), listed


def by_range(items):
    found = {int(it["r"]["N"]): it for it in items}
    return found if len(found) == len(items) else "an item twice"


def answered(said, lines):
    """How many of these lines were answered, of what was said: each by one whole line, as it is wanted."""
    whole = said[: said.rfind("\n") + 1].splitlines()
    for line, reply in zip(lines, whole):
        wanted = reply == "ok" if line.startswith("@") else reply.startswith("200 ")
        if not wanted and line != "@merge":
            raise SystemExit("stops: %s was answered %s" % (line[:80], reply[:200]))
    return len(whole)


def at_once():
    return max(2, os.cpu_count() or 2)


def short(value):
    text = str(value)
    return text if len(text) < 600 else text[:600] + " .."


def ends(name, passed, faults):
    """Says how a check ended, and ends with its status."""
    for fault in faults[:10]:
        print("stops: " + fault)
    print("stops: %s: %d passed, %d failed" % (name, passed, len(faults)))
    sys.exit(1 if faults else 0)
