"""Scans the table Tab to its end, page after page, and tells what memory that adds: python3 bench/pages.py PROGRAM FOLDER FLUSH."""

import json
import subprocess
import sys

program, folder, flush = sys.argv[1:]


def most_held(process):
    """The most memory that the process held so far, in bytes."""
    with open(f"/proc/{process.pid}/status") as status:
        return next(int(line.split()[1]) * 1024 for line in status if line.startswith("VmHWM"))


def answer(process, operation, body):
    process.stdin.write(f"{operation} {json.dumps(body)}\n".encode())
    process.stdin.flush()
    status, reply = process.stdout.readline().split(b" ", 1)
    assert status == b"200", reply
    return json.loads(reply)


with subprocess.Popen([program, folder, "0", "replay", flush, "4"], stdin=subprocess.PIPE, stdout=subprocess.PIPE) as process:
    answer(process, "ListTables", {})
    before = most_held(process)
    pages = items = 0
    body = {"TableName": "Tab"}
    while True:
        page = answer(process, "Scan", body)
        pages, items = pages + 1, items + page["Count"]
        if "LastEvaluatedKey" not in page:
            break
        body["ExclusiveStartKey"] = page["LastEvaluatedKey"]
    print(f"a scan of {items} items in {pages} pages holds {(most_held(process) - before) / 1e6:.1f} MB beyond the store")
    process.stdin.close()
