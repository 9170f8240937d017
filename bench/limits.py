"""Which FLUSH and MERGE serve: limits.py PROGRAM FOLDER ITEMS FLUSH:MERGE.. For each pair, over a store in FOLDER (/dev/shm, say): ITEMS puts of an item of
337 bytes under new keys, and as many over 20,000 keys, as lines of `replay`, a second; the longest of puts that each wait for their reply; how many files there are
then, how many bytes were written for a byte of the lines, the memory at most, and what a get of one of the items takes of the processor. Not part of the gate."""
import os
import resource
import shutil
import subprocess
import sys
import time

program, folder, items = sys.argv[1], sys.argv[2], int(sys.argv[3])
CREATE = '{"TableName":"Tab","KeySchema":[{"AttributeName":"pk","KeyType":"HASH"},{"AttributeName":"sk","KeyType":"RANGE"}],' \
    '"AttributeDefinitions":[{"AttributeName":"pk","AttributeType":"S"},{"AttributeName":"sk","AttributeType":"N"}]}'
ITEM = '"at":{"S":"order#2026-11-27T03:26:31Z"},"total":{"N":"129.95"},"paid":{"BOOL":true},"note":{"S":"leave it at the door, and ring twice"},' \
    '"tags":{"SS":["gift","priority"]},"lines":{"L":[{"M":{"sku":{"S":"A-1001"},"qty":{"N":"2"}}},{"M":{"sku":{"S":"B-2002"},"qty":{"N":"1"}}}]},"digest":{"B":"AAECAwQFBgc="}'


def key(n):
    return f'"pk":{{"S":"customer#{n // 100:07d}"}},"sk":{{"N":"{n % 100}"}}'


def put(n):
    return f'PutItem {{"TableName":"Tab","Item":{{{key(n)},{ITEM}}}}}\n'


def get(n):
    return f'GetItem {{"TableName":"Tab","Key":{{{key(n)}}}}}\n'


def written(name, lines):
    path = f"{folder}/{name}"
    with open(path, "w") as out:
        out.writelines(lines)
    return path


def replay(store, flush, merge, lines):
    """Seconds, seconds of the processor, and the most memory in KB of a run."""
    with open(lines) as given, open("/dev/null", "w") as gone:
        start = time.perf_counter()
        run = subprocess.Popen([program, store, "0", "replay", str(flush), str(merge)], stdin=given, stdout=gone)
        _, status, used = os.wait4(run.pid, 0)
        assert status == 0, status
        return time.perf_counter() - start, used.ru_utime + used.ru_stime, used.ru_maxrss


def made(name):
    store = f"{folder}/{name}"
    shutil.rmtree(store, ignore_errors=True)
    subprocess.run([program, store, "0", "init"], stdout=subprocess.DEVNULL, check=True)
    replay(store, 1 << 30, 64, written("create", ["CreateTable " + CREATE + "\n"]))
    return store


def longest(store, flush, merge, count):
    """The longest of puts that each wait for their reply, and bytes written for a byte of the lines."""
    took, sent = [], 0
    with subprocess.Popen([program, store, "0", "replay", str(flush), str(merge)], stdin=subprocess.PIPE, stdout=subprocess.PIPE) as run:
        for n in range(count):
            line = put(n).encode()
            sent += len(line)
            start = time.perf_counter()
            run.stdin.write(line)
            run.stdin.flush()
            run.stdout.readline()
            took.append(time.perf_counter() - start)
        wrote = next(int(it.split()[1]) for it in open(f"/proc/{run.pid}/io").read().splitlines() if it.startswith("wchar"))
        run.stdin.close()
    took.sort()
    return took[-1] * 1000, took[-count // 1000] * 1000, wrote / sent


def main():
    fresh = written("fresh", (put(n) for n in range(items)))
    over = written("over", (put(n * 7919 % 20000) for n in range(items)))
    gets = written("gets", (get(n * 7919 % items) for n in range(20000)))
    none = written("none", [])
    store = made("kept")
    base = replay(store, 1 << 30, 64, fresh)[0]
    print(f"kept in memory: {items / base:.0f} puts a second")
    for pair in sys.argv[4:]:
        mib, merge = (int(it) for it in pair.split(":"))
        flush = mib << 20
        store = made("store")
        spent, _, memory = replay(store, flush, merge, fresh)
        files = len(os.listdir(store))
        opened, processor, most = replay(store, flush, merge, none)
        _, with_gets, _ = replay(store, flush, merge, gets)
        store = made("store")
        again, _, _ = replay(store, flush, merge, over)
        store = made("store")
        slowest, thousandth, wrote = longest(store, flush, merge, items // 3)
        print(f"FLUSH {mib} MiB MERGE {merge}: {items / spent:.0f} puts a second under new keys ({base / spent:.2f} of those in memory), {items / again:.0f} over 20,000 keys; the longest of "
              f"{items // 3} one by one {slowest:.0f} ms, of a thousand all but one {thousandth:.2f} ms; {wrote:.1f} bytes written for one; {memory // 1024} MB; {files} files, opened in {opened:.1f} s "
              f"({most // 1024} MB); a get {(with_gets - processor) / 20000 * 1e6:.1f} microseconds of the processor", flush=True)
    for name in ("kept", "store"):
        shutil.rmtree(f"{folder}/{name}", ignore_errors=True)
    for name in ("fresh", "over", "gets", "none", "create"):
        os.remove(f"{folder}/{name}")


main()
