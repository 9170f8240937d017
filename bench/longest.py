"""How long the longest puts take: longest.py PROGRAM STORE CREATE LINES FLUSH COUNT. Run by bench/engine.sh: one line at a time, each reply waited for."""
import subprocess
import sys
import time

program, store, create, lines, flush, count = sys.argv[1:]
subprocess.run([program, store, "0", "init"], stdout=subprocess.DEVNULL, check=True)
with subprocess.Popen([program, store, "0", "replay", flush, "4"], stdin=subprocess.PIPE, stdout=subprocess.PIPE) as run, open(lines, "rb") as puts:
    took = []
    for line in [create.encode() + b"\n", *(puts.readline() for _ in range(int(count)))]:
        start = time.perf_counter()
        run.stdin.write(line)
        run.stdin.flush()
        run.stdout.readline()
        took.append(time.perf_counter() - start)
    status = open(f"/proc/{run.pid}/status").read()
    memory = next(it.split()[1] for it in status.splitlines() if it.startswith("VmHWM"))
    written = next(it.split()[1] for it in open(f"/proc/{run.pid}/io").read().splitlines() if it.startswith("wchar"))
    run.stdin.close()
took.sort()
put = sum(len(it) for it in open(lines, "rb").readlines()[: int(count)])
print(f"{count} puts one by one: the longest {took[-1] * 1000:.1f} ms, of a thousand all but one under {took[-int(count) // 1000] * 1000:.2f} ms, the middle {took[len(took) // 2] * 1000000:.0f} microseconds; "
      f"{memory} KB at most; {int(written) / put:.1f} bytes written for a byte of the lines")
