#!/usr/bin/env bash
# What the gate costs: processor seconds of the prover by crate and step, of a run of `rt ci` from nothing.
#
#   bench/gate.sh            proves everything anew (the better part of an hour on four processors)
#   bench/gate.sh NAME..     these crates and those below them, with a kit whose `rt ci` takes names
#
# While the gate runs, each process of the prover is looked at four times a second, and its user and system time is
# charged to its crate and step: proof, tests (the second check of a crate that has `#[test]` functions) or edits (the wrong bodies
# of must-fail/, with the check that they begin with). What a process does in its last quarter of a second is lost.
# The table stands in bench/README.md with its date.
set -eu
cd "$(dirname "$(readlink -f "$0")")/.."
command -v python3 >/dev/null || { echo "bench/gate.sh: python3 is missing" >&2; exit 70; }
exec python3 - "$@" <<'PY'
import collections, os, subprocess, sys, time

TICK = os.sysconf('SC_CLK_TCK')


def words_of(pid):
    with open(f'/proc/{pid}/cmdline', 'rb') as file:
        return file.read().decode(errors='replace').split('\0')


def step_of(pid, words):
    """The crate and the step of a prover's process, None where it is none."""
    if not words[0].endswith('/rattle') or '--crate-name' not in words:
        return None
    crate = words[words.index('--crate-name') + 1]
    if 'rt-edit' in ' '.join(words) or 'rt-edit' in os.readlink(f'/proc/{pid}/cwd'):
        return crate, 'edits'
    if '--test' in words:
        return crate, 'tests'
    return crate, 'edits' if words[1] == 'check' and '-o' not in words else 'proof'


def seconds_of(pid):
    with open(f'/proc/{pid}/stat') as file:
        fields = file.read().rsplit(')', 1)[1].split()
    return (int(fields[11]) + int(fields[12])) / TICK


def children(root):
    """All processes below one."""
    parents = {}
    for pid in filter(str.isdigit, os.listdir('/proc')):
        try:
            with open(f'/proc/{pid}/stat') as file:
                parents[int(pid)] = int(file.read().rsplit(')', 1)[1].split()[1])
        except OSError:
            pass
    found, more = set(), {root}
    while more:
        found |= more
        more = {pid for pid, parent in parents.items() if parent in more} - found
    return found


os.makedirs('bench/out', exist_ok=True)
log = 'bench/out/gate.log'
# Some kits keep what a gate passed, unless they are told otherwise.
knows = subprocess.run(['rt', '--help'], stdout=subprocess.PIPE, stderr=subprocess.STDOUT, text=True).stdout
anew = ['--anew'] if '--anew' in knows else []
gate = subprocess.Popen(['rt', 'ci', *anew, *sys.argv[1:]], stdout=open(log, 'w'), stderr=subprocess.STDOUT)
spent, steps, began = {}, {}, time.time()
while gate.poll() is None:
    for pid in children(gate.pid):
        try:
            if not steps.get((pid, 0)):  # a process that was just forked isn't the prover yet
                steps[pid, 0] = step_of(pid, words_of(pid))
            if steps[pid, 0]:
                spent[pid, steps[pid, 0]] = seconds_of(pid)
        except (OSError, ValueError, IndexError):
            pass
    time.sleep(0.25)
table = collections.defaultdict(lambda: collections.Counter())
for (_, (crate, step)), seconds in spent.items():
    table[crate][step] += seconds
print('| crate | proof | tests | edits | all |\n|---|---|---|---|---|')
rows = sorted(table.items(), key=lambda row: -sum(row[1].values()))
for crate, row in [*rows, ('all', sum((row for _, row in rows), collections.Counter()))]:
    print(f"| {crate} | {row['proof']:.0f} | {row['tests']:.0f} | {row['edits']:.0f} | {sum(row.values()):.0f} |")
print(f'\n{time.time() - began:.0f} seconds by the clock, {os.cpu_count()} processors; the last line of the gate:')
print(open(log).read().rstrip().rsplit('\n', 1)[-1])
sys.exit(gate.returncode)
PY
