#!/usr/bin/env bash
# What a crate's proof costs by function: checks it from nothing with one job, over the libraries that are built already, and shares
# the processor seconds of the check out by the times at which the prover wrote the files of each function.
#
#   bench/functions.sh NAME [COUNT]     the COUNT dearest functions, 12 by default
#
# It removes what `rt check` kept of the crate. What the prover reads before the first function is told by itself, with the libraries below
# where they weren't built yet.
set -eu
cd "$(dirname "$(readlink -f "$0")")/../crates/$1"
command -v python3 >/dev/null || { echo "bench/functions.sh: python3 is missing" >&2; exit 70; }
exec python3 - "$1" "${2-12}" <<'PY'
import collections, glob, os, re, resource, shutil, subprocess, sys, time

name, count = sys.argv[1], int(sys.argv[2])
shutil.rmtree('out/incremental', ignore_errors=True)
start = time.time()
with open('out/functions.log', 'w') if os.path.isdir('out') else open(os.devnull, 'w') as log:
    subprocess.run(['rt', 'check', '--jobs', '1'], stdout=log, stderr=log)
used = resource.getrusage(resource.RUSAGE_CHILDREN)
seconds = used.ru_utime + used.ru_stime

# What the prover makes of a function, behind the function's name.
PARTS = 'Answers|Code|Given|Goals|Invariants|Kinds|Layout|Lts|Met|Mir|Named|Proof|Reads|Statement|Symbol|TheImpl|TheLinks?|Tie'
# The prover writes a file when it is done with it, so a file took the time since the one before it.
times = sorted((os.stat(path).st_mtime, os.path.basename(path)) for path in glob.glob('out/incremental/**/*.oantt', recursive=True))
if not times:
    sys.exit(f'bench/functions.sh: the check of {name} wrote nothing')
if times[0][0] < start:
    sys.exit(f'bench/functions.sh: the check began with what one in another checkout kept: remove crates/{name}/out/incremental there first')
spent = collections.Counter()
before = times[0][0]
for at, file in times:
    place = re.match(rf'Rattle-{name}-proofs\.(.+?)\.(?:{PARTS})\b', file)
    spent[place.group(1) if place else 'what all have in common'] += at - before
    before = at
whole = times[-1][0] - start
share = seconds / whole
print(f'{name}: {seconds:.0f} seconds, of which before the first function {(times[0][0] - start) * share:.0f}')
for function, time_of in spent.most_common(count):
    print(f'  {time_of * share:6.1f}  {function}')
rest = [time_of for _, time_of in spent.most_common()[count:]]
print(f'  {sum(rest) * share:6.1f}  {len(rest)} others, none more than {max(rest, default=0) * share:.1f}')
PY
