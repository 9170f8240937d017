"""Memory that is refused, one call at a time: python3 bench/memory.py PROGRAM LIBRARY MOST.

A run is repeated over the same store with its first call for memory refused (`nomemory.c`), then its second, and so on, to the last or to the
MOSTth. Each has to end with status 5 and its note, or with 0 where what was refused wasn't needed, to have said a front of what it had to say,
and to leave a store that shows each write that was answered, at most those of one line more, and none half.
"""

import collections
import concurrent.futures
import os
import shutil
import sys
import tempfile

sys.path.insert(0, os.path.join(os.path.dirname(os.path.abspath(__file__)), "..", "checks"))
from stores import MADE, Script, answered, at_once, batch, delete, ends, init, put, replay, seen, short, word

PROGRAM, LIBRARY, MOST = sys.argv[1], os.path.abspath(sys.argv[2]), int(sys.argv[3])
BEFORE = [MADE, put(1, "x", "first"), word("@flush"), put(2, "x", "two")]
LINES = [
    put(1, "y", "second"),
    word("@flush"),
    batch(put(3, "x", "three"), delete(1)),
    word("@reopen"),
    delete(2),
    word("@flush"),
    word("@merge"),
    put(4, "z", "four"),
]
# How a run may end.
ENDINGS = {(0, ""), (5, "alternator: memory\n")}


def refused(store, script, at):
    """How a run over a copy of a store ends whose call for memory of that number is refused, and why that is wrong, None where it isn't."""
    with tempfile.TemporaryDirectory() as where:
        own = os.path.join(where, "store")
        shutil.copytree(store, own)
        wrap = ["env", "LD_PRELOAD=" + LIBRARY, "NOMEMORY_AT=%d" % at]
        run = replay(PROGRAM, own, script.text(), wrap)
        ending = (run.returncode, run.stderr)
        if ending not in ENDINGS:
            return ending, "memory %d: it ended with %d %s" % (at, *ending)
        whole = answered(run.stdout, script.lines)
        if run.returncode == 0 and whole < len(script.lines):
            return ending, "memory %d: %d lines alone were answered" % (at, whole)
        least, most = script.behind[whole], script.behind[min(whole + 1, len(script.lines))]
        got = seen(PROGRAM, own, most)
        if script.between(least, most, got) is None:
            return ending, "memory %d: of %d to %d writes the store shows %s" % (at, least, most, short(got))
    return ending, None


def main():
    with tempfile.TemporaryDirectory() as where:
        store, count = os.path.join(where, "store"), os.path.join(where, "count")
        init(PROGRAM, store)
        before = Script(BEFORE)
        replay(PROGRAM, store, before.text(), check=True)
        script = Script(LINES, before.writes)
        again = os.path.join(where, "again")
        shutil.copytree(store, again)
        replay(PROGRAM, again, script.text(), ["env", "LD_PRELOAD=" + LIBRARY, "NOMEMORY_COUNT=" + count], check=True)
        calls = int(open(count).read())
        with concurrent.futures.ThreadPoolExecutor(at_once()) as pool:
            found = list(pool.map(lambda at: refused(store, script, at), range(1, min(calls, MOST) + 1)))
    endings = collections.Counter(status for (status, _), _ in found)
    print("stops: of %d calls for memory %d are refused, one at a time: %s" % (calls, len(found), dict(endings)))
    faults = [why for _, why in found if why]
    ends("memory", len(found) - len(faults), faults)


main()
