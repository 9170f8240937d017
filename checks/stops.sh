#!/usr/bin/env bash
# What is left of a store over a real folder when the program is killed, the power is cut, a call fails, the disk is full or a byte was changed:
# each write that was answered, or a note that names what is wrong.
#
#   checks/stops.sh      ROUNDS=200 tries five times as much as the gate does; PROGRAM=path names another program than the built one
set -u
cd "$(dirname "$0")/.."
rounds=${ROUNDS-40}
[ -n "${PROGRAM-}" ] || ./alternator . 0 >/dev/null 2>&1 # builds it where it isn't built
if ! command -v python3 >/dev/null 2>&1; then
  echo 'stops: python3 is not installed, and all of them were skipped'
  exit 0
fi
program=$(realpath "${PROGRAM-crates/alternator/out/alternator}")
status=0
python3 checks/stops.py "$program" "$rounds" || status=1
python3 checks/failing.py "$program" $((5 * rounds)) || status=1
python3 checks/damage.py "$program" $((25 * rounds)) || status=1
if command -v strace >/dev/null 2>&1; then
  python3 checks/powercuts.py "$program" $((25 * rounds)) || status=1
else
  echo 'stops: strace is not installed, and power cuts were skipped'
fi
exit $status
