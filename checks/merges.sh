#!/usr/bin/env bash
# What merges leave of the files of a store, and of one whose program is killed meanwhile.
#
#   checks/merges.sh      PROGRAM=path names another program than the built one, ROUNDS=12 kills it so often
set -u
cd "$(dirname "$0")/.."
[ -n "${PROGRAM-}" ] || ./alternator . 0 >/dev/null 2>&1 # builds it where it isn't built
if ! command -v python3 >/dev/null 2>&1; then
  echo 'merges: python3 is not installed, and its part was skipped'
  exit 0
fi
timeout 2400 python3 checks/merges.py "$(realpath "${PROGRAM-crates/alternator/out/alternator}")" "${ROUNDS-4}"
