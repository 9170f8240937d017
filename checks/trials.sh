#!/usr/bin/env bash
# A trial of 20,000 requests, twice and with the greatest FLUSH, beside `replay` of the same requests, which another generator makes.
#
#   checks/trials.sh      PROGRAM=path names another program than the built one
set -u
cd "$(dirname "$0")/.."
[ -n "${PROGRAM-}" ] || ./alternator . 0 >/dev/null 2>&1 # builds it where it isn't built
if ! command -v python3 >/dev/null 2>&1; then
  echo 'trials: python3 is not installed, and its part was skipped'
  exit 0
fi
timeout 2400 python3 checks/trials.py "${PROGRAM-crates/alternator/out/alternator}"
