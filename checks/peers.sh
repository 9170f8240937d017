#!/usr/bin/env bash
# Servers on the loopback address, and peers that send what is no request, a part of one, or one in pieces, that reset, wait, or come by the
# thousand. What they are answered, and what is stored then, is known for each. It takes three quarters of a minute, for which peers that wait are waited for.
#
#   checks/peers.sh       PROGRAM=path names another program than the built one
set -u
cd "$(dirname "$0")/.."
[ -n "${PROGRAM-}" ] || ./alternator . 0 >/dev/null 2>&1 # builds it where it isn't built
if ! command -v python3 >/dev/null 2>&1; then
  echo 'peers: python3 is not installed, and its part was skipped'
  exit 0
fi
timeout 2400 python3 checks/peers.py "${PROGRAM-crates/alternator/out/alternator}"
