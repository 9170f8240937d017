#!/usr/bin/env bash
# Lines a second, memory, and instructions a line of `replay`, over the built program. Not part of the gate.
# Usage: bench/replay.sh [LINES], 200000 by default.
set -eu
cd "$(dirname "$0")/.."
lines=${1:-200000}
out=bench/out
mkdir -p "$out"
create='CreateTable {"TableName":"Tab","KeySchema":[{"AttributeName":"k","KeyType":"HASH"}],"AttributeDefinitions":[{"AttributeName":"k","AttributeType":"S"}]}'
put='PutItem {"TableName":"Tab","Item":{"k":{"S":"a"},"n":{"S":"some text"}}}'
get='GetItem {"TableName":"Tab","Key":{"k":{"S":"a"}}}'
input() { # KIND COUNT
  printf '%s\n%s\n' "$create" "$put"
  yes "${!1}" | head -n "$2"
}
./alternator . 0 >/dev/null 2>&1 || true
program=crates/alternator/out/alternator
# an empty store for the next run
empty() { rm -rf "$out/store" && "$program" "$out/store" 0 init >/dev/null; }
for kind in get put; do
  input "$kind" "$lines" >"$out/$kind.lines"
  start=$(date +%s.%N)
  empty
  "$program" "$out/store" 0 replay 65536 4 <"$out/$kind.lines" >/dev/null
  end=$(date +%s.%N)
  awk -v k="$kind" -v n="$lines" -v a="$start" -v b="$end" 'BEGIN { printf "%s: %d lines in %.2f s, %d lines a second\n", k, n, b - a, n / (b - a) }'
  if command -v /usr/bin/time >/dev/null 2>&1; then
    empty
    /usr/bin/time -f "$kind: %M KB at most" "$program" "$out/store" 0 replay 65536 4 <"$out/$kind.lines" >/dev/null
  fi
  if command -v valgrind >/dev/null 2>&1; then
    for count in 1000 11000; do
      empty
      input "$kind" "$count" | valgrind --tool=callgrind --callgrind-out-file="$out/$kind.$count.callgrind" "$program" "$out/store" 0 replay 65536 4 2>"$out/$kind.$count.err" >/dev/null
    done
    few=$(awk '/Collected/ { print $4 }' "$out/$kind.1000.err")
    many=$(awk '/Collected/ { print $4 }' "$out/$kind.11000.err")
    echo "$kind: $(((many - few) / 10000)) instructions a line"
  fi
done
