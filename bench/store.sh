#!/usr/bin/env bash
# A store on a real folder, over the built program: puts of 200 bytes beside a loop that makes the same two writes and two syncs for each,
# gets, the time and the memory of opening a store of many items beside reading its file, and both for stores of several sizes.
# Not part of the gate. Usage: bench/store.sh [FOLDER], where the store is laid; a folder of its own by default.
set -eu
cd "$(dirname "$0")/.."
work=$(mktemp -d "${1:-/tmp}/store.XXXXXX")
trap 'rm -rf "$work"' EXIT
program=${PROGRAM:-crates/alternator/out/alternator}
[ -n "${PROGRAM:-}" ] || ./alternator . 0 >/dev/null 2>&1 || true
create='CreateTable {"TableName":"Tab","KeySchema":[{"AttributeName":"pk","KeyType":"HASH"}],"AttributeDefinitions":[{"AttributeName":"pk","AttributeType":"S"}]}'
item='"pk":{"S":"customer#%07d"},"total":{"N":"129.95"},"paid":{"BOOL":true},"note":{"S":"leave it at the door, and ring twice"},"sku":{"S":"A-1001"},"digest":{"B":"AAECAwQFBgc="}'
lines() { seq "$2" "$(($2 + $3 - 1))" | awk -v line="$1" '{ printf line "\n", $1 }'; }
puts() { lines "PutItem {\"TableName\":\"Tab\",\"Item\":{$item}}" 0 "$1"; }
gets() { lines 'GetItem {"TableName":"Tab","Key":{"pk":{"S":"customer#%07d"}}}' 0 "$1"; }
seconds() { # COMMAND..
  local start end
  start=$(date +%s.%N)
  "$@"
  end=$(date +%s.%N)
  awk -v a="$start" -v b="$end" 'BEGIN { printf "%.3f", b - a }'
}
replayed() { "$program" "$work/$1" 0 replay 65536 4 <"$2" >/dev/null; }
made() { "$program" "$work/$1" 0 init >/dev/null; printf '%s\n' "$create" >"$work/create"; replayed "$1" "$work/create"; }

# puts, each two writes and two syncs
made puts
before=$(stat -c %s "$work/puts/00000002.alt")
puts 2000 >"$work/lines"
ours=$(seconds replayed puts "$work/lines")
each=$((($(stat -c %s "$work/puts/00000002.alt") - before) / 2000))
plain=$(seconds python3 bench/synced.py "$work/plain" 2000 "$each")
awk -v a="$ours" -v b="$plain" -v n="$each" 'BEGIN { printf "2,000 puts of %d bytes in the log: %.2f s; the same writes and syncs alone: %.2f s; %.2f times\n", n, a, b, a / b }'

# stores of several sizes, laid with syncs that do nothing, where a C compiler is there to make them
nosync=
if command -v cc >/dev/null 2>&1; then cc -shared -fPIC -o "$work/nosync.so" bench/nosync.c && nosync=$work/nosync.so; fi
for count in 10000 100000 300000; do
  made "of$count"
  puts "$count" >"$work/lines"
  LD_PRELOAD=$nosync replayed "of$count" "$work/lines"
  : >"$work/none"
  opened=$(seconds replayed "of$count" "$work/none")
  read=$(seconds sh -c "cat '$work/of$count/00000002.alt' >/dev/null")
  gets 20000 >"$work/lines"
  got=$(seconds replayed "of$count" "$work/lines")
  awk -v c="$count" -v o="$opened" -v r="$read" -v g="$got" 'BEGIN {
    printf "%d items: opened in %.2f s (its file is read in %.3f s), a get takes %.1f microseconds\n", c, o, r, (g - o) * 1000000 / 20000 }'
  if [ -x /usr/bin/time ]; then /usr/bin/time -f "$count items: %M KB at most" "$program" "$work/of$count" 0 replay 65536 4 <"$work/none"; fi
  rm -rf "$work/of$count"
done
