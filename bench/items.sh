#!/usr/bin/env bash
# Lines a second, memory, and instructions a line of `replay` for items of 337 bytes of JSON, alone and among 256 tables and 100,000
# items, and for items of 400 KB, over the built program. Not part of the gate. The store lies in memory (/dev/shm), where there is such
# a folder, since on a disk the syncs are what is measured.
# Usage: bench/items.sh [LINES], 100000 by default.
set -eu
cd "$(dirname "$0")/.."
lines=${1:-100000}
out=bench/out
mkdir -p "$out"
work=$(mktemp -d -p "$([ -w /dev/shm ] && echo /dev/shm || echo "$out")")
trap 'rm -rf "$work"' EXIT
store=$work/store
program=${PROGRAM:-crates/alternator/out/alternator}
[ -n "${PROGRAM:-}" ] || ./alternator . 0 >/dev/null 2>&1 || true
# an empty store for the next run
empty() { rm -rf "$store" && "$program" "$store" 0 init >/dev/null; }
create() { # NAME
  printf 'CreateTable {"TableName":"%s","KeySchema":[{"AttributeName":"pk","KeyType":"HASH"}],"AttributeDefinitions":[{"AttributeName":"pk","AttributeType":"S"}]}\n' "$1"
}
put='PutItem {"TableName":"Tab","Item":{"pk":{"S":"customer#%07d"},"sk":{"S":"order#2026-11-27T03:26:31Z"},"total":{"N":"129.95"},"paid":{"BOOL":true},"note":{"S":"leave it at the door, and ring twice"},"tags":{"SS":["gift","priority"]},"lines":{"L":[{"M":{"sku":{"S":"A-1001"},"qty":{"N":"2"}}},{"M":{"sku":{"S":"B-2002"},"qty":{"N":"1"}}}]},"digest":{"B":"AAECAwQFBgc="}}}\n'
get='GetItem {"TableName":"Tab","Key":{"pk":{"S":"customer#%07d"}}}\n'
puts() { # COUNT
  seq 0 "$(($1 - 1))" | awk -v line="$put" '{ printf line, $1 }'
}
gets() { # COUNT, over ITEMS items
  seq 0 "$(($1 - 1))" | awk -v line="$get" -v items="$2" '{ printf line, ($1 * 7919) % items }'
}
tables() { # COUNT
  create Tab
  for i in $(seq 2 "$1"); do create "Table$i"; done
}
timed() { # WHAT LINES FILE
  local start end
  start=$(date +%s.%N)
  empty
  "$program" "$store" 0 replay 65536 4 <"$3" >/dev/null
  end=$(date +%s.%N)
  awk -v k="$1" -v n="$2" -v a="$start" -v b="$end" 'BEGIN { printf "%s: %d lines in %.2f s, %d lines a second\n", k, n, b - a, n / (b - a) }'
  if [ -x /usr/bin/time ]; then empty; /usr/bin/time -f "$1: %M KB at most" "$program" "$store" 0 replay 65536 4 <"$3" >/dev/null; fi
}
counted() { # FILE; nothing is flushed, since what is counted are the requests
  empty
  valgrind --tool=callgrind --callgrind-out-file="$out/counted.callgrind" "$program" "$store" 0 replay 1073741824 4 <"$1" 2>&1 >/dev/null | awk '/Collected/ { print $4 }'
}
{ tables 1; puts "$lines"; } >"$out/puts.lines"
timed "put 337 bytes under a new key" "$lines" "$out/puts.lines"
# the same key each time, and another total
{ tables 1; seq "$lines" | awk -v line="$put" '{ text = line; sub(/%07d/, "0000042", text); sub(/129.95/, $1 ".95", text); printf text }'; } >"$out/overs.lines"
timed "put 337 bytes over the one before" "$lines" "$out/overs.lines"
{ tables 1; puts 1; gets "$lines" 1; } >"$out/gets.lines"
timed "get 337 bytes" "$lines" "$out/gets.lines"
large() { # COUNT
  local text
  text=$(head -c 409000 /dev/zero | tr '\0' x)
  create Tab
  for i in $(seq "$1"); do
    printf 'PutItem {"TableName":"Tab","Item":{"pk":{"S":"a"},"text":{"S":"%s"},"n":{"N":"%d"}}}\n' "$text" "$i"
    printf 'GetItem {"TableName":"Tab","Key":{"pk":{"S":"a"}}}\n'
  done
}
large 50 >"$out/large.lines"
timed "put and get 400 KB" 100 "$out/large.lines"
processor() { # FILE, seconds of the processor
  local TIMEFORMAT=%U
  empty
  { time "$program" "$store" 0 replay 65536 4 <"$1" >/dev/null; } 2>&1
}
for size in "1 1" "256 100000"; do
  read -r count items <<<"$size"
  { tables "$count"; puts "$items"; } >"$out/store.lines"
  { cat "$out/store.lines"; gets "$lines" "$items"; } >"$out/store-gets.lines"
  awk -v a="$(processor "$out/store.lines")" -v b="$(processor "$out/store-gets.lines")" -v n="$lines" -v t="$count" -v i="$items" \
    'BEGIN { printf "among %d tables and %d items: a get takes %.2f microseconds of the processor\n", t, i, (b - a) * 1000000 / n }'
done
if command -v valgrind >/dev/null 2>&1; then
  { tables 1; puts 1; gets 100 1; } >"$out/few.lines"
  { tables 1; puts 1; gets 1100 1; } >"$out/many.lines"
  echo "get 337 bytes: $((($(counted "$out/many.lines") - $(counted "$out/few.lines")) / 1000)) instructions a line"
  { tables 1; puts 100; } >"$out/few.lines"
  { tables 1; puts 1100; } >"$out/many.lines"
  echo "put 337 bytes: $((($(counted "$out/many.lines") - $(counted "$out/few.lines")) / 1000)) instructions a line"
fi
