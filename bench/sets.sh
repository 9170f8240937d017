#!/usr/bin/env bash
# Instructions of an ADD of a set of 10,000 texts of three bytes to another such set, and of a DELETE of it, and of the same of 100,000
# texts: ten times as many should cost little more than ten times as much. The two sets lie between one another and have 7 in 10 of their
# members in common, so that each walk goes through both. A line's JSON is read and the sets that it states are sorted, and the item that
# is made goes to the log. Over the built program. Not part of the gate.
# Usage: bench/sets.sh
set -eu
cd "$(dirname "$0")/.."
out=bench/out
mkdir -p "$out"
program=${PROGRAM:-crates/alternator/out/alternator}
[ -n "${PROGRAM:-}" ] || ./alternator . 0 >/dev/null 2>&1 || true
# an empty store for the next run
empty() { rm -rf "$out/store" && "$program" "$out/store" 0 init >/dev/null; }
# of 13 texts in a row the first 10 or the last 10, up to so many
texts() { # COUNT FIRST
  awk -v count="$1" -v first="$2" 'BEGIN {
    letters = "0123456789ABCDEFGHIJKLMNOPQRSTUVWXYZabcdefghijklmnopqrstuvwxyz-_"
    for (n = 0; found < count; n++) {
      if (n % 13 < first || n % 13 >= first + 10) continue
      printf "%s\"%s%s%s\"", found++ ? "," : "", substr(letters, int(n / 4096) + 1, 1), substr(letters, int(n / 64) % 64 + 1, 1), substr(letters, n % 64 + 1, 1)
    }
  }'
}
lines() { # COUNT WORD: makes an item with the first set, and carries out ADD or DELETE of the second one, or none
  printf 'CreateTable {"TableName":"Tab","KeySchema":[{"AttributeName":"k","KeyType":"HASH"}],"AttributeDefinitions":[{"AttributeName":"k","AttributeType":"S"}]}\n'
  printf 'PutItem {"TableName":"Tab","Item":{"k":{"S":"a"},"s":{"SS":[%s]}}}\n' "$(texts "$1" 0)"
  [ -z "$2" ] || printf 'UpdateItem {"TableName":"Tab","Key":{"k":{"S":"a"}},"UpdateExpression":"%s s :s","ExpressionAttributeValues":{":s":{"SS":[%s]}}}\n' "$2" "$(texts "$1" 3)"
}
counted() { # COUNT WORD
  lines "$1" "$2" >"$out/sets.lines"
  empty
  valgrind --tool=callgrind --callgrind-out-file=/dev/null "$program" "$out/store" 0 replay 65536 4 <"$out/sets.lines" 2>"$out/err" >"$out/replies"
  if grep -qv '^200 ' "$out/replies"; then
    echo "bench/sets.sh: a line was refused" >&2
    exit 1
  fi
  awk '/Collected/ { print $4 }' "$out/err"
}
few_put=$(counted 10000 "")
many_put=$(counted 100000 "")
for word in ADD DELETE; do
  few=$(counted 10000 "$word")
  many=$(counted 100000 "$word")
  awk -v word="$word" -v few="$((few - few_put))" -v many="$((many - many_put))" 'BEGIN {
    printf "%s of 10,000 texts: %d instructions; of 100,000: %d, %.2f times as many a text\n", word, few, many, many / few / 10 }'
done
rm -rf "$out/store" "$out/sets.lines" "$out/replies"
