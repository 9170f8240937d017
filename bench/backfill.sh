#!/usr/bin/env bash
# What an index costs that comes to a table in use, over the built program: the instructions of a request behind which an index is built further, of items of
# some 360 bytes and of 40 KB, beside the same request where none is being built; of building an index of COUNT items beside putting them into a table that
# has it, and the processor's seconds of the same for 100,000 items; and the instructions of a put where nothing is built, beside the same by another program,
# where BESIDE=path names one. Not part of the gate. Usage: bench/backfill.sh [COUNT], 5,000 items unless said.
set -eu
# shellcheck source=bench/lines.sh
. "$(dirname "$0")/lines.sh"
count=${1-5000}
many=100000
ask='ListTables {"Limit":1}'
look='Scan {"TableName":"Tab","IndexName":"ByNote","Select":"COUNT","Limit":1}'
note='{"AttributeName":"note","AttributeType":"S"}'
index='"IndexName":"ByNote","KeySchema":[{"AttributeName":"note","KeyType":"HASH"},{"AttributeName":"sk","KeyType":"RANGE"}],"Projection":{"ProjectionType":"KEYS_ONLY"}'
add="UpdateTable {\"TableName\":\"Tab\",\"AttributeDefinitions\":[$note],\"GlobalSecondaryIndexUpdates\":[{\"Create\":{$index}}]}"
made() { printf 'CreateTable {"TableName":"Tab",%s}\n' "$ranged"; }
made_with() { # the table with the index from its first item on
  printf 'CreateTable {"TableName":"Tab",%s,%s],"GlobalSecondaryIndexes":[{%s}]}\n' "${ranged%]}" "$note" "$index"
}
puts() { # FIRST COUNT ITEM: a put of each number
  each "$1" "$2" "PutItem {\"TableName\":\"Tab\",\"Item\":$3}\n"
}
asks() { for ((i = 0; i < $1; i++)); do echo "$ask"; done; }
# The lines by which an index of so many items is built, and a look at it that is refused where it isn't whole then.
built() { echo "$add"; asks $((($1 + 63) / 64 - 1)); echo "$look"; }
whole() { grep -q '^200 {"Count":1' <(tail -n 1 "$out/said"); }
: >"$out/none.lines"
# What the lines of standard input cost, beyond those of FILE. Their replies stand in $out/said.
cost() {
  local before
  cat >"$out/cost.lines"
  before=$(counted "$out/$1.lines")
  echo $(($(counted "$out/cost.lines") - before))
}
# The processor's seconds of the lines of a file over the store that they begin with, without the system's.
seconds() {
  local TIMEFORMAT=%U
  rm -rf "$out/store"
  cp -r "$out/filled" "$out/store"
  { time "$program" "$out/store" 0 replay "$flush" 4 <"$1" >"$out/said"; } 2>&1
}
ratio() { awk -v a="$1" -v b="$2" 'BEGIN { printf "%.3f", a / b }'; }

building() { # WHAT ITEM COUNT: what a request costs while an index of such items is built
  local steps=$((($3 - 1) / 64)) plain with
  { made; puts 0 "$3" "$2"; } | filled
  echo "$add" >"$out/add.lines"
  plain=$(asks "$steps" | cost none)
  with=$({ echo "$add"; asks "$steps"; } | cost add)
  echo "a request: $((plain / steps)) instructions; while an index of items of $1 is built: $((with / steps)), $(((with - plain) / steps / 64)) more for each of 64 items"
}
building '360 bytes' "$order" 1280
building '40 KB' "${order%\}},\"long\":{\"S\":\"$(printf '%.0sx' {1..40000})\"}}" 640

made_with | filled
with=$(puts 0 "$count" "$order" | cost none)
made | filled
without=$(puts 0 "$count" "$order" | cost none)
{ made; puts 0 "$count" "$order"; } | filled
coming=$(built "$count" | cost none)
whole
echo "a put into a table with an index: $((with / count)) instructions; without: $((without / count)); an index of $count items built: $((coming / count)) each, $(ratio "$coming" "$with") of the puts with it" # at most 1.5
echo "with the puts without it: $(ratio $((coming + without)) "$with")"

# Where there is a C compiler nothing is synced here.
own=$program
if command -v cc >/dev/null 2>&1; then
  cc -shared -fPIC -o "$out/nosync.so" bench/nosync.c
  printf '#!/bin/sh\nLD_PRELOAD="%s" exec "%s" "$@"\n' "$PWD/$out/nosync.so" "$own" >"$out/unsynced"
  chmod +x "$out/unsynced"
  program=$out/unsynced
fi
puts 0 "$many" "$order" >"$out/puts.lines"
made_with | filled
with=$(seconds "$out/puts.lines")
{ made; puts 0 "$many" "$order"; } | filled
opening=$(seconds "$out/none.lines")
built "$many" >"$out/built.lines"
coming=$(seconds "$out/built.lines")
whole
awk -v n="$many" -v w="$with" -v o="$opening" -v c="$coming" 'BEGIN { printf "%d items put into a table with the index: %.2f seconds; the index built of them: %.2f beyond the opening, %.2f of that\n", n, w, c - o, (c - o) / w }'
program=$own

put="PutItem {\"TableName\":\"Tab\",$item}"
echo "$create" | filled
one=$(measured "$put")
echo "a put where nothing is built: $one instructions"
if [ -n "${BESIDE:-}" ]; then
  program=$BESIDE
  echo "$create" | filled
  other=$(measured "$put")
  echo "the same by $BESIDE: $other, of which that is $(ratio "$one" "$other")" # at most 1.01
fi
rm -rf "$out/store" "$out/filled"
