#!/usr/bin/env bash
# What reading lists of items costs, over the built program: the instructions of a Query of 100 items of 337 bytes beside 100 gets of them,
# and of a Query of one item in the middle of 100,000 beside a get there; and the memory that a Scan of 100,000 items in pages of 1 MB adds
# to the store's. Not part of the gate.
# Usage: bench/query.sh [ITEMS], 100000 by default.
set -eu
# shellcheck source=bench/lines.sh
. "$(dirname "$0")/lines.sh"
items=${1:-100000}
orders() { # COUNT: a store with so many items of one HASH value
  { printf 'CreateTable {"TableName":"Tab",%s}\n' "$ranged"; each 0 "$1" "PutItem {\"TableName\":\"Tab\",\"Item\":$order}\n"; } | filled
}
gets() { # FIRST COUNT
  seq "$1" "$(($1 + $2 - 1))" | awk -v line="GetItem {\"TableName\":\"Tab\",\"Key\":$order_key}\n" '{ printf line, $1 }'
}
query() { # REST of the body, which begins with a comma
  printf 'Query {"TableName":"Tab","KeyConditionExpression":"pk = :pk","ExpressionAttributeValues":{":pk":{"S":"customer#0000042"}}%s}\n' "$1"
}
: >"$out/none.lines"
orders 100
gets 0 100 >"$out/gets.lines"
query '' >"$out/query.lines"
opened=$(counted "$out/none.lines")
awk -v a="$(($(counted "$out/gets.lines") - opened))" -v b="$(($(counted "$out/query.lines") - opened))" \
  'BEGIN { printf "100 gets: %d instructions; a query of the 100 items: %d, %.2f of them\n", a, b, b / a }'
orders "$items"
middle=$((items / 2))
gets "$middle" 20 >"$out/gets.lines"
seq "$middle" "$((middle + 19))" | awk -v line="$(query ",\"Limit\":1,\"ExclusiveStartKey\":$order_key")\n" '{ printf line, $1 }' >"$out/query.lines"
opened=$(counted "$out/none.lines")
awk -v a="$(($(counted "$out/gets.lines") - opened))" -v b="$(($(counted "$out/query.lines") - opened))" -v n="$items" \
  'BEGIN { printf "among %d items: a get %d instructions; a query of one item %d, %.2f of it\n", n, a / 20, b / 20, b / a }'
python3 bench/pages.py "$program" "$out/filled" "$flush"
rm -rf "$out/store" "$out/filled"
