#!/usr/bin/env bash
# What indexes cost, over the built program: the instructions of a put that changes nothing of what 20 global indexes keep, beside the same put on a table
# without indexes; of one that changes the row of one index, and of one that moves it, beside two puts without; of a Query of an index beside
# one of the table; and of opening a store with one index beside one without. Not part of the gate.
# Usage: bench/indexes.sh [ITEMS], 4000 by default: how many items the stores have that are opened.
set -eu
# shellcheck source=bench/lines.sh
. "$(dirname "$0")/lines.sh"
items=${1:-4000}
lines=100
keys='"KeySchema":[{"AttributeName":"pk","KeyType":"HASH"},{"AttributeName":"sk","KeyType":"RANGE"}]'
kinds='{"AttributeName":"pk","AttributeType":"S"},{"AttributeName":"sk","AttributeType":"S"}'
item='"pk":{"S":"customer#0000042"},"sk":{"S":"order#2026-11-27T03:26:31Z#%07d"},"paid":{"BOOL":true},"note":{"S":"leave it at the door, and ring"},"tags":{"SS":["gift","priority"]},"lines":{"L":[{"M":{"sku":{"S":"A-1001"},"qty":{"N":"2"}}},{"M":{"sku":{"S":"B-2002"},"qty":{"N":"1"}}}]},"digest":{"B":"AAECAwQFBgc="}'
plain="CreateTable {\"TableName\":\"Tab\",$keys,\"AttributeDefinitions\":[$kinds]}"
table() { # COUNT PROJECTION: one with so many global indexes, on g0 and so on, by total beneath
  local n defined='' indexes=''
  for ((n = 0; n < $1; n++)); do
    defined+=",{\"AttributeName\":\"g$n\",\"AttributeType\":\"S\"}"
    indexes+=",{\"IndexName\":\"By-$n\",\"KeySchema\":[{\"AttributeName\":\"g$n\",\"KeyType\":\"HASH\"},{\"AttributeName\":\"sk\",\"KeyType\":\"RANGE\"}],\"Projection\":{\"ProjectionType\":\"$2\"}}"
  done
  printf 'CreateTable {"TableName":"Tab",%s,"AttributeDefinitions":[%s%s],"GlobalSecondaryIndexes":[%s]}\n' "$keys" "$kinds" "$defined" "${indexes#,}"
}
grouped() { # COUNT VALUE: the keys of so many indexes
  local n
  for ((n = 0; n < $1; n++)); do printf ',"g%d":{"S":"%s"}' "$n" "$2"; done
}
put() { # MEMBERS: the line of a put, with %07d for the number
  printf 'PutItem {"TableName":"Tab","Item":{%s%s}}\\n' "$item" "$1"
}
filled_with() { # CREATE: a store with that table and the items of standard input
  { printf '%s
' "$1"; cat; } | filled
}
# One item is put over and over, with two values in turn, so that each put is a write.
changed() { # CREATE MEMBERS MEMBERS: the instructions of such a put
  each 7 1 "$(put "$2")" | filled_with "$1"
  seq "$lines" | awk -v a="$(put "$3")" -v b="$(put "$2")" '{ printf (NR % 2 ? a : b), 7 }' >"$out/puts.lines"
  echo "$((($(counted "$out/puts.lines") - $(counted "$out/none.lines")) / lines))"
}
told() { # WHAT COUNT BESIDE COUNT
  awk -v what="$1" -v a="$2" -v beside="$3" -v b="$4" 'BEGIN { printf "%s: %d instructions; %s: %d, %.2f\n", what, a, beside, b, a / b }'
}
: >"$out/none.lines"
one=',"total":{"N":"129.95"}'
two=',"total":{"N":"7"}'
all=$(grouped 20 group)
without=$(changed "$plain" "$all$one" "$all$two")
told 'a put of an item that 20 indexes have, which changes what none keeps' "$(changed "$(table 20 KEYS_ONLY)" "$all$one" "$all$two")" 'without indexes' "$without"
short=$(changed "$plain" "$one" "$two")
told 'a put of an item that none of 20 indexes has' "$(changed "$(table 20 KEYS_ONLY)" "$one" "$two")" 'without indexes' "$short"
group=$(grouped 1 group)
other=$(grouped 1 other)
single=$(changed "$plain" "$group$one" "$group$two")
told 'a put that changes the row of one index' "$(changed "$(table 1 ALL)" "$group$one" "$group$two")" 'two puts without indexes' "$((2 * single))"
told 'a put that moves the row of one index' "$(changed "$(table 1 ALL)" "$group$one" "$other$one")" 'two puts without indexes' "$((2 * $(changed "$plain" "$group$one" "$other$one")))"
# a Query of 100 items, in the table and in an index that keeps all
each 0 100 "$(put "$group$one")" | filled_with "$(table 1 ALL)"
opened=$(counted "$out/none.lines")
asked() { # INDEX KEY VALUE
  printf 'Query {"TableName":"Tab",%s"KeyConditionExpression":"%s = :v","ExpressionAttributeValues":{":v":{"S":"%s"}}}\n' "$1" "$2" "$3"
}
asked '' pk 'customer#0000042' >"$out/table.lines"
asked '"IndexName":"By-0",' g0 group >"$out/index.lines"
told 'a Query of 100 items in an index' "$(($(counted "$out/index.lines") - opened))" 'in the table' "$(($(counted "$out/table.lines") - opened))"
# opening
each 0 "$items" "$(put "$group$one")" | filled_with "$plain"
opened=$(counted "$out/none.lines")
each 0 "$items" "$(put "$group$one")" | filled_with "$(table 1 ALL)"
told "to open a store of $items items with an index that keeps all" "$(counted "$out/none.lines")" 'without indexes' "$opened"
rm -rf "$out/store" "$out/filled"
