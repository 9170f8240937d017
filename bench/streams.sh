#!/usr/bin/env bash
# What streams cost, over the built program: the instructions of a put of an item of 337 bytes into a table with a stream beside the same put into
# one without, under a new key and over the item before; and of a page of 1,000 records beside 1,000 gets of the items that they show, and beside
# pages of a record each. Not part of the gate. Usage: bench/streams.sh
set -eu
# shellcheck source=bench/lines.sh
. "$(dirname "$0")/lines.sh"
puts() { # TABLE FIRST COUNT PAID: a put of each number
  each "$2" "$3" "PutItem {\"TableName\":\"$1\",\"Item\":${order/true/$4}}\n"
}
compared() { # ONE OTHER: what the lines of both files cost
  local one other
  one=$(($(counted "$out/one.lines") - opened))
  other=$(($(counted "$out/other.lines") - opened))
  awk -v a="$one" -v b="$other" -v one="$1" -v other="$2" 'BEGIN { printf "%s: %d instructions; %s: %d, %.2f of them\n", one, a, other, b, b / a }'
}
{
  printf 'CreateTable {"TableName":"Str",%s,"StreamSpecification":{"StreamEnabled":true,"StreamViewType":"NEW_IMAGE"}}\n' "$ranged"
  printf 'CreateTable {"TableName":"Tab",%s}\n' "$ranged"
  puts Str 0 1000 true
  puts Tab 0 1000 true
} | filled
: >"$out/none.lines"
opened=$(counted "$out/none.lines")
puts Tab 1000 100 true >"$out/one.lines"
puts Str 1000 100 true >"$out/other.lines"
compared '100 puts under new keys' 'with a stream' # at most 1.6 is wanted
puts Tab 0 100 false >"$out/one.lines"
puts Str 0 100 false >"$out/other.lines"
compared '100 puts over the items before' 'with a stream' # the same
stream=arn:aws:dynamodb:local:000000000000:table/Str/stream/000000000000000000001
each 0 1000 "GetItem {\"TableName\":\"Str\",\"Key\":$order_key}\n" >"$out/one.lines"
printf 'GetRecords {"ShardIterator":"%s|%021d"}\n' "$stream" 0 >"$out/other.lines"
compared '1,000 gets' 'a page of the 1,000 records' # no more than the gets is wanted
each 3 1000 "GetRecords {\"ShardIterator\":\"$stream|%021d\",\"Limit\":1}\n" >"$out/one.lines"
compared '1,000 pages of a record' 'a page of the 1,000 records'
rm -rf "$out/store" "$out/filled"
