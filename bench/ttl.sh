#!/usr/bin/env bash
# What time to live costs, over the built program: the instructions of a put of an item of some 360 bytes into a table with a time to live beside the
# same put into one without; of an ExpireItems that deletes nothing, of one that deletes 25 items beside 25 DeleteItems of them, and of the first one behind
# an opening, in a table of COUNT items. Then bench/expiring.py: the same in seconds, how often such a table is walked while 10,000 of its items expire, and memory.
# Not part of the gate. Usage: bench/ttl.sh [COUNT], 100,000 items unless said.
set -eu
# shellcheck source=bench/lines.sh
. "$(dirname "$0")/lines.sh"
count=${1-100000}
over=$(($(date +%s) - 60))
later=$((over + 31536000))
# The item with the moment at which its time is over.
timed() { printf '%s' "${order%\}},\"until\":{\"N\":\"$1\"}}"; }
live='"TimeToLiveSpecification":{"AttributeName":"until","Enabled":true}'
made() { printf 'CreateTable {"TableName":"%s",%s}\n' "$1" "$ranged"; }
lives() { printf 'UpdateTimeToLive {"TableName":"%s",%s}\n' "$1" "$live"; }
puts() { # TABLE FIRST COUNT UNTIL: a put of each number
  each "$2" "$3" "PutItem {\"TableName\":\"$1\",\"Item\":$(timed "$4")}\n"
}
# What the lines of FILE cost, beyond the opening.
cost() { echo $(($(counted "$out/$1.lines") - opened)); }
ratio() { awk -v a="$1" -v b="$2" 'BEGIN { printf "%.2f", a / b }'; }
: >"$out/none.lines"

{
  made Tab
  made Ttl
  lives Ttl
  puts Tab 0 1000 "$later"
  puts Ttl 0 1000 "$later"
} | filled
opened=$(counted "$out/none.lines")
for first in 1000 0; do
  puts Tab "$first" 100 "$((later + 1))" >"$out/one.lines"
  puts Ttl "$first" 100 "$((later + 1))" >"$out/other.lines"
  one=$(cost one)
  other=$(cost other)
  what=$([ "$first" = 0 ] && echo 'over the items before' || echo 'under new keys')
  echo "100 puts $what: $one instructions; with a time to live: $other, $(ratio "$other" "$one") of them" # at most 1.1 is wanted
done

# 50 items whose time is over, far apart among the others. The first ExpireItems behind an opening makes the list of what is due next by a walk over
# all items; the second deletes by the list, and so do those that find nothing.
apart=$((count / 50))
{
  made Ttl
  lives Ttl
  puts Ttl 0 "$count" "$later"
  seq 0 "$apart" $((49 * apart)) | awk -v line="PutItem {\"TableName\":\"Ttl\",\"Item\":$(timed "$over")}\n" '{ printf line, $1 }'
} | filled
opened=$(counted "$out/none.lines")
seq 0 "$apart" $((24 * apart)) | awk -v line="DeleteItem {\"TableName\":\"Ttl\",\"Key\":$order_key}\n" '{ printf line, $1 }' >"$out/deletes.lines"
for times in 1 2 3 103; do
  for ((i = 0; i < times; i++)); do echo 'ExpireItems {}'; done >"$out/expire$times.lines"
done
deletes=$(cost deletes)
first=$(cost expire1)
second=$(cost expire2)
grep -q -x '200 {"Expired":25}' <(tail -n 1 "$out/said")
third=$(cost expire3)
none=$((($(cost expire103) - third) / 100))
grep -q -x '200 {"Expired":0}' <(tail -n 1 "$out/said")
expire=$((second - first))
echo "an ExpireItems that deletes nothing among $count items: $none instructions"
echo "25 DeleteItems: $deletes instructions; an ExpireItems that deletes 25 among $count items: $expire, $(ratio "$expire" "$deletes") of them" # at most 1.2
echo "the first one behind an opening, which makes the list: $((first - expire)) instructions more, $(((first - expire) / count)) an item"
rm -rf "$out/store" "$out/filled"
python3 bench/expiring.py "$program" "$count"
