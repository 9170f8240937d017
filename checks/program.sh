#!/usr/bin/env bash
# What no contract says of the program: its first words, its status, its notes on standard error, a closed stream. And rows of
# requests with the replies that are wanted, through the real streams.
set -u
cd "$(dirname "$0")/.."
passed=0
failed=0
request='Fly {}'
work=$(mktemp -d)
trap 'rm -rf "$work"' EXIT
store=$work/store
# Where it isn't built yet, it is built here, and says so.
./alternator "$store" 0 init >/dev/null
# expect NAME STATUS NOTE COMMAND..
expect() {
  local name=$1 status=$2 note=$3 got noted
  shift 3
  noted=$(printf '%s\n' "$request" | "$@" 2>&1 >/dev/null)
  got=$?
  # Behind a note on its words the script says how it is used.
  [ "$got" != 1 ] || noted=${noted%%$'\n'*}
  if [ "$got" = "$status" ] && [ "$noted" = "$note" ]; then
    passed=$((passed + 1))
  else
    failed=$((failed + 1))
    echo "$name: status $got and note '$noted', not $status and '$note'"
  fi
}
closed() { ./alternator "$store" 0 replay 65536 4 >&-; }
expect 'a whole run' 0 '' ./alternator "$store" 0 replay 65536 4
expect 'no words' 1 'alternator: words' ./alternator
expect 'no port' 1 'alternator: words' ./alternator .
expect 'a port too great' 1 'alternator: words' ./alternator . 65536 replay 65536 4
expect 'a port with a leading zero' 1 'alternator: words' ./alternator . 00 replay 65536 4
expect 'a flush too small' 1 'alternator: words' ./alternator . 0 replay 65535 4
expect 'a merge too great' 1 'alternator: words' ./alternator . 0 replay 65536 65
expect 'a word more' 1 'alternator: words' ./alternator . 0 replay 65536 4 4
expect 'serving without a port' 0 '' ./alternator "$store" 0 serve 1 1 65536 4
expect 'no request on a connection' 1 'alternator: words' ./alternator . 0 serve 0 1 65536 4
expect 'no connection' 1 'alternator: words' ./alternator . 0 serve 1 0 65536 4
expect 'too many connections' 1 'alternator: words' ./alternator . 0 serve 1 4294967296 65536 4
expect 'another command' 1 'alternator: words' ./alternator . 0 tryout 1 1 65536 4
expect 'no request of a trial' 1 'alternator: words' ./alternator . 0 trial 1 0 65536 4
expect 'too many requests of a trial' 1 'alternator: words' ./alternator . 0 trial 1 1000001 65536 4
expect 'a seed too great' 1 'alternator: words' ./alternator . 0 trial 18446744073709551616 1 65536 4
expect 'a seed with a leading zero' 1 'alternator: words' ./alternator . 0 trial 07 1 65536 4
expect 'a trial without a merge' 1 'alternator: words' ./alternator . 0 trial 1 1 65536
expect 'a word behind init' 1 'alternator: words' ./alternator "$work/other" 0 init 65536
[ ! -e "$work/other" ] && passed=$((passed + 1)) || { failed=$((failed + 1)); echo 'wrong words made a folder'; }
expect 'a closed standard output' 4 'alternator: device' closed

# ---- stores: one that is there, one that isn't, and bytes that are none

# says NAME STATUS WANTED COMMAND..: what it says on standard output, to no input
says() {
  local name=$1 status=$2 wanted=$3 got said
  shift 3
  said=$("$@" </dev/null 2>/dev/null)
  got=$?
  if [ "$got" = "$status" ] && [ "$said" = "$wanted" ]; then
    passed=$((passed + 1))
  else
    failed=$((failed + 1))
    echo "$name: status $got and '$said', not $status and '$wanted'"
  fi
}
says 'a store is made' 0 ok ./alternator "$work/made" 0 init
expect 'and not made again' 2 'alternator: store not empty: file 1' ./alternator "$work/made" 0 init
mkdir "$work/part" && : >"$work/part/0000001f.alt" && : >"$work/part/1f.alt" && : >"$work/part/notes"
expect 'where another file of a store is' 2 'alternator: store not empty: file 31' ./alternator "$work/part" 0 init
rm "$work/part/0000001f.alt"
says 'other names are passed over' 0 ok ./alternator "$work/part" 0 init
[ "$(cat "$work/made/"*.alt | od -An -tx1 | tr -d ' \n')" = 414c544c4f473031010000000000000020000000030000000000000001000000000000000100000002000000000000000000414c544c4f47303200 ] \
  && passed=$((passed + 1)) || { failed=$((failed + 1)); echo 'the bytes of an empty store'; }

# ---- closed standard streams: no file of a store comes into the place of one, so nothing is said or noted into it

printf '%s\n' "PutItem $(printf '{"TableName":"Tab","Item":{"k":{"S":"a"}}}')" >"$work/put"
mkdir "$work/tabled"
./alternator "$work/tabled" 0 init >/dev/null
printf '%s\n' 'CreateTable {"TableName":"Tab","KeySchema":[{"AttributeName":"k","KeyType":"HASH"}],"AttributeDefinitions":[{"AttributeName":"k","AttributeType":"S"}]}' \
  | ./alternator "$work/tabled" 0 replay 65536 4 >/dev/null
cp -r "$work/tabled" "$work/crooked"
printf 'ALTLOG03\0' | dd of="$work/crooked/00000002.alt" conv=notrunc 2>/dev/null
# without STREAMS COMMAND..: runs it without these standard streams, some of the digits 0, 1 and 2
without() {
  local streams=$1
  shift
  (
    exec <"$work/put" >"$work/said" 2>"$work/noted"
    [ "${streams/0/}" = "$streams" ] || exec <&-
    [ "${streams/1/}" = "$streams" ] || exec >&-
    [ "${streams/2/}" = "$streams" ] || exec 2>&-
    exec "$@"
  )
}
# closes NAME STATUS BEFORE AFTER LISTED SCANNED WORD..: how a run with these words ends over a copy of the store BEFORE. It leaves what AFTER
# has, byte for byte, or, where AFTER is -, a store that is opened and lists and scans so.
closes() {
  local name="$1, $program without $streams" status=$2 before=$3 after=$4 wanted="200 {\"TableNames\":[$5]}
200 $6" got left
  shift 6
  rm -rf "$work/closed"
  [ "$before" = - ] || cp -r "$work/$before" "$work/closed"
  without "$streams" "$program" "$work/closed" "$@"
  got=$?
  if [ "$after" = - ]; then
    left=$(printf '%s\n' 'ListTables {}' 'Scan {"TableName":"Tab"}' | ./alternator "$work/closed" 0 replay 65536 4 2>&1)
    [ "$left" = "$wanted" ]
  else
    left=$(diff -rq "$work/$after" "$work/closed" 2>&1)
  fi
  if [ $? = 0 ] && [ "$got" = "$status" ]; then
    passed=$((passed + 1))
  else
    failed=$((failed + 1))
    echo "$name: status $got and '$left', not $status"
  fi
}
empty='{"Count":0,"Items":[],"ScannedCount":0}'
one='{"Count":1,"Items":[{"k":{"S":"a"}}],"ScannedCount":1}'
for program in ./alternator crates/alternator/out/alternator; do
  for streams in 0 1 2 01 02 12 012; do
    taken=0 said=0 items=$one
    [ "${streams/0/}" = "$streams" ] || taken=4 items=$empty
    [ "${streams/1/}" = "$streams" ] || said=4
    closes init "$said" - made '' '' 0 init
    closes 'init over a store' 2 tabled tabled '' '' 0 init
    closes replay $((taken | said)) tabled - '"Tab"' "$items" 0 replay 65536 4
    closes serve 0 tabled tabled '' '' 0 serve 1 1 65536 4
    closes 'serve over no store' 3 crooked crooked '' '' 0 serve 1 1 65536 4
    closes trial "$said" tabled - '"Tab","Trial"' "$empty" 0 trial 7 1 65536 4
    closes 'wrong words' 1 tabled tabled '' '' 0 replay 65535 4
  done
done
expect 'a word that is no text' 1 'alternator: words' ./alternator "$store" 0 $'\xff'
expect 'a folder whose name is no text' 1 'alternator: words' ./alternator $'/\xff' 0 init

# ---- trials, each over a store of its own

# tried FLUSH WORD..: what a trial with these words, and that FLUSH, says over a fresh store
tried() {
  local flush=$1
  shift
  rm -rf "$work/trial"
  ./alternator "$work/trial" 0 init >/dev/null
  ./alternator "$work/trial" 0 trial "$@" "$flush" 4 </dev/null
}
# sums NAME COUNT FLUSH WORD..: that it ends with 0 and says four lines whose second and third count up to COUNT, and the same with that FLUSH
sums() {
  local name=$1 count=$2 flush=$3 first second got
  shift 3
  first=$(tried 65536 "$@")
  got=$?
  second=$(tried "$flush" "$@")
  if [ "$got$?" = 00 ] && [ "$first" = "$second" ] && printf '%s\n' "$first" | awk -v count="$count" '
    NR == 1 { good = $0 == "requests " count }
    NR == 2 { good = good && $1 == "200"; sum = $2 }
    NR == 3 { good = good && $1 == "400" && sum + $2 == count }
    NR == 4 { good = good && $0 ~ /^replies [0-9a-f]+$/ && length($2) == 64 }
    END { exit !(good && NR == 4) }'; then
    passed=$((passed + 1))
  else
    failed=$((failed + 1))
    echo "$name: status $got and '$first', and then '$second'"
  fi
}
sums 'a trial' 200 1073741824 7 200
sums 'the greatest seed' 1 65536 18446744073709551615 1
# The digest is that of what replay says to one request, whose reply has no moment in it.
printf '%s\n' 'CreateTable {"AttributeDefinitions":[{"AttributeName":"k","AttributeType":"S"}],"KeySchema":[{"AttributeName":"k","KeyType":"HASH"}],"TableName":"Trial"}' \
  | ./alternator "$store" 0 replay 65536 4 >/dev/null
printf '%s\n' 'CreateTable {"AttributeDefinitions":[{"AttributeName":"g","AttributeType":"S"},{"AttributeName":"k","AttributeType":"S"},{"AttributeName":"r","AttributeType":"N"}],"GlobalSecondaryIndexes":[{"IndexName":"Gix","KeySchema":[{"AttributeName":"g","KeyType":"HASH"}],"Projection":{"ProjectionType":"KEYS_ONLY"}}],"KeySchema":[{"AttributeName":"k","KeyType":"HASH"},{"AttributeName":"r","KeyType":"RANGE"}],"StreamSpecification":{"StreamEnabled":true,"StreamViewType":"NEW_AND_OLD_IMAGES"},"TableName":"Trial"}' \
  | ./alternator "$store" 0 replay 65536 4 >"$work/refused"
says 'a trial over a store that has its table' 0 "requests 1
200 0
400 1
replies $(sha256sum <"$work/refused" | cut -d' ' -f1)" ./alternator "$store" 0 trial 7 1 65536 4
rm -rf "$store"
./alternator "$store" 0 init >/dev/null

mkdir "$work/none"
expect 'no store' 3 'alternator: damaged: file 1 at 0' ./alternator "$work/none" 0 replay 65536 4
# spoilt NAME NOTE FILE BYTES: a store in which the file has these bytes
spoilt() {
  rm -rf "$work/spoilt"
  cp -r "$work/made" "$work/spoilt"
  printf "$4" >"$work/spoilt/$3"
  expect "$1" 3 "$2" ./alternator "$work/spoilt" 0 replay 65536 4
}
spoilt 'a log without its header' 'alternator: damaged: file 2 at 0' 00000002.alt 'ALTLOG03\0'
spoilt 'a log without an end' 'alternator: damaged: file 2 at 8' 00000002.alt 'ALTLOG01'
spoilt 'an entry past the end' 'alternator: damaged: file 2 at 8' 00000002.alt 'ALTLOG01\1\0\0\0\0\0\0\0\5\0'
spoilt 'an entry that is no write' 'alternator: damaged: file 2 at 8' 00000002.alt 'ALTLOG01\1\0\0\0\0\0\0\0\0\0'
spoilt 'a group of no write' 'alternator: damaged: file 2 at 8' 00000002.alt 'ALTLOG02\1\0\0\0\0\0\0\0\10\0\0\0\0\0\0\0\0\0'
spoilt 'versions of the second form' 'alternator: damaged: file 1 at 0' 00000001.alt 'ALTLOG02\0'
spoilt 'a version of an empty log' 'alternator: damaged: file 1 at 8' 00000001.alt 'ALTLOG01\0'
# gated HEX..: these entries behind open gates, as printf takes them
gated() {
  local entry
  for entry in "$@"; do printf '01%016x%s' $((${#entry} / 2)) "$entry"; done | sed 's/../\\x&/g'
}
# group HEX..: a group of these writes
group() {
  printf '%016x' $#
  printf '%s' "$@"
}
# logged FORM NAME NOTE HEX..: a store whose log of that form has these entries
logged() {
  local name="$2, form $1" note=$3 log=ALTLOG0$1
  shift 3
  spoilt "$name" "$note" 00000002.alt "$log$(gated "$@")\\0"
}
# written NUMBER FAMILY KEY COLUMN VALUE: a write of a row with one column, in hexadecimal
field() { printf '%016x%s' $((${#1} / 2)) "$1"; }
written() { printf '%016x%016x%08x%s01%016x%s01%s' "$1" 1 "$2" "$(field "$3")" 1 "$(field "$4")" "$(field "$5")"; }
# one HEX: the same write as an entry of the first form, and then as one of the second
one() { printf %s "$1"; }
for form in 1 2; do
  [ $form = 1 ] || one() { group "$1"; }
  logged $form 'an entry with a byte more' 'alternator: damaged: file 2 at 8' "$(one "$(written 1 1 61 62 63)")00"
  logged $form 'an entry whose number does not rise' "alternator: damaged: file 2 at $((66 + 8 * form))" "$(one "$(written 2 0 61 62 63)")" "$(one "$(written 2 0 61 62 63)")"
  logged $form 'a description that is none' 'alternator: row: family 0 key 546162' "$(one "$(written 1 0 546162 78 79)")"
  logged $form 'a row that no table has' 'alternator: row: family 1 key 61' "$(one "$(written 1 1 61 62 63)")"
  logged $form 'the first of two wrong rows' 'alternator: row: family 0 key 61' "$(one "$(written 1 1 61 62 63)")" "$(one "$(written 2 0 61 62 63)")"
  logged $form 'a next family that is none' 'alternator: row: family 0 key ' "$(one "$(written 1 0 '' 6e657874 00)")"
done
logged 1 'a group, where one write is wanted' 'alternator: damaged: file 2 at 8' "$(group "$(written 1 1 61 62 63)")"
logged 2 'a write, where a group is wanted' 'alternator: damaged: file 2 at 8' "$(written 1 1 61 62 63)"
logged 2 'a group with a write less than it tells' 'alternator: damaged: file 2 at 8' "$(group "$(written 1 1 61 62 63)" '')"
logged 2 'a group with a write more' 'alternator: damaged: file 2 at 8' "$(group "$(written 1 1 61 62 63)$(written 2 1 61 62 63)")"
logged 2 'a group whose numbers do not rise' 'alternator: damaged: file 2 at 8' "$(group "$(written 2 1 61 62 63)" "$(written 2 1 61 62 63)")"
logged 2 'a group below the last number of the one before' 'alternator: damaged: file 2 at 139' "$(group "$(written 1 1 61 62 63)" "$(written 5 1 61 62 63)")" "$(group "$(written 4 1 61 62 63)")"
logged 2 'a wrong row in the second write of a group' 'alternator: row: family 0 key 61' "$(group "$(written 1 1 61 62 63)" "$(written 2 0 61 62 63)")"
# a store whose table, of family 1, has one item, which its index, of family 2, has too
mkdir "$work/indexed"
says 'a store is made for an index' 0 ok ./alternator "$work/indexed" 0 init
indexed='CreateTable {"TableName":"Tab","KeySchema":[{"AttributeName":"k","KeyType":"HASH"}],"AttributeDefinitions":[{"AttributeName":"k","AttributeType":"S"},{"AttributeName":"g","AttributeType":"S"}],"GlobalSecondaryIndexes":[{"IndexName":"Gix","KeySchema":[{"AttributeName":"g","KeyType":"HASH"}],"Projection":{"ProjectionType":"ALL"}}]}
PutItem {"TableName":"Tab","Item":{"k":{"S":"a"},"g":{"S":"a"},"n":{"N":"1"}}}'
printf '%s\n' "$indexed" | ./alternator "$work/indexed" 0 replay 65536 4 >/dev/null
# behind NAME NOTE HEX..: that store, or another one by the variable base, in whose log these writes follow, each as a group, and then all as
# one; no note where it is opened
base=indexed
behind() {
  local name=$1 note=$2 status=3 each write groups=()
  [ -n "$note" ] || status=0
  shift 2
  for write in "$@"; do groups+=("$(group "$write")"); done
  for each in groups together; do
    [ $each = groups ] || groups=("$(group "$@")")
    rm -rf "$work/spoilt"
    cp -r "$work/$base" "$work/spoilt"
    truncate -s -1 "$work/spoilt/00000002.alt"
    printf "$(gated "${groups[@]}")\\0" >>"$work/spoilt/00000002.alt"
    expect "$name, $each" "$status" "$note" ./alternator "$work/spoilt" 0 replay 65536 4
  done
}
# cleared NUMBER FAMILY KEY: a write that clears a row
cleared() { printf '%016x%016x%08x%s01%016x' "$1" 1 "$2" "$(field "$3")" 0; }
place=b98e9326c737b541610000 # of the item; in the index the table's key follows that of the index
gone=$(cleared 3 2 "${place}610000")
behind 'an index row of no item' 'alternator: row: family 2 key 61' "$(written 3 2 61 '' '')"
behind 'an index row that is missing' "alternator: row: family 2 key ${place}610000" "$gone"
behind 'an index row of other columns' "alternator: row: family 2 key ${place}610000" "$(written 3 2 "${place}610000" '' '')"
behind 'an index row with another value' "alternator: row: family 2 key ${place}610000" "$(written 3 2 "${place}610000" 6e 0203821500)"
behind 'an index row with a column too many' "alternator: row: family 2 key ${place}610000" "$(written 3 2 "${place}610000" 6d 05)"
behind 'an index row whose item is gone' "alternator: row: family 2 key ${place}610000" "$(cleared 3 1 "$place")"
behind 'a row of no item before a missing one' 'alternator: row: family 2 key 61' "$gone" "$(written 4 2 61 '' '')"
behind 'a missing row before one of no item' "alternator: row: family 2 key ${place}610000" "$gone" "$(written 4 2 ff '' '')"
behind 'rows of indexes come last' 'alternator: row: family 3 key 61' "$gone" "$(written 4 3 61 '' '')"
# stores whose table, of family 1, has one item, and a stream with one change; the second has an index besides, of family 2
stream='"StreamSpecification":{"StreamEnabled":true,"StreamViewType":"KEYS_ONLY"}'
for base in streamed both; do
  mkdir "$work/$base"
  says "a store is made: $base" 0 ok ./alternator "$work/$base" 0 init
  made=${indexed/\"GlobalSecondaryIndexes\"/$stream,\"GlobalSecondaryIndexes\"}
  [ "$base" = both ] || made=$(printf '%s\n' "$made" | sed 's/,"GlobalSecondaryIndexes":.*/}/; s/,{"AttributeName":"g","AttributeType":"S"}//')
  printf '%s\n' "$made" | ./alternator "$work/$base" 0 replay 65536 4 >"$work/said"
  [ "$(cut -c1-4 "$work/said" | tr -d '\n')" = '200 200 ' ] && passed=$((passed + 1)) || { failed=$((failed + 1)); echo "the store $base: $(cat "$work/said")"; }
done
# row_of NUMBER FAMILY KEY NAME VALUE..: a write of a row with these columns, in hexadecimal
row_of() {
  local head cells='' count=0
  head=$(printf '%016x%016x%08x%s01' "$1" 1 "$2" "$(field "$3")")
  shift 3
  while [ $# -gt 0 ]; do
    cells+="$(field "$1")01$(field "$2")"
    count=$((count + 1))
    shift 2
  done
  printf '%s%016x%s' "$head" "$count" "$cells"
}
# item_of NAME TEXT: an item with that attribute, a text, as the cell bytes of a map
item_of() { printf '0a%016x%s01%s' 1 "$(field "$1")" "$(field "$2")"; }
second=0000000000000000
third=0000000000000003
a=$(item_of 6b 61)
b=$(item_of 6b 62)
at_third='alternator: row: family 2 key '$third
base=streamed
behind 'a change that a table may keep' '' "$(row_of 3 2 $third 6d $second 6e "$a" 6f "$(item_of 6b 61 | sed 's/^0a0000000000000001/0a0000000000000002/')$(field 6e)05")"
behind 'a change whose key is no number' 'alternator: row: family 2 key 61' "$(row_of 3 2 61 6d $second 6e "$a")"
behind 'a change of a number to come' 'alternator: row: family 2 key 0000000000000004' "$(row_of 3 2 0000000000000004 6d $second 6e "$a")"
behind 'a change without a second' "$at_third" "$(row_of 3 2 $third 6e "$a")"
behind 'a second of seven bytes' "$at_third" "$(row_of 3 2 $third 6d 00000000000000 6e "$a")"
behind 'a change of no items' "$at_third" "$(row_of 3 2 $third 6d $second)"
behind 'a change that changes nothing' "$at_third" "$(row_of 3 2 $third 6d $second 6e "$a" 6f "$a")"
behind 'a change of two keys' "$at_third" "$(row_of 3 2 $third 6d $second 6e "$a" 6f "$b")"
behind 'a change with another column' "$at_third" "$(row_of 3 2 $third 6d $second 6e "$a" 78 "$b")"
behind 'an item of a change that is none' "$at_third" "$(row_of 3 2 $third 6d $second 6e "01$(field 61)")"
behind 'an item of a change without the key' "$at_third" "$(row_of 3 2 $third 6d $second 6e "$(item_of 6e 61)")"
behind 'the first of two wrong changes' 'alternator: row: family 2 key 0000000000000001' "$(row_of 3 2 $third 6d $second)" "$(row_of 4 2 0000000000000001 6d $second)"
behind 'a change that is gone' '' "$(cleared 3 2 0000000000000002)"
behind 'rows of no table come before those of streams' 'alternator: row: family 3 key 61' "$(row_of 3 2 61 6d $second)" "$(written 4 3 61 '' '')"
base=both
behind 'rows of indexes come behind those of streams' 'alternator: row: family 3 key 61' "$(written 3 2 61 '' '')" "$(row_of 4 3 61 6d $second)"

# ---- a store whose log is of the first form, as a build before the second one left it (checks/kept.txt): its first write makes a log of the second

mkdir "$work/kept"
while read -r name bytes; do
  [ "$name" = '#' ] || printf "$(echo "$bytes" | sed 's/../\\x&/g')" >"$work/kept/$name"
done <checks/kept.txt
# grown NAME WANTED LINE..: the logs of a copy of it behind these lines, the first by its file and its form, and the bytes of that of the older build
grown() {
  local name=$1 wanted=$2 file got=''
  shift 2
  rm -rf "$work/grown"
  cp -r "$work/kept" "$work/grown"
  printf '%s\n' "$@" | ./alternator "$work/grown" 0 replay 65536 4 >"$work/said" 2>"$work/noted"
  for file in "$work/grown"/*.alt; do
    [ "$(head -c 7 "$file" | tr -d '\0')" != ALTLOG0 ] || got+="${got:+ }$((16#$(basename "$file" .alt))):$(head -c 8 "$file" | tail -c 1)"
  done
  file=00000002.alt
  if [ "$got" = "$wanted" ] && [ ! -s "$work/noted" ] && { [ ! -e "$work/grown/$file" ] || cmp -s "$work/kept/$file" "$work/grown/$file"; }; then
    passed=$((passed + 1))
  else
    failed=$((failed + 1))
    echo "$name: logs '$got' and note '$(cat "$work/noted")', not '$wanted'"
  fi
}
rng() { printf '{"k":{"S":"a"},"r":{"N":"%s"},"g":{"S":"%s"},"v":{"S":"%s"}}' "$@"; }
again=$(printf 'BatchWriteItem {"RequestItems":{"Rng":[{"PutRequest":{"Item":%s}},{"PutRequest":{"Item":%s}},{"DeleteRequest":{"Key":{"k":{"S":"a"},"r":{"N":"3"}}}}]}}' \
  "$(rng 2 y again)" "$(rng 5 x five)")
same="PutItem {\"TableName\":\"Rng\",\"Item\":$(rng 2 x two)}"
grown 'a store of the first form that is read' '1:1 2:1' 'Scan {"TableName":"Rng"}' @step @reopen
diff -rq "$work/kept" "$work/grown" && passed=$((passed + 1)) || failed=$((failed + 1))
grown 'a put of what is there' '1:1 2:1' "$same"
grown 'a batch that is refused' '1:1 2:1' "${again/\"N\":\"5\"/\"N\":\"2\"}"
diff -rq "$work/kept" "$work/grown" && passed=$((passed + 1)) || failed=$((failed + 1))
grown 'the first write' '1:1 2:1 3:2' "$again"
grown 'further writes' '1:1 2:1 3:2' "$again" "${same/two/2}" @reopen "$again"
grown 'a flush of all' '1:1 8:2' "$again" @flush
grown 'a flush of all before the first write' '1:1 7:2' @flush "$again"
grown 'what it shows' '1:1 8:2' "$again" @flush @reopen 'Scan {"TableName":"Rng"}' 'Scan {"TableName":"Rng","IndexName":"Gix"}'
says 'what it shows is what was put' 0 "200 {\"Count\":2,\"Items\":[{\"g\":{\"S\":\"y\"},\"k\":{\"S\":\"a\"},\"r\":{\"N\":\"2\"},\"v\":{\"S\":\"again\"}},{\"g\":{\"S\":\"x\"},\"k\":{\"S\":\"a\"},\"r\":{\"N\":\"5\"},\"v\":{\"S\":\"five\"}}],\"ScannedCount\":2}
200 {\"Count\":2,\"Items\":[{\"g\":{\"S\":\"y\"},\"k\":{\"S\":\"a\"},\"r\":{\"N\":\"2\"}},{\"g\":{\"S\":\"x\"},\"k\":{\"S\":\"a\"},\"r\":{\"N\":\"5\"}}],\"ScannedCount\":2}" tail -n 2 "$work/said"

# a store is held by one process
mkfifo "$work/wait"
./alternator "$work/made" 0 replay 65536 4 <"$work/wait" >"$work/answered" &
exec 9>"$work/wait"
# It has it once it answers.
echo 'ListTables {}' >&9
for _ in $(seq 1200); do [ -s "$work/answered" ] && break; sleep 0.1; done
expect 'a store that another process has' 4 'alternator: device' ./alternator "$work/made" 0 replay 65536 4
exec 9>&-
wait

# ---- requests and replies, all in one run

# row REPLY OPERATION BODY: a request and what is answered to it
row() {
  printf '%s\n' "$1" >>"$work/wanted"
  printf '%s %s\n' "$2" "$3" >>"$work/requests"
}
refused() { printf '400 {"__type":"com.amazonaws.dynamodb.v20120810#%s","message":"%s"}' "$1" "$2"; }
bad() { refused ValidationException "$1"; }
unread=$(refused SerializationException 'the body cannot be read')
missing=$(refused ResourceNotFoundException 'Requested resource not found')
# many WORD COUNT: the word as often
many() { printf "%0$2d" 0 | sed "s/0/$1/g"; }

keys='"KeySchema":[{"AttributeName":"k","KeyType":"HASH"}]'
kinds='"AttributeDefinitions":[{"AttributeName":"k","AttributeType":"S"}]'
# table NAME: the body of a CreateTable whose key is the text k
table() { printf '{"TableName":"%s",%s,%s}' "$1" "$keys" "$kinds"; }
# described MEMBER NAME STATUS: the reply that shows such a table
described() {
  printf '200 {"%s":{%s,"CreationDateTime":0,%s,"TableArn":"arn:aws:dynamodb:local:000000000000:table/%s","TableName":"%s","TableStatus":"%s"}}' \
    "$1" "$kinds" "$keys" "$2" "$2" "$3"
}
made() { described TableDescription "$1" ACTIVE; }
# item ATTRIBUTES: the body of a PutItem into Tab
item() { printf '{"TableName":"Tab","Item":{%s}}' "$1"; }
# value JSON: the same of an item with the key "a" and this value
value() { item '"k":{"S":"a"},"v":'"$1"; }
key='{"TableName":"Tab","Key":{"k":{"S":"a"}}}'
# takes JSON SHOWN: the value is taken, and shown as that
takes() {
  row '200 {}' PutItem "$(value "$1")"
  row '200 {"Item":{"k":{"S":"a"},"v":'"$2"'}}' GetItem "$key"
}
# spoils MESSAGE JSON: the value is refused
spoils() { row "$(bad "$1")" PutItem "$(value "$2")"; }

# tables
row '200 {"TableNames":[]}' ListTables '{}'
for name in Zoe Bob Tab; do row "$(made $name)" CreateTable "$(table $name)"; done
row "$(refused ResourceInUseException 'table already exists')" CreateTable "$(table Tab)"
row '200 {"LastEvaluatedTableName":"Tab","TableNames":["Bob","Tab"]}' ListTables '{"Limit":2}'
row '200 {"TableNames":["Zoe"]}' ListTables '{"Limit":2,"ExclusiveStartTableName":"Tab"}'
row '200 {"TableNames":["Bob","Tab","Zoe"]}' ListTables '{"Limit":3}'
row "$(bad 'a member is out of its range')" ListTables '{"Limit":0}'
row "$unread" ListTables '{"Limit":"2"}'
row "$(bad 'bad table or index name')" ListTables '{"ExclusiveStartTableName":"ab"}'
row "$(described Table Bob ACTIVE)" DescribeTable '{"TableName":"Bob"}'
row "$(bad 'bad table or index name')" DescribeTable '{"TableName":"ab"}'
row "$(bad 'a required member is missing')" DescribeTable '{"TableName":null}'
row "$missing" DescribeTable '{"TableName":"abc"}'
row "$(bad 'bad key schema or attribute definitions')" CreateTable '{"TableName":"Tab","KeySchema":[],'"$kinds"'}'
row "$(bad 'members do not go together')" CreateTable "$(table Abc | sed 's/}$/,"StreamSpecification":{"StreamEnabled":true}}/')"

# values
takes '{"N":"-0012.500E1"}' '{"N":"-125"}'
takes '{"N":"'"$(many 9 38)E88"'"}' '{"N":"'"$(many 9 38)$(many 0 88)"'"}'
takes '{"NS":["10","9.0","-1"]}' '{"NS":["-1","9","10"]}'
takes '{"SS":["b","B","a"]}' '{"SS":["B","a","b"]}'
takes "$(many '{"L":[' 32)$(many ']}' 32)" "$(many '{"L":[' 32)$(many ']}' 32)"
spoils 'a number has more than 38 digits' '{"N":"'"$(many 9 39)E87"'"}'
spoils 'a number is too large' '{"N":"1E+126"}'
spoils 'a number is too small' '{"N":"1E-131"}'
spoils 'not a number' '{"N":"1E"}'
spoils 'bad base64' '{"B":"A"}'
spoils 'an empty set' '{"SS":[]}'
spoils 'a repeated member in a set' '{"SS":["x","x"]}'
spoils 'NULL must be true' '{"NULL":false}'
spoils 'an attribute value needs one known kind' '{"S":"x","N":"1"}'
spoils 'an attribute value needs one known kind' '{"S":null}'
spoils 'nested too deep' "$(many '{"L":[' 33)$(many ']}' 33)"
row "$unread" PutItem "$(value '{"S":1}')"

# keys and items
row "$(bad 'bad key')" PutItem "$(item '"k":{"S":""}')"
row "$(bad 'bad key')" PutItem "$(item '"k":{"N":"1"}')"
row "$(bad 'bad key')" GetItem '{"TableName":"Tab","Key":{"k":{"S":"a"},"v":{"S":"a"}}}'
row '200 {}' PutItem "$(item '"k":{"S":"'"$(many x 2048)"'"}')"
row "$(bad 'key too long')" PutItem "$(item '"k":{"S":"'"$(many x 2049)"'"}')"
row '200 {}' PutItem "$(value '{"S":"'"$(many x 409597)"'"}')"
row "$(bad 'item too large')" PutItem "$(value '{"S":"'"$(many x 409598)"'"}')"
row "$missing" PutItem '{"TableName":"Tob","Item":{"k":{"S":""}}}'
row "$missing" PutItem '{"TableName":"Tob","Item":{},"ReturnValues":"NONE"}'
row "$missing" GetItem '{"TableName":"Tob","Key":{},"ProjectionExpression":"k"}'
row "$missing" GetItem '{"TableName":"Tob","Key":{},"AttributesToGet":["k"]}'
row "$(bad 'members do not go together')" GetItem '{"TableName":"Tob","Key":{},"AttributesToGet":["k"],"ProjectionExpression":"k"}'

# a table that is deleted, and made again
row "$(described TableDescription Tab DELETING)" DeleteTable '{"TableName":"Tab"}'
row "$missing" GetItem "$key"
row "$missing" DeleteTable '{"TableName":"Tab"}'
row "$(made Tab)" CreateTable "$(table Tab)"
row '200 {}' GetItem "$key"

# 256 tables, and one more
for i in $(seq 101 353); do row "$(made "T$i")" CreateTable "$(table "T$i")"; done
row "$(refused LimitExceededException 'too many tables')" CreateTable "$(table T354)"

./alternator "$store" 0 replay 65536 4 <"$work/requests" | sed -E 's/"CreationDateTime":[0-9]+/"CreationDateTime":0/' >"$work/said"
while IFS= read -r wanted <&3 && IFS= read -r request <&4; do
  said=
  IFS= read -r said <&5
  if [ "$said" = "$wanted" ]; then
    passed=$((passed + 1))
  else
    failed=$((failed + 1))
    echo "${request:0:120}: '${said:0:200}', not '${wanted:0:200}'"
  fi
done 3<"$work/wanted" 4<"$work/requests" 5<"$work/said"
if [ "$(wc -l <"$work/said")" != "$(wc -l <"$work/wanted")" ]; then
  failed=$((failed + 1))
  echo 'the number of replies'
fi

echo "program: $passed passed, $failed failed"
[ "$failed" = 0 ]
