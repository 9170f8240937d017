#!/usr/bin/env bash
# What requests cost that are made to cost much: the processor seconds of `replay` over each, and the most memory that it holds, beside the
# bytes of the request. The cases are the table at the end: a line each, of its name and what prints its lines. Over the built program,
# on a new store each. Not part of the gate.
# Usage: bench/hostile.sh [WORD], only the cases whose names have the word. BYTES=N: of the long values and names, 4000000 by default.
# PROGRAM=path: of another program than the built one.
set -eu
cd "$(dirname "$0")/.."
bytes=${BYTES:-4000000}
only=${1:-}
out=bench/out
mkdir -p "$out"
program=${PROGRAM:-crates/alternator/out/alternator}
[ -n "${PROGRAM:-}" ] || ./alternator . 0 >/dev/null 2>&1 || true
create='CreateTable {"TableName":"Tab","KeySchema":[{"AttributeName":"k","KeyType":"HASH"}],"AttributeDefinitions":[{"AttributeName":"k","AttributeType":"S"}]}'
# measured NAME LINES..: runs the lines that the command LINES prints, with FLUSH where the variable flush says so, and tells of the last
measured() {
  local name=$1
  shift
  case $name in *"$only"*) ;; *) return 0 ;; esac
  rm -rf "$out/store" && "$program" "$out/store" 0 init >/dev/null
  "$@" >"$out/hostile.lines"
  /usr/bin/time -f '%U %S %M' -o "$out/hostile.cost" "$program" "$out/store" 0 replay "${flush:-67108864}" 4 <"$out/hostile.lines" >"$out/hostile.replies"
  awk -v name="$name" -v given="$(wc -c <"$out/hostile.lines")" -v reply="$(tail -n 1 "$out/hostile.replies" | cut -c 1-80)" '
    { printf "%s: %d bytes, %.2f s, %.2f s a MB, %d KB at most, %.1f times the bytes; %s\n", name, given, $1 + $2, ($1 + $2) * 1e6 / given, $3, $3 * 1024 / given, reply }' "$out/hostile.cost"
}

# ---- lines

# repeated PATTERN [BYTES]: a text of so many bytes that repeats that; long: of x alone
repeated() { yes "$1" 2>/dev/null | tr -d '\n' | head -c "${2:-$bytes}"; }
long() { repeated x; }
# pieces COUNT FORMAT BETWEEN: so many pieces of a text, each with its number in the place of %03d or %d
pieces() { seq 0 $(($1 - 1)) | awk -v format="$2" -v between="$3" '{ printf "%s" format, (NR > 1 ? between : ""), $1 }'; }
# what is given, by its one word
values='"ExpressionAttributeValues":{":v":{"S":"%s"}}'
names='"ExpressionAttributeNames":{"#n":"%s"}'
# text OPERATION MEMBER TEXT GIVEN: a text beside a long value or a long name
text() { printf '%s\n%s {"TableName":"Tab","Key":{"k":{"S":"a"}},"%s":"%s",'"$4"'}\n' "$create" "$1" "$2" "$3" "$(long)"; }
# attributes ORDER COUNT: so many attributes with names of three bytes, which rise, fall or come in no order, or each of which comes twice
attributes() {
  awk -v order="$1" -v count="$2" 'BEGIN {
    for (i = 0; i < count; i++) {
      at = order == "falling" ? count - 1 - i : order == "random" ? (i * 7919) % count : order == "twice" ? i % (count / 2) : i
      printf "%s\"%c%c%c\":{\"NULL\":true}", (i > 0 ? "," : ""), 48 + int(at / 1936), 48 + int(at / 44) % 44, 48 + at % 44
    }
  }'
}
# small COUNT: so many small items, each with a map, in batches of 20; scanned COUNT MEMBERS: these and a scan of them
small() {
  printf '%s\n' "$create"
  seq "$1" | awk '{
    put = sprintf("{\"PutRequest\":{\"Item\":{\"k\":{\"S\":\"%06d\"},\"aa\":{\"N\":\"1\"},\"m\":{\"M\":{\"aa\":{\"N\":\"1\"}}}}}}", $1)
    printf "%s%s%s", (NR % 20 == 1 ? "BatchWriteItem {\"RequestItems\":{\"Tab\":[" : ","), put, (NR % 20 == 0 ? "]}}\n" : "")
  }'
}
scanned() { small "$1" && printf 'Scan {"TableName":"Tab",%s}\n' "$2"; }
# paths COUNT BEFORE: so many names of one or two bytes, with commas between and that before each
paths() {
  awk -v count="$1" -v before="$2" 'BEGIN {
    letters = "abcdefghijklmnopqrstuvwxyzABCDEFGHIJKLMNOPQRSTUVWXYZ"
    signs = letters "0123456789"
    for (i = 0; i < count; i++) {
      at = i - 52
      name = i < 52 ? substr(letters, i + 1, 1) : substr(letters, int(at / 62) + 1, 1) substr(signs, at % 62 + 1, 1)
      if (name ~ /^([oO][rR]|[iI][nN])$/) name = name "0" # else a keyword
      printf "%s%s%s", (i > 0 ? "," : ""), before, name
    }
  }'
}
# filtered COUNT TEXT: a scan of so many small items by a filter over two values of BYTES bytes that are equal
filtered() {
  small "$1"
  printf 'Scan {"TableName":"Tab","FilterExpression":"%s","ExpressionAttributeValues":{":v":{"S":"%s"},":w":{"S":"%s"}}}\n' "$2" "$(long)" "$(long)"
}
# sought NEEDLE VALUE: a scan of 20 items with that attribute, by a filter that seeks it 200 times in a value that the command VALUE prints
sought() {
  printf '%s\n' "$create"
  seq 20 | awk -v needle="$1" '{ printf "PutItem {\"TableName\":\"Tab\",\"Item\":{\"k\":{\"S\":\"%02d\"},\"a\":%s}}\n", $1, needle }'
  printf 'Scan {"TableName":"Tab","FilterExpression":"%s","ExpressionAttributeValues":{":v":%s}}\n' "$(pieces 200 'contains(:v,a)' ' OR ')" "$("$2")"
}
letters() { printf '{"S":"%s"}' "$(repeated ab)"; }
numbers() { printf '{"L":[%s{"N":"2"}]}' "$(repeated '{"N":"1"},' $((bytes / 10 * 10)))"; }
# dropped COUNT: so many tables of 8 MB, each of which is dropped, and the store opened anew
dropped() {
  local text
  text=$(repeated x 390000)
  for _ in $(seq "$1"); do
    printf '%s\n' "$create"
    for item in $(seq 20); do printf 'PutItem {"TableName":"Tab","Item":{"k":{"S":"%d"},"a":{"S":"%s"}}}\n' "$item" "$text"; done
    echo 'DeleteTable {"TableName":"Tab"}'
  done
  printf '@reopen\nListTables {}\n'
}
# put ORDER COUNT: an item with so many attributes; within ORDER COUNT: one with a map of so many
put() { printf '%s\nPutItem {"TableName":"Tab","Item":{"k":{"S":"a"},%s}}\n' "$create" "$(attributes "$1" "$2")"; }
within() { printf '%s\nPutItem {"TableName":"Tab","Item":{"k":{"S":"a"},"m":{"M":{%s}}}}\n' "$create" "$(attributes "$1" "$2")"; }
# the same with a last attribute that is spelled with a null beside its kind, so that the body is read to a JSON tree first
through_a_tree() { "$@" | sed 's/}}$/,"~":{"NULL":true,"S":null}}}/'; }
# nested COUNT: so many attributes, each with maps of one entry in one another, 31 deep
nested() {
  awk -v count="$1" 'BEGIN {
    for (i = 0; i < 31; i++) { open = open "{\"M\":{\"a\":"; close_ = close_ "}}" }
    for (i = 0; i < count; i++) printf "%s\"%06d\":%s{\"NULL\":true}%s", (i > 0 ? "," : ""), i, open, close_
  }'
}
deep() { printf '%s\nPutItem {"TableName":"Tab","Item":{"k":{"S":"a"},%s}}\n' "$create" "$(nested "$1")"; }
# maps COUNT: so many times 120 maps of one entry in one another; unread COUNT: a member of them that nobody reads; beside: the same beside an
# item, and a number
maps() {
  awk -v count="$1" 'BEGIN {
    for (i = 0; i < 120; i++) { open = open "{\"a\":"; close_ = close_ "}" }
    for (i = 0; i < count; i++) printf "%s%snull%s", (i > 0 ? "," : ""), open, close_
  }'
}
unread() { printf 'ListTables {"Other":[%s]}\n' "$(maps "$1")"; }
unread_beside() { printf '%s\nPutItem {"TableName":"Tab","Item":{"k":{"S":"a"}},"Other":[1.5,%s]}\n' "$create" "$(maps "$1")"; }
# keyed COUNT: a get by a key of so many attributes, each with maps of one entry in one another, so of a member that is read to a JSON tree
keyed() { printf '%s\nGetItem {"TableName":"Tab","Key":{"k":{"S":"a"},%s}}\n' "$create" "$(nested "$1")"; }
# batch COUNT: a batch of so many deletions; given COUNT: an update beside so many values; named COUNT: one beside so many names
batch() { printf '%s\nBatchWriteItem {"RequestItems":{"Tab":[%s]}}\n' "$create" "$(pieces "$1" '{"DeleteRequest":{"Key":{"k":{"S":"%06d"}}}}' ',')"; }
given() { printf '%s\nUpdateItem {"TableName":"Tab","Key":{"k":{"S":"a"}},"UpdateExpression":"SET a=:v000001","ExpressionAttributeValues":{%s}}\n' "$create" "$(pieces "$1" '":v%06d":{"S":"x"}' ',')"; }
named() { printf '%s\nUpdateItem {"TableName":"Tab","Key":{"k":{"S":"a"}},"UpdateExpression":"REMOVE #n000001","ExpressionAttributeNames":{%s}}\n' "$create" "$(pieces "$1" '"#n%06d":"x"' ',')"; }
# changed PUT TEXT: an update by a text, beside a value of BYTES bytes, of the item that PUT has more of
changed() {
  printf '%s\nPutItem {"TableName":"Tab","Item":{"k":{"S":"a"},%s}}\n' "$create" "$1"
  printf 'UpdateItem {"TableName":"Tab","Key":{"k":{"S":"a"}},"UpdateExpression":"%s","ExpressionAttributeValues":{":v":%s}}\n' "$2" "$3"
}
# the long text as it is, in a list, in a set
plain() { printf '{"S":"%s"}' "$(long)"; }
listed() { printf '{"L":[{"S":"%s"}]}' "$(long)"; }
in_set() { printf '{"SS":["%s"]}' "$(long)"; }

# ---- the cases

for order in rising falling random twice; do
  for count in 20000 40000 80000; do measured "names $order, $count in an item" put "$order" "$count"; done
  for count in 20000 40000 80000; do measured "names $order, $count in a map" within "$order" "$count"; done
  for count in 20000 40000 80000; do measured "names $order, $count in a map, through a tree" through_a_tree within "$order" "$count"; done
done
measured "maps of one entry in one another, 400 KB" deep 1000
measured "maps of one entry in one another, 4 MB" deep 10000
measured "a condition that names a value once" text UpdateItem ConditionExpression "k = :v" "$values"
measured "a condition that names it 500 times" text UpdateItem ConditionExpression "$(pieces 500 'k=:v' ' OR ')" "$values"
measured "an update that names it 500 times and is refused" text UpdateItem UpdateExpression "ADD $(pieces 500 'a%03d :v' ',')" "$values"
measured "an update that puts it 500 times" text UpdateItem UpdateExpression "SET $(pieces 500 'a%03d=:v' ',')" "$values"
measured "an update that puts it 450 times into a list" changed '"l":{"L":[]}' "SET $(pieces 450 'l[%d]=:v' ',')" "$(plain)"
measured "an update that puts it 400 times into a map" changed '"m":{"M":{}}' "SET $(pieces 400 'm.b%d=:v' ',')" "$(plain)"
measured "an update that appends it 150 times to itself" changed '"m":{"M":{}}' "SET $(pieces 150 'a%d=list_append(:v,:v)' ',')" "$(listed)"
measured "an update that adds it to 400 sets" changed "$(pieces 400 '"a%03d":{"SS":["x"]}' ',')" "ADD $(pieces 400 'a%03d :v' ',')" "$(in_set)"
measured "a member that nobody reads, 4 MB" unread 5500
measured "a member that nobody reads beside an item, 4 MB" unread_beside 5500
measured "a key of maps of one entry in one another, 4 MB" keyed 10000
measured "a batch of 100,000 members" batch 100000
measured "an update beside 200,000 values" given 200000
measured "an update beside 200,000 names" named 200000
measured "a condition that names an attribute once" text UpdateItem ConditionExpression "#n = k" "$names"
measured "a condition that names it 500 times, an attribute" text UpdateItem ConditionExpression "$(pieces 500 '#n=k' ' OR ')" "$names"
measured "an update that names it 500 times and is refused, an attribute" text UpdateItem UpdateExpression "REMOVE $(pieces 500 '#n[%d]' ',')" "$names"
measured "a projection that names it 500 times, an attribute" text GetItem ProjectionExpression "$(pieces 500 '#n[%d]' ',')" "$names"
measured "a scan of 30,000 small items" scanned 30000 '"Limit":100000'
measured "a scan of 30,000 small items, 1,300 paths" scanned 30000 "\"ProjectionExpression\":\"$(paths 1300 '')\""
measured "a scan of 30,000 small items, 800 paths in a map" scanned 30000 "\"ProjectionExpression\":\"$(paths 800 m.)\""
measured "a filter of one comparison of two values, 20 items" filtered 20 ":v=:w"
measured "a filter of 370 comparisons of two values, 20 items" filtered 20 "$(pieces 370 ':v=:w' ' AND ')"
measured "a filter of 370 comparisons of two values, 2,000 items" filtered 2000 "$(pieces 370 ':v=:w' ' AND ')"
measured "a filter that seeks six letters 200 times in a value, 20 items" sought '{"S":"000001"}' plain
measured "a filter that seeks 401 letters 200 times in a value that all but has them, 20 items" sought "{\"S\":\"$(repeated ab 400)b\"}" letters
measured "a filter that seeks a number 200 times in a list, 20 items" sought '{"N":"3"}' numbers
flush=1048576 measured "10 tables of 8 MB that are dropped, FLUSH 1 MiB" dropped 10
flush=1073741824 measured "10 tables of 8 MB that are dropped, none flushed" dropped 10
rm -rf "$out/store"
