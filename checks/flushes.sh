#!/usr/bin/env bash
# What flushes leave of the files of a store: a log without entries, no bytes of a table that is gone. And what a run notes of a row file with a
# changed byte, and where no file has a number left.
#
#   checks/flushes.sh      PROGRAM=path names another program than the built one
set -u
cd "$(dirname "$0")/.."
passed=0
failed=0
work=$(mktemp -d)
trap 'rm -rf "$work"' EXIT
program=${PROGRAM-./alternator}
[ -n "${PROGRAM-}" ] || ./alternator . 0 >/dev/null 2>&1 # builds it where it isn't built

pass() { passed=$((passed + 1)); }
fail() { failed=$((failed + 1)); echo "$*"; }
# same NAME GOT WANTED
same() { if [ "$2" = "$3" ]; then pass; else fail "$1: '$2', not '$3'"; fi; }
# lines STORE FLUSH LINE..: what is said to these lines, and then the status and the note
lines() {
  local store=$1 flush=$2
  shift 2
  printf '%s\n' "$@" | "$program" "$work/$store" 0 replay "$flush" 4 2>"$work/noted"
  echo "status $? $(cat "$work/noted")"
}
made() {
  rm -rf "$work/$1"
  mkdir "$work/$1"
  "$program" "$work/$1" 0 init >/dev/null
}
hex() { od -An -v -tx1 "$1" | tr -d ' \n'; }
# bytes of the entries of all segments: those are the logs but that of the versions, and an empty one has nine bytes
entries() {
  local file sum=0
  for file in "$work/$1"/*.alt; do
    [ "${file##*/}" != 00000001.alt ] || continue
    case "$(head -c 8 "$file")" in ALTLOG0[12]) ;; *) continue ;; esac
    sum=$((sum + $(wc -c <"$file") - 9))
  done
  echo $sum
}
most=1073741824
least=65536
table='CreateTable {"TableName":"Tab","KeySchema":[{"AttributeName":"k","KeyType":"HASH"}],"AttributeDefinitions":[{"AttributeName":"k","AttributeType":"S"}]}'
# put KEY TEXT
put() { printf 'PutItem {"TableName":"Tab","Item":{"k":{"S":"%s"},"v":{"S":"%s"}}}' "$1" "$2"; }
get() { printf 'GetItem {"TableName":"Tab","Key":{"k":{"S":"%s"}}}' "$1"; }
# filler LETTER: 60,000 of them
filler() { printf '%060000d' 0 | tr 0 "$1"; }

# ---- entries of more than 16 times the least FLUSH

made long
{
  echo "$table"
  for key in a b c d e f g h i j k l m n o p q r s t; do put $key "$(filler $key)"; echo; done
} | "$program" "$work/long" 0 replay $most 4 >"$work/said"
same 'twenty long items' "$(cut -c1-4 "$work/said" | sort | uniq -c | tr -s ' ')" ' 21 200 '
[ "$(entries long)" -gt $((16 * least)) ] && pass || fail "the entries: $(entries long) bytes"
for last in @step @flush "$(get q)" "$(put q "$(filler z)")"; do
  rm -rf "$work/short"
  cp -r "$work/long" "$work/short"
  said=$(lines short $least "$last")
  case $last in
    @*) same "only $last" "$said" "ok
status 0 " ;;
    *) same "only ${last:0:7}" "${said##*$'\n'}" 'status 0 ' ;;
  esac
  [ "$(entries short)" -lt $((16 * least)) ] && pass || fail "behind ${last:0:7} the entries have $(entries short) bytes"
  [ "$last" != @flush ] || same 'behind a flush the entries' "$(entries short)" 0
  letter=q
  [ "${last:0:7}" != PutItem ] || letter=z
  same "an item behind ${last:0:7}" "$(lines short $most "$(get q)")" "200 {\"Item\":{\"k\":{\"S\":\"q\"},\"v\":{\"S\":\"$(filler $letter)\"}}}
status 0 "
done
# with a FLUSH that they don't reach nothing is flushed
rm -rf "$work/short"
cp -r "$work/long" "$work/short"
same 'a step where nothing applies' "$(lines short $most @step)" "ok
status 0 "
same 'and its entries' "$(entries short)" "$(entries long)"
# a trial with the least FLUSH has a short log at its end
made tried
said=$("$program" "$work/tried" 0 trial 7 5000 $least 4 2>&1; echo "status $?")
same 'a trial' "$(echo "$said" | sed -n '1p;$p' | tr '\n' ' ')" 'requests 5000 status 0 '
[ "$(entries tried)" -lt $((16 * least)) ] && pass || fail "behind a trial the entries have $(entries tried) bytes"

# ---- a table that is gone

made gone
lines gone $least "$table" "$(put a unmistakable)" @flush >/dev/null
grep -l unmistakable "$work/gone"/*.alt >/dev/null && pass || fail 'a flushed item is in no file'
lines gone $least 'DeleteTable {"TableName":"Tab"}' @flush @reopen >/dev/null
grep -l unmistakable "$work/gone"/*.alt >/dev/null && fail 'an item of a dropped table is in a file' || pass
same 'its entries' "$(entries gone)" 0
same 'and no table' "$(lines gone $least 'ListTables {}')" '200 {"TableNames":[]}
status 0 '

# ---- a file that is none of the store's

made other
lines other $least "$table" "$(put a here)" @flush >/dev/null
printf 'ALTLOG01\0' >"$work/other/00001000.alt"
same 'a file that no version names' "$(lines other $least "$(get a)")" '200 {"Item":{"k":{"S":"a"},"v":{"S":"here"}}}
status 0 '
[ ! -e "$work/other/00001000.alt" ] && pass || fail 'a file that no version names is left'

# ---- one changed byte of a row file

made changed
lines changed $least "$table" "$(put a here)" @flush >/dev/null
file=$(grep -l here "$work/changed"/*.alt | head -n 1)
number=$((16#$(basename "$file" .alt)))
size=$(wc -c <"$file")
for at in 0 8 $((size / 2)) $((size - 33)) $((size - 1)); do
  rm -rf "$work/spoilt"
  cp -r "$work/changed" "$work/spoilt"
  spoilt=$work/spoilt/${file##*/}
  byte=$((0x$(hex "$spoilt" | cut -c$((2 * at + 1))-$((2 * at + 2))) ^ 1))
  printf "\\x$(printf %02x $byte)" | dd of="$spoilt" bs=1 seek="$at" conv=notrunc 2>/dev/null
  kept=$(tail -c 32 "$spoilt" | od -An -v -tx1 | tr -d ' \n')
  found=$(head -c $((size - 32)) "$spoilt" | sha256sum | cut -d' ' -f1)
  same "a changed byte at $at" "$(lines spoilt $least "$(get a)")" \
    "status 3 alternator: digest: file $number kept $kept found $found"
done
rm -rf "$work/spoilt"
cp -r "$work/changed" "$work/spoilt"
head -c 31 "$file" >"$work/spoilt/${file##*/}"
same 'a row file of 31 bytes' "$(lines spoilt $least "$(get a)")" "status 3 alternator: damaged: file $number at 0"
rm "$work/spoilt/${file##*/}"
same 'a row file that is missing' "$(lines spoilt $least "$(get a)")" "status 3 alternator: damaged: file $number at 0"
# reopened while it is changed, as if by another hand
rm -rf "$work/spoilt"
cp -r "$work/changed" "$work/spoilt"
mkfifo "$work/wait"
"$program" "$work/spoilt" 0 replay $least 4 <"$work/wait" >"$work/said" 2>"$work/noted" &
exec 9>"$work/wait"
get a >&9
echo >&9
for _ in $(seq 1200); do [ -s "$work/said" ] && break; sleep 0.1; done
printf 'x' | dd of="$work/spoilt/${file##*/}" bs=1 seek=8 conv=notrunc 2>/dev/null
echo @reopen >&9
exec 9>&-
wait $!
same 'a row file that is changed before @reopen' "$? $(cut -d' ' -f1-5 "$work/noted")" "3 alternator: digest: file $number kept"

# ---- no number of a file is left

# numbered STORE NEXT: a fresh store whose next file is this one, in hexadecimal
numbered() {
  made "$1"
  printf "ALTLOG01\\x01\\x00\\x00\\x00\\x00\\x00\\x00\\x00\\x20$(echo "$2" | sed 's/../\\x&/g')\\x00\\x00\\x00\\x00\\x00\\x00\\x00\\x01\\x00\\x00\\x00\\x00\\x00\\x00\\x00\\x01\\x00\\x00\\x00\\x02\\x00\\x00\\x00\\x00\\x00\\x00\\x00\\x00\\x00" \
    >"$work/$1/00000001.alt"
}
spent='alternator: numbers spent: 4294967295'
for next in ffffffff fffffffe; do
  numbered last $next
  same "a request on the next file $next" "$(lines last $least "$table" "$(put a here)" "$(get a)" | tail -n 2)" \
    '200 {"Item":{"k":{"S":"a"},"v":{"S":"here"}}}
status 0 '
  same "a flush on the next file $next" "$(lines last $least @flush)" "status 6 $spent"
  same "and what is left of $next" "$(lines last $least "$(get a)")" '200 {"Item":{"k":{"S":"a"},"v":{"S":"here"}}}
status 0 '
done
# a store whose log is of the first form: its first write, which makes one of the second, wants a file
older() {
  numbered older "$1"
  printf 'ALTLOG01\0' >"$work/older/00000002.alt"
}
older ffffffff
cp -r "$work/older" "$work/before"
same 'a first write that wants a file' "$(lines older $least 'ListTables {}' "$table" 'ListTables {}')" "200 {\"TableNames\":[]}
status 6 $spent"
same 'leaves every file' "$(diff -rq "$work/before" "$work/older")" ''
same 'and refused requests and reads want none' "$(lines older $least 'DeleteTable {"TableName":"Tab"}' 'ListTables {}' | tail -n 2)" '200 {"TableNames":[]}
status 0 '
older fffffffe
same 'a first write that has the last file' "$(lines older $least "$table" "$(put a here)" @reopen "$(get a)" | tail -n 3)" 'ok
200 {"Item":{"k":{"S":"a"},"v":{"S":"here"}}}
status 0 '
same 'has it' "$(head -c 8 "$work/older/fffffffe.alt")" ALTLOG02
# a step behind a request: the reply was said
numbered last ffffffff
lines last $most "$table" "$(put a "$(filler a)")" >/dev/null
same 'a step that wants a file' "$(lines last $least "$(put b "$(filler b)")")" "200 {}
status 6 $spent"
same 'and the item of the request' "$(lines last $most "$(get b)" | tail -n 1)" 'status 0 '

echo "flushes: $passed passed, $failed failed"
[ "$failed" = 0 ]
