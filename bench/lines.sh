# shellcheck shell=bash
# What the scripts share that count the instructions of lines of `replay` over the built program, which they source. PROGRAM=path names another one.
#
#   $out        a folder for what they make; $out/filled is the store that the lines begin with, $out/store the copy that they run over
#   filled      makes it: a new store over which the lines of standard input were carried out
#   counted FILE            the instructions of opening it and answering the lines of a file, whose replies stand in $out/said then
#   each FIRST COUNT LINE   the line with each number in the place of its %07d; a line ends with \n, where one is to end there
#   measured LINE..         the instructions a line: of 1,100 and 100 such lines behind the store that it begins with; `TOTAL` in one is a number, another each time
cd "$(dirname "$(readlink -f "${BASH_SOURCE[0]}")")/.."
command -v valgrind >/dev/null 2>&1 || { echo "$0: valgrind is not installed"; exit 1; }
out=bench/out
mkdir -p "$out"
program=${PROGRAM:-crates/alternator/out/alternator}
[ -n "${PROGRAM:-}" ] || ./alternator . 0 >/dev/null 2>&1 || true
# Nothing is flushed: what is measured are the requests.
flush=1073741824

filled() {
  rm -rf "$out/store" "$out/filled"
  "$program" "$out/filled" 0 init >/dev/null
  "$program" "$out/filled" 0 replay "$flush" 4 >/dev/null
}

counted() {
  rm -rf "$out/store"
  cp -r "$out/filled" "$out/store"
  valgrind --tool=callgrind --callgrind-out-file="$out/counted.callgrind" "$program" "$out/store" 0 replay "$flush" 4 <"$1" 2>&1 >"$out/said" | awk '/Collected/ { print $4 }'
}

each() {
  seq "$1" "$(($1 + $2 - 1))" | awk -v line="$3" '{ printf line, $1 }'
}

measured() {
  local count
  for count in 100 1100; do
    seq "$count" | awk -v line="$1" '{ text = line; sub(/TOTAL/, $1 ".95", text); print text }' >"$out/$count.lines"
  done
  echo $((($(counted "$out/1100.lines") - $(counted "$out/100.lines")) / 1000))
}

# An item of 337 bytes of JSON, of a table with one key attribute, whose total is to be set; and of one with two, whose number is.
create='CreateTable {"TableName":"Tab","KeySchema":[{"AttributeName":"pk","KeyType":"HASH"}],"AttributeDefinitions":[{"AttributeName":"pk","AttributeType":"S"}]}'
item='"Item":{"pk":{"S":"customer#0000042"},"sk":{"S":"order#2026-11-27T03:26:31Z"},"total":{"N":"TOTAL"},"paid":{"BOOL":true},"note":{"S":"leave it at the door, and ring twice"},"tags":{"SS":["gift","priority"]},"lines":{"L":[{"M":{"sku":{"S":"A-1001"},"qty":{"N":"2"}}},{"M":{"sku":{"S":"B-2002"},"qty":{"N":"1"}}}]},"digest":{"B":"AAECAwQFBgc="}}'
ranged='"KeySchema":[{"AttributeName":"pk","KeyType":"HASH"},{"AttributeName":"sk","KeyType":"RANGE"}],"AttributeDefinitions":[{"AttributeName":"pk","AttributeType":"S"},{"AttributeName":"sk","AttributeType":"S"}]'
order='{"pk":{"S":"customer#0000042"},"sk":{"S":"order#2026-11-27T03:26:31Z#%07d"},"total":{"N":"129.95"},"paid":{"BOOL":true},"note":{"S":"leave it at the door, and ring"},"tags":{"SS":["gift","priority"]},"lines":{"L":[{"M":{"sku":{"S":"A-1001"},"qty":{"N":"2"}}},{"M":{"sku":{"S":"B-2002"},"qty":{"N":"1"}}}]},"digest":{"B":"AAECAwQFBgc="}}'
order_key='{"pk":{"S":"customer#0000042"},"sk":{"S":"order#2026-11-27T03:26:31Z#%07d"}}'
