#!/usr/bin/env bash
# The engine over files, over the built program: puts that are flushed beside puts that aren't, the longest a put takes meanwhile, memory, bytes
# written for a byte put, opening, and gets and queries from memory and from files; and where sqlite's tool and LevelDB's library are there, theirs.
# Where valgrind is there, also the instructions of puts, of an opening, of gets and of queries over 20,000 items, and of a scan
# of 12,000 small ones, which no other run changes.
# Not part of the gate. Usage: bench/engine.sh [FOLDER [ITEMS]]: the store is laid there, /dev/shm by default; 1000000 items by default.
set -eu
cd "$(dirname "$0")/.."
items=${2:-1000000}
work=$(mktemp -d "${1:-/dev/shm}/engine.XXXXXX")
trap 'rm -rf "$work"' EXIT
program=${PROGRAM:-crates/alternator/out/alternator}
[ -n "${PROGRAM:-}" ] || ./alternator build >/dev/null
flush=8388608
never=1073741824
create='CreateTable {"TableName":"Tab","KeySchema":[{"AttributeName":"pk","KeyType":"HASH"},{"AttributeName":"sk","KeyType":"RANGE"}],"AttributeDefinitions":[{"AttributeName":"pk","AttributeType":"S"},{"AttributeName":"sk","AttributeType":"N"}]}'
item='"sk":{"N":"%d"},"at":{"S":"order#2026-11-27T03:26:31Z"},"total":{"N":"129.95"},"paid":{"BOOL":true},"note":{"S":"leave it at the door, and ring twice"},"tags":{"SS":["gift","priority"]},"lines":{"L":[{"M":{"sku":{"S":"A-1001"},"qty":{"N":"2"}}},{"M":{"sku":{"S":"B-2002"},"qty":{"N":"1"}}}]},"digest":{"B":"AAECAwQFBgc="}'
puts() { # FROM COUNT: 100 items under each HASH value
  seq "$1" "$(($1 + $2 - 1))" | awk -v line="PutItem {\"TableName\":\"Tab\",\"Item\":{\"pk\":{\"S\":\"customer#%07d\"},$item}}\n" '{ printf line, $1 / 100, $1 % 100 }'
}
gets() { # COUNT OF
  seq 0 "$(($1 - 1))" | awk -v line='GetItem {"TableName":"Tab","Key":{"pk":{"S":"customer#%07d"},"sk":{"N":"%d"}}}\n' -v of="$2" '{ n = ($1 * 7919) % of; printf line, n / 100, n % 100 }'
}
queries() { # COUNT OF
  seq 0 "$(($1 - 1))" | awk -v line='Query {"TableName":"Tab","KeyConditionExpression":"pk = :p","ExpressionAttributeValues":{":p":{"S":"customer#%07d"}}}\n' -v of="$2" '{ printf line, ($1 * 79) % (of / 100) }'
}
replayed() { "$program" "$work/$1" 0 replay "$2" 4 <"$3" >/dev/null; } # STORE FLUSH LINES
made() { "$program" "$work/$1" 0 init >/dev/null; printf '%s\n' "$create" >"$work/create"; replayed "$1" "$never" "$work/create"; }
processor() { # COMMAND..: seconds of the processor
  local TIMEFORMAT='%U %S'
  { time "$@"; } 2>&1 | awk '{ print $1 + $2 }'
}
seconds() {
  local start end
  start=$(date +%s.%N)
  "$@" >/dev/null
  end=$(date +%s.%N)
  awk -v a="$start" -v b="$end" 'BEGIN { printf "%.3f", b - a }'
}
puts 0 "$items" >"$work/puts"
: >"$work/none"
for kind in "flushed $flush" "kept $never"; do
  read -r name limit <<<"$kind"
  made "$name"
  time=$(seconds replayed "$name" "$limit" "$work/puts")
  awk -v n="$items" -v t="$time" -v k="$name" 'BEGIN { printf "%d puts of 337 bytes, %s: %.2f s, %d a second\n", n, k, t, n / t }'
done
ls -l "$work/flushed" | awk 'NR > 1 { bytes += $5; files++ } END { printf "flushed: %d files of %d bytes together\n", files, bytes }'
python3 bench/longest.py "$program" "$work/longest" "$create" "$work/puts" "$flush" "$((items / 5))"
if [ -x /usr/bin/time ]; then
  for name in flushed kept; do /usr/bin/time -f "$name: %M KB at most, opened and read" "$program" "$work/$name" 0 replay "$flush" 4 <"$work/none" >/dev/null; done
fi
rm -rf "$work/kept"
opened=$(seconds replayed flushed "$flush" "$work/none")
digested=$(seconds sh -c "cat '$work/flushed'/*.alt | sha256sum >/dev/null")
awk -v o="$opened" -v d="$digested" -v n="$items" 'BEGIN { printf "opened: %.2f s, its files are digested in %.2f s: %.2f microseconds a row beside\n", o, d, (o - d) * 1000000 / n }'
few=$((items / 10))
made small
puts 0 "$few" >"$work/few"
replayed small "$never" "$work/few"
cp -r "$work/small" "$work/files"
printf '@flush\n' >"$work/flush"
replayed files "$never" "$work/flush"
gets 20000 "$few" >"$work/gets"
queries 2000 "$few" >"$work/queries"
for name in small files; do
  base=$(processor replayed "$name" "$never" "$work/none")
  for what in "gets 20000" "queries 2000"; do
    read -r lines count <<<"$what"
    spent=$(processor replayed "$name" "$never" "$work/$lines")
    awk -v a="$base" -v b="$spent" -v n="$count" -v w="$lines" -v k="$name" 'BEGIN { printf "%s of %s: %.2f microseconds of the processor each\n", w, k == "small" ? "items in memory" : "items in one file", (b - a) * 1000000 / n }'
  done
done
if command -v valgrind >/dev/null 2>&1; then
  counted() { # STORE FLUSH MERGE LINES: the instructions of a run
    valgrind --tool=callgrind --callgrind-out-file=/dev/null "$program" "$work/$1" 0 replay "$2" "$3" <"$4" 2>&1 >/dev/null | awk '/Collected/ { print $4 }'
  }
  head -n 20000 "$work/puts" >"$work/lines"
  gets 1000 20000 >"$work/gets"
  queries 100 20000 >"$work/queries"
  # All in memory; all of it in one file; in a file for each MiB that was written; and in as few as merges leave.
  for kind in "memory $never 4" "one $never 4" "twelve 1048576 64" "merged 1048576 4"; do
    read -r name limit merge <<<"$kind"
    made "$name"
    none=$(counted "$name" "$limit" "$merge" "$work/none")
    spent=$(counted "$name" "$limit" "$merge" "$work/lines")
    [ "$name" = memory ] || "$program" "$work/$name" 0 replay "$limit" 64 <"$work/flush" >/dev/null
    [ "$name" = one ] || echo "20,000 puts, $name: $(((spent - none) / 20000)) instructions each"
    echo "$name: $(find "$work/$name" -name '*.alt' | wc -l) files"
    none=$(counted "$name" "$never" 64 "$work/none")
    echo "opening, $name: $((none / 20000)) instructions an item"
    for what in "gets 1000" "queries 100"; do
      read -r lines count <<<"$what"
      spent=$(counted "$name" "$never" 64 "$work/$lines")
      echo "$lines, $name: $(((spent - none) / count)) instructions each"
    done
  done
  # A page asks for few rows at a time, so with small items what a question costs shows most.
  {
    printf '%s\n' 'CreateTable {"TableName":"Few","KeySchema":[{"AttributeName":"pk","KeyType":"HASH"}],"AttributeDefinitions":[{"AttributeName":"pk","AttributeType":"S"}]}'
    seq 12000 | awk '{ printf "PutItem {\"TableName\":\"Few\",\"Item\":{\"pk\":{\"S\":\"%015d\"}}}\n", $1 }'
  } >"$work/lines"
  echo 'Scan {"TableName":"Few"}' >"$work/scan"
  made tiny
  replayed tiny "$never" "$work/lines"
  for from in memory 'one file'; do
    [ "$from" = memory ] || replayed tiny "$never" "$work/flush"
    none=$(counted tiny "$never" 64 "$work/none")
    spent=$(counted tiny "$never" 64 "$work/scan")
    echo "a scan of 12,000 items of 30 bytes, $from: $(((spent - none) / 12000)) instructions an item"
  done
fi
if command -v sqlite3 >/dev/null 2>&1; then
  awk 'BEGIN { print "PRAGMA journal_mode=WAL; PRAGMA synchronous=NORMAL; CREATE TABLE t (pk TEXT, sk INT, v TEXT, PRIMARY KEY (pk, sk)) WITHOUT ROWID;" }
    { gsub(/\047/, ""); printf "INSERT INTO t VALUES (\047c%d\047, %d, \047%s\047);\n", NR / 100, NR % 100, substr($0, 9) }' "$work/few" >"$work/sql"
  time=$(seconds sqlite3 "$work/sqlite" ".read $work/sql")
  awk -v n="$few" -v t="$time" 'BEGIN { printf "sqlite, %d inserts of the same texts, each its own transaction: %.2f s, %d a second\n", n, t, n / t }'
fi
if [ -e /usr/include/leveldb/db.h ] && command -v g++ >/dev/null 2>&1; then
  g++ -O2 -o "$work/leveldb" bench/engine-leveldb.cc -lleveldb
  "$work/leveldb" "$work/level" "$items" "$few"
fi
