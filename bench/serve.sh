#!/usr/bin/env bash
# What serving costs, over the built program: a GetItem on a connection each, beside a server in C that says the same bytes (bench/fixed.c) to the
# same client (bench/client.c), and its instructions beside those of a line; synced puts over HTTP beside `replay` of the same puts; and the memory
# of a server after 1,000 connections and after 100,000. Of three rounds the quickest counts. Not part of the gate.
# Usage: bench/serve.sh [FOLDER], where the stores are laid; a folder of its own by default. PROGRAM=path names another program.
set -eu
cd "$(dirname "$0")/.."
work=$(mktemp -d "${1:-/tmp}/serve.XXXXXX")
declare -A running=() # by their processes
ending() {
  [ ${#running[@]} = 0 ] || kill "${!running[@]}" 2>/dev/null || true
  rm -rf "$work"
}
trap ending EXIT
program=${PROGRAM:-crates/alternator/out/alternator}
[ -n "${PROGRAM:-}" ] || ./alternator . 0 >/dev/null 2>&1 || true
for name in client fixed; do cc -O2 -o "$work/$name" "bench/$name.c"; done
gets=10000
puts=2000
create='CreateTable {"TableName":"Tab","KeySchema":[{"AttributeName":"pk","KeyType":"HASH"}],"AttributeDefinitions":[{"AttributeName":"pk","AttributeType":"S"}]}'
# The client replaces the seven zeros by a number.
item='"pk":{"S":"customer#0000000"},"total":{"N":"129.95"},"paid":{"BOOL":true},"note":{"S":"leave it at the door, and ring twice"},"sku":{"S":"A-1001"},"digest":{"B":"AAECAwQFBgc="}'
put="{\"TableName\":\"Tab\",\"Item\":{$item}}"
get='{"TableName":"Tab","Key":{"pk":{"S":"customer#7654321"}}}'
# The head of a request as the AWS CLI sends it.
asking() { # OPERATION BODY
  printf '%s\r\n' 'POST / HTTP/1.1' 'Host: 127.0.0.1:8000' 'Accept-Encoding: identity' "X-Amz-Target: DynamoDB_20120810.$1" 'Content-Type: application/x-amz-json-1.0' \
    'User-Agent: aws-cli/1.45.11 md/Botocore#1.43.11 ua/2.1 os/linux#6.18.44-fc-v857 md/arch#x86_64 lang/python#3.11.7 md/pyimpl#CPython m/D,C cfg/retry-mode#legacy botocore/1.43.11' \
    'X-Amz-Date: 20261127T094008Z' 'Authorization: AWS4-HMAC-SHA256 Credential=x/20261127/us-east-1/dynamodb/aws4_request, SignedHeaders=content-type;host;x-amz-date;x-amz-target, Signature=578953d744d24ab874ba8c73c75a050452685e17665c41ccda6ab077b439faa2' \
    'amz-sdk-invocation-id: f3c0c27c-8727-437b-83a8-3e0c48ac7151' 'amz-sdk-request: attempt=1' "Content-Length: ${#2}" ''
  printf '%s' "$2"
}
asking GetItem "$get" >"$work/get"
asking PutItem "$put" >"$work/put"
lines() { seq 0 "$(($1 - 1))" | awk -v line="PutItem ${put/0000000/%07d}" '{ printf line "\n", $1 }'; }
replayed() { "$program" "$work/$1" 0 replay 65536 4 <"$2" >/dev/null; }
made() { # STORE: a new one, with the table
  "$program" "$work/$1" 0 init >/dev/null
  printf '%s\n' "$create" >"$work/create"
  replayed "$1" "$work/create"
}
port=47200
listens() { grep -q "^ *[0-9]*: 0100007F:$(printf %04X "$port") 00000000:0000 0A" /proc/net/tcp; }
# serving COMMAND..: starts a server in which the word PORT is the next port that nobody has, and waits until it listens
serving() {
  local tries=0
  while port=$((port + 1)) && listens; do :; done
  "${@/#PORT/$port}" &
  server=$!
  running[$server]=
  while ! listens; do
    tries=$((tries + 1))
    if [ "$tries" = 200 ] || ! kill -0 "$server" 2>/dev/null; then
      echo "serve: no server at $port" >&2
      exit 1
    fi
    sleep 0.05
  done
}
stop() { # SERVER
  unset "running[$1]"
  kill "$1"
  wait "$1" 2>/dev/null || true
}
processor() { cut -d' ' -f1 "/proc/$1/schedstat"; } # nanoseconds
# asked SERVER PORT CONNECTIONS AT_ONCE PER REQUEST: the replies, the seconds, and the nanoseconds of the server's processor
asked() {
  local before took
  before=$(processor "$1")
  took=$("$work/client" "$2" "$3" "$4" "$5" 300 "$work/$6")
  echo "$took $(($(processor "$1") - before))"
}
quickest() { sort -g -k2,2 "$1" | head -n 1; }

# gets, beside a server that says the same bytes
made gets
printf 'PutItem %s\n' "${put/0000000/7654321}" >"$work/lines"
replayed gets "$work/lines"
serving "$program" "$work/gets" PORT serve 1 4294967295 65536 4
ours=$server at=$port
exec 3<>"/dev/tcp/127.0.0.1/$at"
cat "$work/get" >&3
timeout 10 cat <&3 >"$work/reply"
exec 3>&-
serving "$work/fixed" PORT 1000000 "$work/reply"
for at_once in 1 4; do
  for round in 1 2 3; do
    asked "$server" "$port" "$gets" "$at_once" 1 get >>"$work/fixed.$at_once"
    asked "$ours" "$at" "$gets" "$at_once" 1 get >>"$work/ours.$at_once"
  done
  echo "$(quickest "$work/ours.$at_once") $(quickest "$work/fixed.$at_once")" | awk -v k="$at_once" '{
    printf "a GetItem on a connection each, %d at a time: %d replies a second, %.1f microseconds of the processor each; ", k, $1 / $2, $3 / $1 / 1000
    printf "a fixed reply of as many bytes %d, %.1f: %.2f and %.2f times\n", $4 / $5, $6 / $4 / 1000, ($1 / $2) / ($4 / $5), ($6 / $4) / ($3 / $1) }'
done
stop "$server"
stop "$ours"

# instructions of a get, where they can be counted: over HTTP, and as a line
if command -v valgrind >/dev/null 2>&1; then
  count=(valgrind --tool=callgrind --callgrind-out-file=/dev/null)
  for of in 200 1200; do
    serving "${count[@]}" --log-file="$work/served.$of" "$program" "$work/gets" PORT serve 1 "$of" 65536 4
    "$work/client" "$port" "$of" 1 1 300 "$work/get" >/dev/null
    wait "$server"
    unset "running[$server]"
    yes "GetItem $get" | head -n "$of" >"$work/lines"
    "${count[@]}" --log-file="$work/lines.$of" "$program" "$work/gets" 0 replay 65536 4 <"$work/lines" >/dev/null
  done
  awk '/Collected/ { print $4 }' "$work"/{served,lines}.{200,1200} | paste -s | awk '{ a = ($2 - $1) / 1000; b = ($4 - $3) / 1000
    printf "a GetItem on a connection: %d instructions; as a line: %d, %.2f times\n", a, b, a / b }'
fi

# puts, beside the same puts as lines
lines "$puts" >"$work/lines"
seconds() { # COMMAND..
  local start end
  start=$(date +%s.%N)
  "$@"
  end=$(date +%s.%N)
  awk -v a="$start" -v b="$end" -v n="$puts" 'BEGIN { printf "%d %.6f 0\n", n, b - a }'
}
for round in 1 2 3; do
  made "lines$round"
  seconds replayed "lines$round" "$work/lines" >>"$work/lines.took"
  for way in '1 1 1' '4 1 1' "1 $puts $puts"; do
    read -r at_once per of <<<"$way"
    made "puts$round"
    serving "$program" "$work/puts$round" PORT serve "$of" 4294967295 65536 4
    asked "$server" "$port" "$((puts / per))" "$at_once" "$per" put >>"$work/puts.$at_once.$per"
    stop "$server"
    rm -rf "$work/puts$round"
  done
  rm -rf "$work/lines$round"
done
quickest "$work/lines.took" | awk '{ printf "%d puts as lines: %d a second\n", $1, $1 / $2 }'
beside() { # NAME FILE
  echo "$(quickest "$2") $(quickest "$work/lines.took")" | awk -v name="$1" '{
    printf "over HTTP, %s: %d a second, %.2f of that\n", name, $1 / $2, ($1 / $2) / ($4 / $5) }'
}
beside 'a connection each, one after another' "$work/puts.1.1"
beside 'a connection each, four at a time' "$work/puts.4.1"
beside 'one connection for all' "$work/puts.1.$puts"

# memory, after few connections and after many
held() { awk -v n="$1" '/^VmHWM/ { most = $2 } /^VmRSS/ { now = $2 } END { printf "after %d connections: %d KB at most, %d KB then\n", n, most, now }' "/proc/$server/status"; }
serving "$program" "$work/gets" PORT serve 1 4294967295 65536 4
asked "$server" "$port" 1000 1 1 get >/dev/null
held 1000
asked "$server" "$port" 99000 4 1 get >/dev/null
held 100000
