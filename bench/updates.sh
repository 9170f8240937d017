#!/usr/bin/env bash
# Instructions a line of `replay` for an update that raises a number of an item of 337 bytes of JSON, beside a get and a put of that item,
# for the swap of two attributes and for an update that changes nothing; and the bytes that such a raise writes to the log for an item of
# 400 KB. Over the built program. Not part of the gate.
# Usage: bench/updates.sh
set -eu
# shellcheck source=bench/lines.sh
. "$(dirname "$0")/lines.sh"
key='"Key":{"pk":{"S":"customer#0000042"}}'
{ printf '%s\n' "$create"; printf 'PutItem {"TableName":"Tab",%s}\n' "${item/TOTAL/5}"; } | filled
update() { # EXPRESSION VALUES
  printf 'UpdateItem {"TableName":"Tab",%s,"UpdateExpression":"%s"%s}' "$key" "$1" "$2"
}
put=$(measured "PutItem {\"TableName\":\"Tab\",$item}")
get=$(measured "GetItem {\"TableName\":\"Tab\",$key}")
raise=$(measured "$(update 'ADD total :one' ',"ExpressionAttributeValues":{":one":{"N":"1"}}')")
swap=$(measured "$(update 'SET note = sk, sk = note' '')")
same=$(measured "$(update 'REMOVE missing' '')")
echo "put over the one before: $put instructions a line; get: $get"
awk -v a="$((put + get))" -v b="$raise" 'BEGIN { printf "ADD total :one: %d, %.2f of both\n", b, b / a }'
awk -v a="$((put + get))" -v b="$swap" 'BEGIN { printf "SET note = sk, sk = note: %d, %.2f of both\n", b, b / a }'
awk -v a="$((put + get))" -v b="$same" 'BEGIN { printf "REMOVE missing, which writes nothing: %d, %.2f of both\n", b, b / a }'
# what is written for an item of 400 KB
large() { # COUNT
  printf '%s\n' "$create"
  head -c 409000 /dev/zero | tr '\0' x | awk '{ printf "PutItem {\"TableName\":\"Tab\",\"Item\":{\"pk\":{\"S\":\"customer#0000042\"},\"text\":{\"S\":\"%s\"},\"n\":{\"N\":\"1\"}}}\n", $0 }'
  for _ in $(seq "$1"); do printf '%s\n' "$(update 'ADD n :one' ',"ExpressionAttributeValues":{":one":{"N":"1"}}')"; done
}
written() { # COUNT: bytes of the log
  large "$1" | filled
  stat -c %s "$out/filled/00000002.alt"
}
echo "ADD n :one on an item of 400 KB writes $((($(written 101) - $(written 1)) / 100)) bytes to the log"
rm -rf "$out/store" "$out/filled"
