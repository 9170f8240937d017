#!/usr/bin/env bash
# What batches cost, over the built program: the instructions of a BatchWriteItem of 25 puts beside 25 PutItems of the same items of 337 bytes, and
# of a BatchGetItem of 100 keys beside 100 GetItems. Not part of the gate. Usage: bench/batch.sh
set -eu
# shellcheck source=bench/lines.sh
. "$(dirname "$0")/lines.sh"
compared() { # SINGLE BATCH OPENED: what the lines of both files cost
  local opened=$3 single batch
  single=$(($(counted "$out/single.lines") - opened))
  batch=$(($(counted "$out/batch.lines") - opened))
  awk -v a="$single" -v b="$batch" -v one="$1" -v all="$2" 'BEGIN { printf "%s: %d instructions; %s: %d, %.2f of them\n", one, a, all, b, b / a }'
}
{ printf 'CreateTable {"TableName":"Tab",%s}\n' "$ranged"; each 0 100 "PutItem {\"TableName\":\"Tab\",\"Item\":$order}\n"; } | filled
: >"$out/none.lines"
opened=$(counted "$out/none.lines")
each 100 25 "PutItem {\"TableName\":\"Tab\",\"Item\":$order}\n" >"$out/single.lines"
members=$(each 100 25 "{\"PutRequest\":{\"Item\":$order}},")
printf 'BatchWriteItem {"RequestItems":{"Tab":[%s]}}\n' "${members%,}" >"$out/batch.lines"
compared '25 puts' 'a batch of them' "$opened"
each 0 100 "GetItem {\"TableName\":\"Tab\",\"Key\":$order_key}\n" >"$out/single.lines"
members=$(each 0 100 "$order_key,")
printf 'BatchGetItem {"RequestItems":{"Tab":{"Keys":[%s]}}}\n' "${members%,}" >"$out/batch.lines"
compared '100 gets' 'a batch of them' "$opened"
rm -rf "$out/store" "$out/filled"
