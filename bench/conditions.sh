#!/usr/bin/env bash
# Instructions a line of `replay` for a put of an item of 337 bytes of JSON over the one before, without a condition and with one of two
# comparisons, with one that fails and shows the item, under one equation as an expression and as an entry of Expected, and for a delete
# of an item that isn't there; over the built program. Not part of the gate.
# Usage: bench/conditions.sh
set -eu
# shellcheck source=bench/lines.sh
. "$(dirname "$0")/lines.sh"
holds='"ConditionExpression":"total > :least AND paid = :paid","ExpressionAttributeValues":{":least":{"N":"0"},":paid":{"BOOL":true}}'
fails='"ConditionExpression":"total < :least AND paid = :paid","ExpressionAttributeValues":{":least":{"N":"0"},":paid":{"BOOL":true}},"ReturnValuesOnConditionCheckFailure":"ALL_OLD"'
stated='"ConditionExpression":"paid = :paid","ExpressionAttributeValues":{":paid":{"BOOL":true}}'
expected='"Expected":{"paid":{"Value":{"BOOL":true}}}'
{ printf '%s\n' "$create"; printf 'PutItem {"TableName":"Tab",%s}\n' "${item/TOTAL/5}"; } | filled
plain=$(measured "PutItem {\"TableName\":\"Tab\",$item}")
under=$(measured "PutItem {\"TableName\":\"Tab\",$item,$holds}")
refused=$(measured "PutItem {\"TableName\":\"Tab\",$item,$fails}")
by_text=$(measured "PutItem {\"TableName\":\"Tab\",$item,$stated}")
by_entry=$(measured "PutItem {\"TableName\":\"Tab\",$item,$expected}")
missing=$(measured 'DeleteItem {"TableName":"Tab","Key":{"pk":{"S":"customer#0000043"}}}')
echo "put over the one before: $plain instructions a line"
awk -v a="$plain" -v b="$under" 'BEGIN { printf "under a condition of two comparisons: %d, %.2f of that\n", b, b / a }'
awk -v a="$plain" -v b="$refused" 'BEGIN { printf "under one that fails and shows the item: %d, %.2f of that\n", b, b / a }'
awk -v a="$by_text" -v b="$by_entry" 'BEGIN { printf "under one equation as an expression, and as an entry of Expected: %d and %d, %.2f of that\n", a, b, b / a }'
echo "delete of an item that is not there: $missing"
rm -rf "$out/store" "$out/filled"
