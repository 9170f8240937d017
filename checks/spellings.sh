#!/usr/bin/env bash
# Puts and batches of writes in many spellings: those that are read straight from the text of their bodies have the replies, and leave the items, of
# the same read as JSON trees (checks/spellings.py makes them).
set -u
cd "$(dirname "$0")/.."
work=$(mktemp -d)
trap 'rm -rf "$work"' EXIT
passed=0
failed=0
for seed in 1 2 3; do
  python3 checks/spellings.py "$seed" 2000 "$work/plain" "$work/other" || exit 1
  for which in plain other; do
    rm -rf "$work/store"
    ./alternator "$work/store" 0 init >/dev/null
    ./alternator "$work/store" 0 replay 65536 4 <"$work/$which" 2>"$work/noted" | sed -E 's/("[A-Za-z]*DateTime":)[0-9]+/\1/g' >"$work/$which.said"
  done
  differing=$(diff "$work/plain.said" "$work/other.said" | grep -c '^<')
  failed=$((failed + differing))
  passed=$((passed + $(wc -l <"$work/plain.said") - differing))
  diff "$work/plain.said" "$work/other.said" | head -n 4 | cut -c1-300
  # Enough of them have to be carried out, or nothing is shown.
  [ "$(grep -c '^200' "$work/plain.said")" -gt 500 ] || { echo "seed $seed: too few puts are carried out"; failed=$((failed + 1)); }
done
echo "spellings: $passed passed, $failed failed"
[ "$failed" = 0 ] && [ "$passed" -gt 0 ]
