#!/usr/bin/env bash
# Rows of requests with the replies that are wanted: each checks/rows/NAME.lines runs over an empty store, and its replies have to be
# those of NAME.replies. What ends in DateTime is a moment, and is made equal first.
set -u
cd "$(dirname "$0")/.."
work=$(mktemp -d)
trap 'rm -rf "$work"' EXIT
plain() { sed -E 's/("[A-Za-z]*DateTime":)[0-9]+/\11700000000/g'; }
passed=0
failed=0
for lines in checks/rows/*.lines; do
  wanted=${lines%.lines}.replies
  mkdir "$work/store"
  ./alternator "$work/store" 0 init >/dev/null
  ./alternator "$work/store" 0 replay 65536 4 <"$lines" 2>"$work/noted" | plain >"$work/said"
  if cmp -s "$work/said" "$wanted" && [ ! -s "$work/noted" ]; then
    passed=$((passed + $(wc -l <"$wanted")))
  else
    failed=$((failed + 1))
    echo "differs: $lines"
    diff "$wanted" "$work/said" | head -n 6 | cut -c1-300
    head -n 1 "$work/noted"
  fi
  rm -rf "$work/store"
done
echo "rows: $passed passed, $failed failed"
[ "$failed" = 0 ] && [ "$passed" -gt 0 ]
