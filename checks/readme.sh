#!/usr/bin/env bash
# Runs each example of the README and of docs/EXAMPLES.md and compares the replies. An example is a block marked
# `sh`, followed by a block marked `text` with what it says. Moments are made equal first.
set -u
cd "$(dirname "$0")/.."
work=$(mktemp -d)
trap 'rm -rf "$work"' EXIT
awk -v dir="$work" '
  /^```sh$/   { n++; file = dir "/" sprintf("%02d", n) ".sh"; next }
  /^```text$/ { if (n) { file = dir "/" sprintf("%02d", n) ".want"; printf "" > file } next }
  /^```/      { file = ""; next }
  file        { print > file }
' README.md docs/EXAMPLES.md
plain() { sed -E 's/("[A-Za-z]*DateTime":)[0-9]+/\11700000000/g'; }
passed=0
failed=0
for script in "$work"/*.sh; do
  want=${script%.sh}.want
  [ -e "$want" ] || continue
  if diff <(plain <"$want") <(bash "$script" 2>/dev/null | plain); then
    passed=$((passed + 1))
  else
    failed=$((failed + 1))
    echo "differs: $(head -n 4 "$script")"
  fi
done
echo "readme: $passed passed, $failed failed"
[ "$failed" = 0 ] && [ "$passed" -gt 0 ]
