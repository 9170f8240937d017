#!/usr/bin/env bash
# Refuses memory to the built program, one call at a time: bench/memory.sh [MOST]. It needs a C compiler and python3.
set -eu
cd "$(dirname "$0")/.."
./alternator build
work=$(mktemp -d)
trap 'rm -rf "$work"' EXIT
cc -shared -fPIC -O2 -o "$work/nomemory.so" bench/nomemory.c
python3 bench/memory.py "$PWD/crates/alternator/out/alternator" "$work/nomemory.so" "${1-100000}"
