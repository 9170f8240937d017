#!/usr/bin/env bash
# Instructions to refuse 45,000 bytes of lists in one another, which are nested 5,000 deep, by the call for bytes that may be damaged;
# beside them those to read lists that are nested as deep as it allows. Not part of the gate.
set -eu
# shellcheck source=bench/rounds.sh
. "$(dirname "$0")/rounds.sh"
begin "${1:-HEAD}" "alt_cellbytes alt_value" alt_base alt_decimal alt_fields alt_value alt_cellbytes
cat >"$main" <<'RATTLE'
//! Reads the cell bytes of lists in one another, again and again: 5,000 of them 100 times, with one word 10,100 times; with two
//! words 32 of them 100 times, with three 10,100 times. It allows 32, and prints how many were read.
#![tactic(auto)]

use std::alloc::Global;
use std::env;

/// So many lists in one another, of which the innermost is empty.
fn nested(alloc: Global, lists: u32) -> Option<Vec<u8>> {
    let mut bytes = Vec::new(alloc);
    for left in 0..lists {
        let count = if left + 1 < lists { 1u8 } else { 0 };
        bytes.extend_from_slice(&[9, 0, 0, 0, 0, 0, 0, 0, count]).ok()?;
    }
    Some(bytes)
}

fn read(alloc: Global, bytes: &[u8]) -> u32 {
    match alt_cellbytes::attr_within(alloc, bytes, 32) {
        Ok(_) => 1,
        Err(_) => 0,
    }
}

fn main(rt: HostRuntime) {
    let words = match env::args(&rt) {
        Ok(args) => args.count(),
        Err(_) => 0,
    };
    let rounds: u32 = if words == 2 || words == 4 { 10_100 } else { 100 };
    let lists: u32 = if words >= 3 { 32 } else { 5_000 };
    let mut sum: u32 = 0;
    if let Some(bytes) = nested(rt.alloc(), lists) {
        for _ in 0..rounds {
            sum = sum.wrapping_add(read(rt.alloc(), bytes.as_slice()));
        }
    }
    let _ = println!(rt; "{sum}");
}
RATTLE
build
if [ "$("$program") $("$program" a b)" != "0 100" ]; then
  echo "bench/cellbytes.sh: 32 lists aren't read, or 5,000 are" >&2
  exit 1
fi
echo "45,000 bytes of lists in one another, refused: $((($(instructions a) - $(instructions)) / 10000)) instructions"
echo "32 lists in one another, read: $((($(instructions a b c) - $(instructions a b)) / 10000)) instructions"
